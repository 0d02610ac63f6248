int printf(const char *format, ...);

static int limit = 2147483647;

static int above(int value)
{
    int next = value + 1;
    return next > value;
}

int main(void)
{
    printf("%d\n", above(limit));
    return 0;
}
