struct pair { int first; int second; };

static struct pair whole = { 3, 4 };

static int sum(struct pair *pair, int factor)
{
    return pair->first * factor + pair->second;
}

int main(void)
{
    whole.second = sum(&whole, 2);
    return whole.second;
}
