#pragma STDC FENV_ACCESS OFF
/* The reducer's sample: it keeps what the test asks for, and drops the other lines. */
enum { WIDTH = 4, HEIGHT = 3 };

static int cells[WIDTH * HEIGHT];
static unsigned int seed = 1u;

static unsigned int next(void)
{
    seed = seed * 1103515245u + 12345u;
    return seed >> 16;
}

static int sum(void)
{
    int total = 0;
    for (int i = 0; i < WIDTH * HEIGHT; i++)
        total = total + cells[i];
    return total;
}

int main(void)
{
    for (int i = 0; i < WIDTH * HEIGHT; i++)
        cells[i] = (int)(next() % 10u);
    return sum() / WIDTH;
}
