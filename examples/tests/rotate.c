int printf(const char *format, ...);

struct state { unsigned int sum; int steps; };
enum { COUNT = 8 };

static const int table[COUNT] = { 3, 1, 4, 1, 5, 9, 2, 6 };
static struct state whole = { 1u, 0 };

static unsigned int rotate(unsigned int value)
{
    return (value << 5) | (value >> 27);
}

static int find(int wanted)
{
    for (int i = 0; i < COUNT; i++)
        if (table[i] == wanted)
            return i + 1;
    return 0;
}

static void step(struct state *state, int value)
{
    int place;
    switch (value % 4) {
    case 0:
        state->sum += 7u;
        break;
    default:
        state->sum ^= 2654435769u * (unsigned int)value;
    }
    if (place = find(value))
        state->sum += (unsigned int)place;
    state->sum = rotate(state->sum);
    state->steps++;
}

int main(void)
{
    for (int i = 0; i < 3 * COUNT; i++)
        step(&whole, table[i % COUNT] + i);
    printf("%u after %d steps\n", whole.sum, whole.steps);
    return 0;
}
