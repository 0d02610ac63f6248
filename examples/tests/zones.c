/* A thermostat's zones, in two places of which tools are wrong: each is marked by a call that prints. */
int printf(const char *format, ...);

struct zone {
    int id;
    int target;
    int current;
    unsigned faults;
};

static struct zone zones[4] = {
    { 0, 21, 18, 0u },
    { 1, 19, 24, 0u },
    { 2, 23, 23, 0u },
    { 3, 16, 12, 0u },
};
static int alarm = 0;
static unsigned checksum = 0xffffu;

static void note(int value)
{
    for (int k = 0; k < 4; k++)
        checksum = (checksum << 1 ^ checksum >> 3 ^ ((unsigned)value >> 8 * k & 0xffu)) & 0xffffu;
}

static int clamped(int value, int low, int high)
{
    if (value < low)
        return low;
    return value > high ? high : value;
}

static void feed(int round)
{
    for (int k = 0; k < 4; k++) {
        struct zone *zone = &zones[k];
        int step = zone->target - zone->current;
        zone->current += clamped(step, -round, round);
        note(zone->current);
    }
}

/* The alarm is never raised: gcc keeps the block all the same. */
static int sounded(void)
{
    int rings = 0;
    printf("AT1 ");
    if (alarm) {
        printf("DEAD1 ");
        rings = 3;
    }
    return rings;
}

/* Where no zone is found nothing is left to visit: cppcheck warns of a null pointer. */
static int visit(int which)
{
    struct zone *found = 0;
    int left = 0;
    if (which >= 0 && which < 4) {
        found = &zones[which];
        left++;
    }
    while (left--) {
        printf("AT2 ");
        found->faults++;
    }
    return which;
}

int main(void)
{
    int rings = 0;
    for (int round = 1; round < 4; round++) {
        feed(round);
        rings += sounded();
        note(visit(round) + visit(round + 2));
    }
    alarm = 0;
    printf("%u rings %d faults %u\n", checksum, rings, zones[3].faults);
    return 0;
}
