/* Looks for the share that takes the proved library longest and prints the slowest as cases for bench/cases.txt, named after how many times as long as
   cable A after 1 hour they take. First every choice of low end, middle and high end for each number; then, from the slowest of those, each number in turn
   over its whole range. */
#include "bench.h"
#include "../include/kechmowad.h"
#include <math.h>

enum { MINUTES = RATED, NUMBERS, KEPT = 6, SWEEP = 64, ROUNDS = 3, BATCH = 16 };

static const struct { double low, middle, high; } ranges[NUMBERS] = {
    { 100, 500, 1500 }, { 300, 1000, 5000 }, { 100, 500, 2000 }, { 0, 600000, 1000000 },
    { 0, 500000, 1000000 }, { 1, 1000, 100000 }, { 1, 100, 100000 }, { 1, 60, 2880 },
};

typedef struct { double times; uint32_t numbers[NUMBERS]; } Point;

static const uint32_t usual[NUMBERS] = { 500, 1000, 500, 600000, 500000, 1000, 100, 60 };

static int64_t answer[5];

static void work(const Case *c) { kechmowad_share(c->cable, c->minutes, answer); }

static Case share_of(const uint32_t numbers[NUMBERS])
{
    Case c = { .minutes = numbers[MINUTES] };
    memcpy(c.cable, numbers, MINUTES * sizeof *numbers);
    c.cable[RATED] = 400;
    return c;
}

static double lesser(double a, double b) { return a < b ? a : b; }

/* How many times as long as the usual share; 0 for a share that is refused. Both are the best of many short batches in turns, so that neither what else
   the machine does nor its changes of pace tell. */
static double times_of(const uint32_t numbers[NUMBERS], int batches)
{
    Case here = share_of(numbers), there = share_of(usual);
    double one = 1, other = 1;
    for (int i = 0; i < batches; i++) {
        other = lesser(other, run(work, &there, BATCH));
        one = lesser(one, run(work, &here, BATCH));
    }
    return answer[0] == 0 ? one / other : 0;
}

/* Keeps the slowest points, the slowest first. */
static void keep(Point kept[KEPT], Point next)
{
    for (int i = 0; i < KEPT; i++)
        if (next.times > kept[i].times) {
            Point moved = kept[i];
            kept[i] = next;
            next = moved;
        }
}

static void try_corners(Point kept[KEPT])
{
    int corners = 1;
    for (int i = 0; i < NUMBERS; i++)
        corners *= 3;
    for (int corner = 0; corner < corners; corner++) {
        Point next;
        for (int i = 0, rest = corner; i < NUMBERS; i++, rest /= 3)
            next.numbers[i] = (uint32_t)(rest % 3 == 0 ? ranges[i].low : rest % 3 == 1 ? ranges[i].middle : ranges[i].high);
        next.times = times_of(next.numbers, 25);
        keep(kept, next);
    }
}

/* One number over its range, by steps that grow with it, the others held. Less than a two-hundredth more is noise. */
static void sweep(Point *best, int number)
{
    double low = ranges[number].low > 1 ? ranges[number].low : 1, high = ranges[number].high;
    best->times = times_of(best->numbers, 100);
    for (int i = 0; i < SWEEP; i++) {
        Point next = *best;
        next.numbers[number] = (uint32_t)lround(low * pow(high / low, (double)i / (SWEEP - 1)));
        next.times = times_of(next.numbers, 100);
        if (next.times > 1.005 * best->times)
            *best = next;
    }
}

static void print_point(int place, const Point *point)
{
    const uint32_t *f = point->numbers;
    printf("%d-takes-%.3f share", place, point->times);
    for (int i = 0; i < MINUTES; i++)
        printf(" %" PRIu32, f[i]);
    printf(" 400   %" PRIu32 "\n", f[MINUTES]);
}

int main(void)
{
    Point kept[KEPT] = { 0 }, slowest[KEPT] = { 0 };
    try_corners(kept);
    for (int i = 0; i < KEPT; i++) {
        for (int round = 0; round < ROUNDS; round++)
            for (int number = 0; number < NUMBERS; number++)
                sweep(&kept[i], number);
        /* Timed anew and longer: the slowest of many is in part the most disturbed. */
        kept[i].times = times_of(kept[i].numbers, 5000);
        keep(slowest, kept[i]);
    }
    for (int i = 0; i < KEPT; i++)
        print_point(i + 1, &slowest[i]);
    return 0;
}
