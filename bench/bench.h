/* What the C programs of the benchmark share: the cases, read from standard input, and the clock. */
#include <inttypes.h>
#include <stdint.h>
#include <stdio.h>
#include <stdlib.h>
#include <string.h>
#include <time.h>

#define RECORDS 48
#define SHEET_BYTES (38 + 6 * RECORDS)
#define RUNS 5

/* Shorter only to go quickly through many cases: then the figures are rougher. */
#ifndef RUN_SECONDS
#define RUN_SECONDS 0.25
#endif

enum { D, L, S, K, W, FAST, SLOW, RATED, FIELDS };

typedef struct {
    char name[32], question[16];
    uint32_t cable[FIELDS];
    uint32_t minutes, h, r;
    uint16_t hours[24];
    uint32_t start, steps, step_minutes[RECORDS], step_amperes[RECORDS];
    uint32_t neighbours, depths[RECORDS];
    int32_t offsets[RECORDS];
    uint8_t sheet[SHEET_BYTES];
    size_t length;
} Case;

static void hold(int holds, const char *name, const char *what)
{
    if (holds)
        return;
    fprintf(stderr, "bench: %s%s\n", name, what);
    exit(2);
}

static uint32_t word(void)
{
    uint32_t value;
    hold(scanf("%" SCNu32, &value) == 1, "", "a case is cut short");
    return value;
}

static int32_t signed_word(void)
{
    int32_t value;
    hold(scanf("%" SCNd32, &value) == 1, "", "a case is cut short");
    return value;
}

static void put(Case *c, uint32_t value, int bytes)
{
    while (bytes-- > 0)
        c->sheet[c->length++] = (uint8_t)(value >> (8 * bytes));
}

static int asks(const Case *c, const char *question) { return strcmp(c->question, question) == 0; }

/* A record that links to the next one, unless it is the last of its kind. */
static void put_record(Case *c, uint32_t one, uint32_t two, uint32_t number, uint32_t last)
{
    put(c, one, 2);
    put(c, two, 2);
    put(c, number < last ? number + 1 : 0, 2);
}

static void put_header(Case *c)
{
    for (int i = 0; i < FIELDS; i++)
        put(c, c->cable[i], 4);
    put(c, c->start, 2);
    put(c, c->steps > 0, 2);
    if (asks(c, "trench"))
        put(c, c->neighbours > 0 ? c->steps + 1 : 0, 2);
}

/* The sheet of a rise: its records stand in the order of its chains, the steps first. */
static void write_sheet(Case *c)
{
    uint32_t steps = c->steps, all = steps + c->neighbours;
    put_header(c);
    for (uint32_t i = 0; i < steps; i++)
        put_record(c, c->step_minutes[i], c->step_amperes[i], i + 1, steps);
    for (uint32_t i = 0; i < c->neighbours; i++)
        put_record(c, (uint32_t)c->offsets[i], c->depths[i], steps + i + 1, all);
}

static void read_steps(Case *c)
{
    c->start = word();
    c->steps = word();
    hold(c->steps <= RECORDS, c->name, " has too many steps");
    for (uint32_t i = 0; i < c->steps; i++) {
        c->step_minutes[i] = word();
        c->step_amperes[i] = word();
    }
}

static void read_neighbours(Case *c)
{
    c->neighbours = word();
    hold(c->neighbours <= RECORDS - c->steps, c->name, " has too many steps and neighbours");
    for (uint32_t i = 0; i < c->neighbours; i++) {
        c->offsets[i] = signed_word();
        c->depths[i] = word();
    }
}

static void read_rise(Case *c)
{
    read_steps(c);
    if (asks(c, "trench"))
        read_neighbours(c);
    write_sheet(c);
}

/* The next case of standard input; 0 where there is none. */
static inline int read_case(Case *c)
{
    memset(c, 0, sizeof *c);
    if (scanf("%31s %15s", c->name, c->question) != 2)
        return 0;
    for (int i = 0; i < FIELDS; i++)
        c->cable[i] = word();
    if (asks(c, "factor"))
        for (int i = 0; i < 24; i++)
            c->hours[i] = (uint16_t)word();
    if (asks(c, "rise") || asks(c, "trench"))
        read_rise(c);
    if (asks(c, "current")) {
        c->h = word();
        c->r = word();
    }
    if (asks(c, "share") || asks(c, "current"))
        c->minutes = word();
    return 1;
}

typedef void Work(const Case *);

static double run(Work *work, const Case *c, long count)
{
    struct timespec from, to;
    clock_gettime(CLOCK_MONOTONIC, &from);
    for (long i = 0; i < count; i++)
        work(c);
    clock_gettime(CLOCK_MONOTONIC, &to);
    return (double)(to.tv_sec - from.tv_sec) + 1e-9 * (double)(to.tv_nsec - from.tv_nsec);
}

/* Microseconds a call: the best of several runs, each with as many calls as last the given seconds. */
static inline double microseconds(Work *work, const Case *c, double seconds)
{
    long count = 1;
    double best;
    while ((best = run(work, c, count)) < seconds)
        count *= 2;
    for (int i = 1; i < RUNS; i++) {
        double next = run(work, c, count);
        best = next < best ? next : best;
    }
    return 1e6 * best / (double)count;
}
