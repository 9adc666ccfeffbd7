/* Times the proved library. A line for each case: name, microseconds, low, high, answer. The exact value (share and rise; the largest heating sum T of a
   factor; the share G of a current; all in millionths) lies between low and high: that is what the answer promises of it. */
#include "bench.h"
#include "../include/kechmowad.h"

static int64_t answer[5];

static void ask_share(const Case *c) { kechmowad_share(c->cable, c->minutes, answer); }
static void ask_rise(const Case *c) { kechmowad_rise(c->sheet, c->length, answer); }
static void ask_factor(const Case *c) { kechmowad_factor(c->cable, c->hours, answer); }
static void ask_current(const Case *c) { kechmowad_current(c->cable, c->h, c->r, c->minutes, answer); }

static Work *work_of(const Case *c)
{
    if (asks(c, "share"))
        return ask_share;
    if (asks(c, "rise") || asks(c, "trench"))
        return ask_rise;
    return asks(c, "factor") ? ask_factor : ask_current;
}

/* m²·T is at most 10^12, and below the cap (m + 1)²·(T + 301) is at least 10^12 + 1, T the largest of the 24 exact sums. */
static void print_factor(double m)
{
    double low = m < 5000 ? (1e12 + 1) / ((m + 1) * (m + 1)) - 301 : 0;
    printf("%.3f %.3f %.0f\n", low, m > 0 ? 1e12 / (m * m) : 1e300, m);
}

/* The certifying rule holds of i with G, and below the cap it fails of i + 1 with G + 50. */
static void print_current(const Case *c, double i)
{
    double rated = c->cable[RATED], preload = (double)(c->h * c->h) * rated * rated;
    double spare = (100.0 * c->r - (double)(c->h * c->h)) * rated * rated * 1e6;
    double here = 1e4 * i * i - preload, next = 1e4 * (i + 1) * (i + 1) - preload;
    double low = i < 10000 && next > 0 ? (spare + 1) / next - 50 : 0;
    printf("%.3f %.3f %.0f\n", low, here > 0 ? spare / here : 1e300, i);
}

static void print_case(const Case *c)
{
    printf("%s %.4f ", c->name, microseconds(work_of(c), c, RUN_SECONDS));
    if (answer[0] != 0) {
        fprintf(stderr, "bench: %s is refused: %" PRId64 " %" PRId64 "\n", c->name, answer[0], answer[2]);
        exit(1);
    }
    if (asks(c, "factor"))
        print_factor((double)answer[3]);
    else if (asks(c, "current"))
        print_current(c, (double)answer[3]);
    else
        printf("%" PRId64 " %" PRId64 " %" PRId64 "..%" PRId64 "\n", answer[3], answer[4], answer[3], answer[4]);
    fflush(stdout);
}

int main(void)
{
    Case c;
    while (read_case(&c))
        print_case(&c);
    return 0;
}
