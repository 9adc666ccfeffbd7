/* Times Arb on the cases. A line for each: name, microseconds, value, radius, and how (the way to E1 and the bits at the start). The value is the exact
   one in millionths (share and rise; the largest heating sum T of a factor; the share G of a current), with a radius below one half.
   `plain`: document 01's formula as it stands, with a source for each neighbour, from 64 bits on, by the quickest of Arb's functions for E1. `fitted`: with what favours Arb on these cases,
   the quickest of all ways to E1 and of several starting precisions, and no integral worked out that is too small to matter. */
#if __has_include(<flint/arb.h>)
#include <flint/acb.h>
#include <flint/acb_hypgeom.h>
#include <flint/arb.h>
#include <flint/arb_hypgeom.h>
#else
#include <acb.h>
#include <acb_hypgeom.h>
#include <arb.h>
#include <arb_hypgeom.h>
#endif
#include "bench.h"

#ifdef ARB_VERSION
#define VERSION "Arb " ARB_VERSION
#else
#define VERSION "Arb in FLINT " FLINT_VERSION
#endif

typedef void Integral(arb_t e1, const arb_t z, slong bits);

static arb_t zero, one, negated, p, q, near, image, steady, fast, slow, share, sum, value, amperes;
static arb_t hourly[6];
static acb_t at, ei;

static void by_expint(arb_t e1, const arb_t z, slong bits) { arb_hypgeom_expint(e1, one, z, bits); }
static void by_gamma(arb_t e1, const arb_t z, slong bits) { arb_hypgeom_gamma_upper(e1, zero, z, 0, bits); }

static void by_ei(arb_t e1, const arb_t z, slong bits)
{
    arb_neg(negated, z);
    arb_hypgeom_ei(e1, negated, bits);
    arb_neg(e1, e1);
}

/* As many bits as leave an error of about 2^-bits: the power series loses z/ln 2 of them, and the asymptotic one, whose own error is near e^-2z, has so
   many to spare. */
static void by_fitted(arb_t e1, const arb_t z, slong bits)
{
    double size = arf_get_d(arb_midref(z), ARF_RND_NEAR);
    slong lost = (slong)(1.4427 * size);
    if (size < 0.35 * (double)bits) {
        by_ei(e1, z, bits + lost);
        return;
    }
    arb_neg(acb_realref(at), z);
    acb_hypgeom_ei_asymp(ei, at, bits - lost > 4 ? bits - lost : 4);
    arb_neg(e1, acb_realref(ei));
}

static const struct { const char *name; Integral *integral; } ways[] = {
    { "expint", by_expint }, { "gamma", by_gamma }, { "ei", by_ei }, { "fitted", by_fitted },
};
static const slong starts[] = { 24, 28, 32, 40, 53, 64 };

/* The functions and the start that a plain call takes. */
enum { PLAIN_WAYS = 3, PLAIN_START = 5 };

static Integral *integral;
static slong start;
static int plain;

/* E1 of above/below. From 0.7 times the bits on it is under 2^-bits, which stands for it where Arb is fitted. */
static void tail(arb_t e1, ulong above, ulong below, slong bits)
{
    if (!plain && 10 * above >= 7 * (ulong)bits * below) {
        arb_zero(e1);
        arb_add_error_2exp_si(e1, -bits);
        return;
    }
    arb_set_ui(e1, above);
    arb_div_ui(e1, e1, below, bits);
    integral(e1, e1, bits);
}

static void decay(arb_t e, ulong weight, ulong rate, ulong seconds, slong bits)
{
    arb_set_ui(e, rate * seconds);
    arb_div_ui(e, e, 1000000, bits);
    arb_neg(e, e);
    arb_exp(e, e, bits);
    arb_mul_ui(e, e, weight, bits);
}

/* c² or m² of a neighbour in mm²: to its axis with its depth, to its image with the negative of it. */
static ulong squared(const Case *c, uint32_t i, slong depth)
{
    slong aside = c->offsets[i], down = (slong)c->cable[L] - depth;
    return (ulong)(aside * aside + down * down);
}

static ulong to_axis(const Case *c, uint32_t i) { return squared(c, i, c->depths[i]); }
static ulong to_image(const Case *c, uint32_t i) { return squared(c, i, -(slong)c->depths[i]); }

/* ln(1,600·l²/d²) and each ln(m²/c²), the same for every share of a case. */
static void set_steady(const Case *c, slong bits)
{
    arb_set_ui(steady, 40ul * c->cable[L]);
    arb_div_ui(steady, steady, c->cable[D], bits);
    arb_log(steady, steady, bits);
    arb_mul_2exp_si(steady, steady, 1);
    for (uint32_t i = 0; i < c->neighbours; i++) {
        arb_set_ui(image, to_image(c, i));
        arb_div_ui(image, image, to_axis(c, i), bits);
        arb_log(image, image, bits);
        arb_add(steady, steady, image, bits);
    }
}

/* Adds each neighbour's integral, from c²/(4tδ) to m²/(4tδ). */
static void add_neighbours(const Case *c, ulong spread, slong bits)
{
    for (uint32_t i = 0; i < c->neighbours; i++) {
        tail(near, 250ul * to_axis(c, i), spread, bits);
        tail(image, 250ul * to_image(c, i), spread, bits);
        arb_add(p, p, near, bits);
        arb_sub(p, p, image, bits);
    }
}

static void set_share(const Case *c, ulong minutes, slong bits)
{
    const uint32_t *f = c->cable;
    ulong seconds = 60 * minutes, spread = seconds * f[S];
    tail(p, 5ul * f[D] * f[D], 8 * spread, bits);
    tail(q, 1000ul * f[L] * f[L], spread, bits);
    arb_sub(p, p, q, bits);
    add_neighbours(c, spread, bits);
    arb_div(p, p, steady, bits);
    arb_mul_ui(p, p, f[K], bits);
    arb_add_ui(p, p, 1000000ul - f[K], bits);
    decay(fast, f[W], f[FAST], seconds, bits);
    decay(slow, 1000000ul - f[W], f[SLOW], seconds, bits);
    arb_add(fast, fast, slow, bits);
    arb_sub_ui(fast, fast, 1000000, bits);
    arb_mul(share, p, fast, bits);
    arb_div_si(share, share, -1000000, bits);
}

static void value_of_share(const Case *c, slong bits)
{
    set_share(c, c->minutes, bits);
    arb_set(value, share);
}

static slong square(uint32_t current) { return (slong)current * current; }

static void value_of_rise(const Case *c, slong bits)
{
    slong before = square(c->start);
    arb_set_si(value, before * 1000000);
    for (uint32_t i = 0; i < c->steps; i++) {
        slong after = square(c->step_amperes[i]);
        set_share(c, c->step_minutes[i], bits);
        arb_addmul_si(value, share, after - before, bits);
        before = after;
    }
    arb_div_ui(value, value, (ulong)square(c->cable[RATED]), bits);
}

static slong earlier(const Case *c, int hour, int hours) { return square(c->hours[(hour + 24 - hours) % 24]); }

/* The heating sum with that hour as the reference, from the shares after 1 to 6 hours: gathered, and times 24·highest, so that what multiplies each share
   is whole. */
static void set_sum(const Case *c, int hour, slong all, slong bits)
{
    arb_set_si(sum, all * 1000000);
    for (int i = 1; i <= 6; i++)
        arb_addmul_si(sum, hourly[i - 1], 24 * earlier(c, hour, i - 1) - (i < 6 ? 24 * earlier(c, hour, i) : all), bits);
}

/* Document 02, note 1: 'The factor rule now speaks of the largest exact sum'. The largest of the 24 balls holds it, whichever hour has it. */
static void value_of_factor(const Case *c, slong bits)
{
    slong all = 0, highest = 0;
    for (int i = 0; i < 24; i++) {
        slong here = square(c->hours[i]);
        highest = here > highest ? here : highest;
        all += here;
    }
    for (int i = 0; i < 6; i++) {
        set_share(c, 60 * (ulong)(i + 1), bits);
        arb_swap(hourly[i], share);
    }
    set_sum(c, 0, all, bits);
    arb_swap(value, sum);
    for (int hour = 1; hour < 24; hour++) {
        set_sum(c, hour, all, bits);
        arb_max(value, value, sum, bits);
    }
    arb_div_ui(value, value, 24 * (ulong)highest, bits);
}

/* The share G, and with it the amperes that keep the limit exactly. */
static void value_of_current(const Case *c, slong bits)
{
    value_of_share(c, bits);
    arb_set_ui(amperes, (100ul * c->r - c->h * c->h) * 1000000);
    arb_div(amperes, amperes, value, bits);
    arb_add_ui(amperes, amperes, c->h * c->h, bits);
    arb_sqrt(amperes, amperes, bits);
    arb_mul_ui(amperes, amperes, c->cable[RATED], bits);
    arb_div_ui(amperes, amperes, 100, bits);
}

static void (*value_of)(const Case *, slong);

/* The precision is doubled until the radius is below one half. */
static void work(const Case *c)
{
    for (slong bits = start;; bits *= 2) {
        set_steady(c, bits);
        value_of(c, bits);
        if (mag_cmp_2exp_si(arb_radref(value), -1) < 0)
            return;
    }
}

static void choose_question(const Case *c)
{
    int rise = asks(c, "rise") || asks(c, "trench");
    value_of = asks(c, "share") ? value_of_share : rise ? value_of_rise : asks(c, "factor") ? value_of_factor : value_of_current;
}

/* Sets the quickest way to E1 and the quickest start, by short runs, each printed if so asked. Returns the way's name. */
static const char *choose_quickest(const Case *c, int print)
{
    double best = 0;
    size_t best_way = 0;
    slong best_start = 0;
    size_t all_ways = plain ? PLAIN_WAYS : sizeof ways / sizeof *ways;
    for (size_t w = 0; w < all_ways; w++)
        for (size_t s = plain ? PLAIN_START : 0; s < sizeof starts / sizeof *starts; s++) {
            integral = ways[w].integral;
            start = starts[s];
            double next = microseconds(work, c, RUN_SECONDS / 16);
            if (print)
                printf("%s %s/%ld %.3f\n", c->name, ways[w].name, (long)start, next);
            if (best_start == 0 || next < best) {
                best = next;
                best_way = w;
                best_start = start;
            }
        }
    integral = ways[best_way].integral;
    start = best_start;
    return ways[best_way].name;
}

static void init(void)
{
    arb_ptr all[] = { zero, one, negated, p, q, near, image, steady, fast, slow, share, sum, value, amperes };
    for (size_t i = 0; i < sizeof all / sizeof *all; i++)
        arb_init(all[i]);
    for (size_t i = 0; i < sizeof hourly / sizeof *hourly; i++)
        arb_init(hourly[i]);
    arb_one(one);
    acb_init(at);
    acb_init(ei);
}

/* The word `version` prints that and times nothing; `ways` prints what each way and start takes where Arb is fitted. */
int main(int count, char **words)
{
    Case c;
    const char *mode = count > 1 ? words[1] : "plain";
    int print = strcmp(mode, "ways") == 0;
    if (strcmp(mode, "version") == 0)
        return puts(VERSION) < 0;
    plain = strcmp(mode, "plain") == 0;
    init();
    while (read_case(&c)) {
        choose_question(&c);
        const char *way = choose_quickest(&c, print);
        if (print)
            continue;
        double us = microseconds(work, &c, RUN_SECONDS);
        printf("%s %.4f %.6f %.6f %s/%ld\n", c.name, us, arf_get_d(arb_midref(value), ARF_RND_NEAR), mag_get_d(arb_radref(value)), way, (long)start);
        fflush(stdout);
    }
    return 0;
}
