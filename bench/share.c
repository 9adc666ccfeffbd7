/* Times the share in unproved C, by the same fixed point, as a baseline. A line for each share among the cases: name, microseconds, the middle of its pair
   and half its width. */
#include "bench.h"

typedef uint64_t u64;
typedef struct { u64 low, high; } Pair;

#define ONE (1ull << 30)
#define MILLION 1000000ull
#define BETA_ONE 7500000ull

static Pair series(u64 theta, u64 tau)
{
    u64 power = tau, term = theta + tau, sum = ONE + term / 2;
    for (u64 k = 2; k <= 19; k++) {
        power = power * tau / ONE / k;
        term = theta * term / ONE + power;
        sum += term / (k + 1);
    }
    return (Pair){ sum, sum + 172 + 2 * (term + 15) / 20 };
}

static Pair exp_fraction(u64 x)
{
    u64 term = x, sum = ONE + x;
    for (u64 k = 2; k <= 12; k++) {
        term = term * x / ONE / k;
        sum += term;
    }
    u64 high = ONE * ONE / sum + 1;
    return (Pair){ ONE * ONE / (sum + 49), high < ONE ? high : ONE };
}

static Pair exp_neg(u64 num, u64 den)
{
    u64 m = num / den;
    if (m > 16)
        return (Pair){ 0, 45 };
    Pair rest = exp_fraction(num % den * ONE / den);
    for (; m > 0; m--)
        rest = (Pair){ rest.low * 395007542 / ONE, rest.high * 395007543 / ONE + 1 };
    return rest;
}

static Pair logarithm_slice(u64 x, u64 y)
{
    u64 theta = (y - x) * ONE / y;
    Pair q = series(theta, 0);
    return (Pair){ theta * q.low / ONE, (theta + 1) * q.high / ONE + 1 };
}

static Pair logarithm(u64 x, u64 y)
{
    u64 n = 0;
    for (; 2 * x <= y; x += x)
        n++;
    Pair rest = logarithm_slice(x, y);
    return (Pair){ 744261068 * n + rest.low, 744261259 * n + rest.high };
}

static u64 least(u64 a, u64 b) { return a < b ? a : b; }
static u64 greatest(u64 a, u64 b) { return a < b ? b : a; }

/* The slices from 15 - i to 16 - i, those from 1/2^(k + 1) to 1/2^k, and e^(-u) at the knots 16, 15, .., 1, 1/2, .. */
static const Pair units[15] = {
    { 13, 14 }, { 39, 40 }, { 114, 115 }, { 335, 337 }, { 993, 994 }, { 2959, 2961 }, { 8901, 8903 }, { 27077, 27079 }, { 83554, 83555 },
    { 262637, 262639 }, { 846336, 846339 }, { 2825074, 2825077 }, { 9952542, 9952546 }, { 38495927, 38495936 }, { 183055124, 183055251 },
};

static const Pair halves[32] = {
    { 365490548, 365490704 }, { 520237556, 520237728 }, { 621849995, 621850190 }, { 680198467, 680198676 }, { 711480453, 711480670 },
    { 727678844, 727679066 }, { 735921378, 735921603 }, { 740078994, 740079218 }, { 742166950, 742167176 }, { 743213225, 743213451 },
    { 743736937, 743737163 }, { 743998937, 743999162 }, { 744129973, 744130199 }, { 744195500, 744195725 }, { 744228266, 744228492 },
    { 744244651, 744244876 }, { 744252841, 744253067 }, { 744256938, 744257164 }, { 744258986, 744259212 }, { 744260009, 744260236 },
    { 744260521, 744260747 }, { 744260778, 744261004 }, { 744260905, 744261131 }, { 744260970, 744261196 }, { 744261001, 744261227 },
    { 744261018, 744261244 }, { 744261025, 744261252 }, { 744261029, 744261256 }, { 744261031, 744261257 }, { 744261032, 744261258 },
    { 744261033, 744261259 }, { 744261034, 744261259 },
};

static const Pair exps[47] = {
    { 120, 122 }, { 328, 329 }, { 892, 894 }, { 2426, 2428 }, { 6597, 6598 }, { 17933, 17934 }, { 48747, 48749 }, { 132509, 132511 },
    { 360199, 360201 }, { 979125, 979127 }, { 2661539, 2661541 }, { 7234814, 7234817 }, { 19666266, 19666269 }, { 53458454, 53458459 },
    { 145315146, 145315155 }, { 395007523, 395007544 }, { 651257320, 651257339 }, { 836230944, 836230975 }, { 947573797, 947573836 },
    { 1008687054, 1008687098 }, { 1040706216, 1040706263 }, { 1057094953, 1057095002 }, { 1065385851, 1065385900 }, { 1069555653, 1069555703 },
    { 1071646670, 1071646720 }, { 1072693711, 1072693760 }, { 1073217615, 1073217664 }, { 1073479663, 1073479712 }, { 1073610711, 1073610760 },
    { 1073676241, 1073676290 }, { 1073709008, 1073709057 }, { 1073725391, 1073725441 }, { 1073733583, 1073733633 }, { 1073737679, 1073737729 },
    { 1073739727, 1073739777 }, { 1073740751, 1073740801 }, { 1073741263, 1073741313 }, { 1073741519, 1073741569 }, { 1073741647, 1073741697 },
    { 1073741711, 1073741761 }, { 1073741743, 1073741793 }, { 1073741759, 1073741809 }, { 1073741767, 1073741817 }, { 1073741771, 1073741821 },
    { 1073741773, 1073741823 }, { 1073741774, 1073741824 }, { 1073741775, 1073741824 },
};

/* What lies from near to far of the slice from x to y below a knot. */
static Pair cut_slice(u64 near, u64 far, u64 x, u64 y, u64 diffusion, const Pair *knot)
{
    u64 start = greatest(near, x), end = least(far, y);
    if (start >= end)
        return (Pair){ 0, 0 };
    u64 v = end - start, theta = v * ONE / end;
    Pair e = far < y ? exp_neg(far, diffusion) : *knot, q = series(theta, v * ONE / diffusion);
    return (Pair){ e.low * q.low / ONE * theta / ONE, (e.high * q.high / ONE + 1) * (theta + 1) / ONE + 1 };
}

static Pair joined(Pair sum, Pair slice, u64 top) { return (Pair){ least(sum.low + slice.low, top), least(sum.high + slice.high, top) }; }

static Pair heating_integral(u64 near, u64 far, u64 diffusion, u64 top)
{
    Pair sum = { 0, 0 };
    u64 edge = 16 * diffusion;
    if (far > edge) {
        Pair e = near > edge ? exp_neg(near, diffusion) : exps[0];
        sum.high = least(top * e.high / ONE + 1, top);
        far = greatest(near, edge);
    }
    u64 last = greatest(near, diffusion);
    for (u64 y = edge, i = 0; y > last; y -= diffusion, i++)
        sum = joined(sum, y - diffusion < near || far < y ? cut_slice(near, far, y - diffusion, y, diffusion, &exps[i]) : units[i], top);
    u64 start = near, end = least(far, diffusion), divisor = diffusion;
    for (u64 k = 0; start < diffusion; k++) {
        start *= 2, end *= 2, divisor *= 2;
        sum = joined(sum, diffusion < start || end < 2 * diffusion ? cut_slice(start, end, diffusion, 2 * diffusion, divisor, &exps[15 + k]) : halves[k], top);
        end = least(end, diffusion);
    }
    return sum;
}

__attribute__((noinline)) static Pair share(u64 d, u64 l, u64 s, u64 k, u64 w, u64 fast, u64 slow, u64 minutes)
{
    u64 t = 60 * minutes;
    Pair half = logarithm(d, 40 * l), n = { 2 * half.low, 2 * half.high };
    Pair j = heating_integral(5 * d * d, 8000 * l * l, 8 * t * s, n.high);
    u64 bl = least(j.low * BETA_ONE / n.high, BETA_ONE), bh = least(j.high * BETA_ONE / n.low + 1, BETA_ONE);
    u64 xl = (MILLION * BETA_ONE - k * (BETA_ONE - bl)) / 7500, xh = (MILLION * BETA_ONE - k * (BETA_ONE - bh)) / 7500 + 1;
    Pair p = exp_neg(fast * t, MILLION), q = exp_neg(slow * t, MILLION);
    u64 al = (MILLION * ONE - w * p.high - (MILLION - w) * q.high) / MILLION;
    u64 ah = (MILLION * ONE - w * p.low - (MILLION - w) * q.low) / MILLION + 1;
    return (Pair){ least(xl * al / (1000 * ONE), MILLION), least(xh * ah / (1000 * ONE) + 1, MILLION) };
}

static Pair answer;

static void work(const Case *c)
{
    const uint32_t *f = c->cable;
    answer = share(f[D], f[L], f[S], f[K], f[W], f[FAST], f[SLOW], c->minutes);
    /* Keeps every call: the compiler may not take inputs or answer for the same as before. */
    __asm__ volatile("" : : "r"(c), "r"(&answer) : "memory");
}

int main(void)
{
    Case c;
    while (read_case(&c)) {
        if (!asks(&c, "share"))
            continue;
        double us = microseconds(work, &c, RUN_SECONDS), low = (double)answer.low, high = (double)answer.high;
        printf("%s %.4f %.1f %.1f\n", c.name, us, (low + high) / 2, (high - low) / 2);
        fflush(stdout);
    }
    return 0;
}
