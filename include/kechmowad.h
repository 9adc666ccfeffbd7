/*
 * Kechmowad: cyclic and emergency ratings of a buried cable.
 *
 * Seven calls, all proved, in the static library libkechmowad.a. "The paper" is
 * document 01, the scope paper, with notes 1 and 2 of document 02: its table 'The cable'
 * gives the ranges, its table 'When the desk is told no' and note 2 the refusals.
 *
 * Share, factor and current are asked of a cable alone, handed in as eight numbers, or of a
 * sheet, which may have neighbours: other cables in the trench with equal losses. Without a
 * sheet there are no neighbours.
 *
 * A call takes whatever it is handed: it writes a result or a refusal into `answer`,
 * always comes back, and only reads what it was handed. It keeps no state, so that
 * calls may run side by side. The caller owes valid pointers, and an `answer` that does
 * not overlap what is handed in. `sheet` alone may be NULL, where `length` is 0: no
 * byte is read then, and the answer is refusal 1.
 *
 * An answer is five numbers for every call, and stays so. Later versions may have more
 * numbers of refusals and more kinds of places; a caller takes a number that it does
 * not know for a refusal all the same.
 */
#ifndef KECHMOWAD_H
#define KECHMOWAD_H

#include <stddef.h>
#include <stdint.h>

#ifdef __cplusplus
extern "C" {
#endif

/* A cable in soil: the paper's fields 1 to 8, in its order and units. */
struct kechmowad_cable {
    uint32_t diameter;      /* d: outer, 0.1 mm, 100 to 1,500 */
    uint32_t depth;         /* l: of the axis, mm, 300 to 5,000 */
    uint32_t diffusivity;   /* s: of the soil, 10^-9 m2/s, 100 to 2,000; 0 stands for 500 */
    uint32_t surface_ratio; /* k: steady surface rise over conductor rise, millionths,
                               0 to 1,000,000; of a sheet with neighbours the ratio for
                               the whole group */
    uint32_t fast_weight;   /* w: of the fast part, millionths, 0 to 1,000,000 */
    uint32_t fast_rate;     /* millionths per second, 1 to 100,000 */
    uint32_t slow_rate;     /* millionths per second, 1 to 100,000, not above fast_rate */
    uint32_t rated;         /* rated current, A, 50 to 2,000 */
};

/* Where each field stands in the array that the calls take. */
enum kechmowad_cable_index {
    KECHMOWAD_DIAMETER = 0,
    KECHMOWAD_DEPTH = 1,
    KECHMOWAD_DIFFUSIVITY = 2,
    KECHMOWAD_SURFACE_RATIO = 3,
    KECHMOWAD_FAST_WEIGHT = 4,
    KECHMOWAD_FAST_RATE = 5,
    KECHMOWAD_SLOW_RATE = 6,
    KECHMOWAD_RATED = 7,
    KECHMOWAD_CABLE_LENGTH = 8
};

/* The struct lies in memory as the array does. Before C11 and C++11 nothing asserts it. */
#if defined __cplusplus && __cplusplus >= 201103L
#define KECHMOWAD_HOLDS(condition) static_assert(condition, #condition);
#elif defined __STDC_VERSION__ && __STDC_VERSION__ >= 201112L
#define KECHMOWAD_HOLDS(condition) _Static_assert(condition, #condition);
#else
#define KECHMOWAD_HOLDS(condition)
#endif
#define KECHMOWAD_STANDS(field, index) \
    KECHMOWAD_HOLDS(offsetof(struct kechmowad_cable, field) == (index) * sizeof(uint32_t))
KECHMOWAD_STANDS(diameter, KECHMOWAD_DIAMETER)
KECHMOWAD_STANDS(depth, KECHMOWAD_DEPTH)
KECHMOWAD_STANDS(diffusivity, KECHMOWAD_DIFFUSIVITY)
KECHMOWAD_STANDS(surface_ratio, KECHMOWAD_SURFACE_RATIO)
KECHMOWAD_STANDS(fast_weight, KECHMOWAD_FAST_WEIGHT)
KECHMOWAD_STANDS(fast_rate, KECHMOWAD_FAST_RATE)
KECHMOWAD_STANDS(slow_rate, KECHMOWAD_SLOW_RATE)
KECHMOWAD_STANDS(rated, KECHMOWAD_RATED)
KECHMOWAD_HOLDS(sizeof(struct kechmowad_cable) == KECHMOWAD_CABLE_LENGTH * sizeof(uint32_t))
#undef KECHMOWAD_STANDS
#undef KECHMOWAD_HOLDS

/* The fields of a cable as the array that the calls take. */
static inline const uint32_t *kechmowad_fields(const struct kechmowad_cable *cable)
{
    return (const uint32_t *)cable;
}

/* What stands where in an answer. Both values are 0 where the answer is a refusal. */
enum kechmowad_answer_index {
    KECHMOWAD_REFUSAL = 0,    /* number of the refusal, 1 to 16 as yet; 0 for none */
    KECHMOWAD_PLACE_KIND = 1, /* one of enum kechmowad_place_kind */
    KECHMOWAD_PLACE = 2,      /* which field, record, hour or input; 0 for none */
    KECHMOWAD_LOW = 3,        /* of a share or a rise */
    KECHMOWAD_HIGH = 4,       /* of a share or a rise */
    KECHMOWAD_VALUE = 3,      /* a factor or a current; 0 stands in the other place */
    KECHMOWAD_ANSWER_LENGTH = 5
};

/* What kind of place a refusal names. */
enum kechmowad_place_kind {
    KECHMOWAD_NONE = 0,   /* no place */
    KECHMOWAD_FIELD = 1,  /* a field of the cable, from 1 */
    KECHMOWAD_RECORD = 2, /* a record of the sheet, from 1; 0 for the header */
    KECHMOWAD_HOUR = 3,   /* an hour of the day, from 0 */
    KECHMOWAD_INPUT = 4   /* 1 the preload h, 2 the limit r */
};

/*
 * The condition of a refusal as the paper words it, in UTF-8; NULL for a number that has
 * no words.
 */
static inline const char *kechmowad_words(int64_t number)
{
    static const char *const words[] = {
        "length is neither 36 + 6n nor 38 + 6n, n 0 to 48",
        "field outside its range, first such",
        "slow rate above fast",
        "starting current above 4,000",
        "link above n",
        "record's minutes out of range",
        "record's amperes above 4,000",
        "minutes not below the record before",
        "minutes asked outside 1 to 2,880",
        "hour above 4,000 A, first such",
        "all hours 0",
        "h outside 0 to 200, or r outside 1 to 200",
        "h\xC2\xB2 above 100\xC2\xB7r", /* h squared; a middle dot */
        "neighbour's link above n or, unless 0, not above the record holding it",
        "neighbour's offset beyond 3,000 mm either way, or depth outside 300 to 5,000",
        "neighbour's c below d"
    };
    const int64_t count = sizeof words / sizeof words[0];
    return number >= 1 && number <= count ? words[number - 1] : NULL;
}

/*
 * A sheet is `length` bytes, all numbers big-endian. The paper's 'The load sheet' and note
 * 2 say what stands in them: eight fields of four bytes, the starting current, the first
 * link, in a long header a second link, and up to 48 records of six bytes. The first link
 * leads to the steps of the load, the second to the neighbours: an offset to the side in mm,
 * two's complement, and a depth in mm. A length of 36 + 6n is a sheet without a second link,
 * 38 + 6n one with it.
 *
 * Field 4 of a sheet with neighbours is the ratio for the whole group: the surface's steady
 * rise with all of them loaded over that of the conductor. With the k of a single cable the
 * answer would be wrong, and nothing tells.
 *
 * A call that takes a sheet checks all of it first: the load chain too where only a share, a
 * factor or a current is asked and no step is used. Refusals of a sheet, in their order: 1
 * to 4, then 5 to 8 for each record of the load chain in turn, then 14 to 16 for each
 * neighbour in turn.
 */

/*
 * The attained share after `minutes` (1 to 2,880), in millionths: low and high, at
 * most 50 apart, the exact share between them. Refusals 2, 3, 9.
 */
void kechmowad_share(const uint32_t cable[8], uint32_t minutes, int64_t answer[5]);

/* The same of a sheet's cable and neighbours. The sheet's refusals, then 9. */
void kechmowad_share_in_sheet(const uint8_t *sheet, size_t length, uint32_t minutes,
                              int64_t answer[5]);

/*
 * The rise at the end of a load sheet's history, in millionths of the steady rise at
 * rated current: low and high, the exact rise between them; low may be negative. At each
 * step the neighbours' losses are equal to the cable's. Refusals 1 to 8 and 14 to 16;
 * refusal 1 where `length` is 0, and `sheet` may be NULL then.
 */
void kechmowad_rise(const uint8_t *sheet, size_t length, int64_t answer[5]);

/*
 * The cyclic rating factor of a day of hourly amperes (0 to 4,000 each, hours 0 to
 * 23), in thousandths, at most 5,000 and never above the exact factor. It is that of the
 * hour at which the conductor is hottest, which need not be that of the highest load: it
 * may be the end of a long plateau. Refusals 2, 3, 10, 11.
 */
void kechmowad_factor(const uint32_t cable[8], const uint16_t hours[24], int64_t answer[5]);

/* The same of a sheet's cable and neighbours. The sheet's refusals, then 10, 11. */
void kechmowad_factor_in_sheet(const uint8_t *sheet, size_t length, const uint16_t hours[24],
                               int64_t answer[5]);

/*
 * The emergency current, in whole amperes, at most 10,000: after a preload of `h`
 * percent of the rated current (0 to 200), held for ever before, it keeps the rise
 * within `r` percent of the rated rise (1 to 200) for `minutes` (1 to 2,880).
 * Refusals 2, 3, 9, 12, 13.
 */
void kechmowad_current(const uint32_t cable[8], uint32_t h, uint32_t r, uint32_t minutes,
                       int64_t answer[5]);

/* The same of a sheet's cable and neighbours. The sheet's refusals, then 9, 12, 13. */
void kechmowad_current_in_sheet(const uint8_t *sheet, size_t length, uint32_t h, uint32_t r,
                                uint32_t minutes, int64_t answer[5]);

#ifdef __cplusplus
}
#endif

#endif
