/*
 * The C header, compiled as C and as C++: a sheet that is not there, the words of each
 * condition, that a struct says what its array says, and that a sheet without neighbours
 * says it too. What is expected is document 01's: its tables 'The cable' and 'When the desk
 * is told no', and cases C1, C3 and C5; and document 02's note 2.
 */
#include <inttypes.h>
#include <stdio.h>
#include <string.h>

#include "kechmowad.h"

#define LENGTH(array) (sizeof(array) / sizeof(array)[0])

/* What stands in a lent array before a call: no number of any answer. */
static const int64_t untouched = INT64_C(-6510615555426900571);

static int wrong = 0;

/* Holds one number of a place of some array. */
static void hold(const char *what, size_t at, int64_t is, int64_t should_be)
{
    if (is == should_be)
        return;
    printf("%s, at %u: %" PRId64 ", should be %" PRId64 "\n", what, (unsigned)at, is, should_be);
    wrong++;
}

/* Holds all five numbers of an answer. */
static void hold_answer(const char *what, const int64_t is[], int64_t refusal, int64_t kind,
                        int64_t place, int64_t value)
{
    const int64_t should_be[] = { refusal, kind, place, value, 0 };
    for (size_t at = 0; at < LENGTH(should_be); at++)
        hold(what, at, is[at], should_be[at]);
}

static void fill(int64_t lent[], size_t length)
{
    for (size_t at = 0; at < length; at++)
        lent[at] = untouched;
}

static void fill_hours(uint16_t hours[24])
{
    for (size_t hour = 0; hour < 24; hour++)
        hours[hour] = 200;
}

/* Asks one of the four calls that take a sheet: share, factor, current, rise. */
static void ask_sheet(size_t call, const uint8_t *sheet, size_t length, int64_t answer[5])
{
    uint16_t hours[24];
    fill_hours(hours);
    switch (call) {
    case 0:
        kechmowad_share_in_sheet(sheet, length, 60, answer);
        break;
    case 1:
        kechmowad_factor_in_sheet(sheet, length, hours, answer);
        break;
    case 2:
        kechmowad_current_in_sheet(sheet, length, 100, 100, 60, answer);
        break;
    default:
        kechmowad_rise(sheet, length, answer);
    }
}

enum { SHEET_CALLS = 4, BESIDE = 4 };

/* Holds what lies beside an answer in a lent array. */
static void hold_beside(const int64_t lent[])
{
    for (size_t at = 0; at < BESIDE; at++) {
        hold("before the answer", at, lent[at], untouched);
        hold("after the answer", at, lent[BESIDE + KECHMOWAD_ANSWER_LENGTH + at], untouched);
    }
}

/* No sheet and no length: the answer is written whole, and nothing beside it. */
static void try_no_sheet(void)
{
    for (size_t call = 0; call < SHEET_CALLS; call++) {
        int64_t lent[BESIDE + KECHMOWAD_ANSWER_LENGTH + BESIDE];
        fill(lent, LENGTH(lent));
        ask_sheet(call, NULL, 0, lent + BESIDE);
        hold_answer("no sheet", lent + BESIDE, 1, KECHMOWAD_NONE, 0, 0);
        hold_beside(lent);
    }
}

static void try_words(void)
{
    static const char *const table[] = {
        "length is neither 36 + 6n nor 38 + 6n, n 0 to 48",
        "field outside its range, first such",
        "slow rate above fast",
        "starting current above 4,000",
        "link above n",
        "record's minutes out of range",
        "record's amperes above 4,000",
        "minutes not below the record before",
        "minutes asked outside 1 to 2,880",
        "hour above 4,000 A, first such",
        "all hours 0",
        "h outside 0 to 200, or r outside 1 to 200",
        "h² above 100·r",
        "neighbour's link above n or, unless 0, not above the record holding it",
        "neighbour's offset beyond 3,000 mm either way, or depth outside 300 to 5,000",
        "neighbour's c below d",
    };
    hold("rows of the table", 0, LENGTH(table), 16);
    for (size_t row = 0; row < LENGTH(table); row++) {
        const char *words = kechmowad_words((int64_t)row + 1);
        if (words == NULL || strcmp(words, table[row]) != 0) {
            printf("words of %u: %s, should be: %s\n", (unsigned)row + 1,
                   words == NULL ? "(none)" : words, table[row]);
            wrong++;
        }
    }
}

static void try_numbers_without_words(void)
{
    /* Beside the table, and such as a narrower type would take for one of it. */
    static const int64_t numbers[] = {
        0, 17, 18, 255, 257, 65537, -1, -16, -255, INT64_C(4294967297), INT64_C(4294967312),
        INT64_C(-4294967295), INT64_MAX, INT64_MIN, INT64_MIN + 1,
    };
    for (size_t at = 0; at < LENGTH(numbers); at++) {
        const char *words = kechmowad_words(numbers[at]);
        if (words != NULL) {
            printf("words of %" PRId64 ": %s, should be none\n", numbers[at], words);
            wrong++;
        }
    }
}

/* Asks share, factor and current, in this order, of one cable. */
static void ask_all(const uint32_t cable[8], int64_t answers[3][5])
{
    uint16_t hours[24];
    fill_hours(hours);
    for (size_t call = 0; call < 3; call++)
        fill(answers[call], 5);
    kechmowad_share(cable, 60, answers[0]);
    kechmowad_factor(cable, hours, answers[1]);
    kechmowad_current(cable, 100, 100, 60, answers[2]);
}

static struct kechmowad_cable cable_a(void)
{
    const struct kechmowad_cable cable = { 500, 1000, 500, 600000, 500000, 1000, 100, 400 };
    return cable;
}

/* C3: an even day has the factor 1,000. C5: for h and r of 100 the current is the rated one. */
static void try_cases(void)
{
    const struct kechmowad_cable cable = cable_a();
    int64_t answers[3][5];
    ask_all(kechmowad_fields(&cable), answers);
    hold("share of cable A, refusal", KECHMOWAD_REFUSAL, answers[0][KECHMOWAD_REFUSAL], 0);
    hold_answer("factor of cable A", answers[1], 0, KECHMOWAD_NONE, 0, 1000);
    hold_answer("current of cable A", answers[2], 0, KECHMOWAD_NONE, 0, 400);
}

/* Holds the answers of a struct to those of an array that is accepted. */
static void hold_same_answers(const struct kechmowad_cable *cable, const uint32_t array[8])
{
    int64_t of_struct[3][5], of_array[3][5];
    ask_all(kechmowad_fields(cable), of_struct);
    ask_all(array, of_array);
    for (size_t call = 0; call < 3; call++) {
        hold("refusal of the array", call, of_array[call][KECHMOWAD_REFUSAL], 0);
        for (size_t at = 0; at < KECHMOWAD_ANSWER_LENGTH; at++)
            hold("answer of the struct", at, of_struct[call][at], of_array[call][at]);
    }
}

/* A cable of which no two fields are equal, by name and by index. */
static void try_struct_and_array(void)
{
    struct kechmowad_cable cable;
    uint32_t array[KECHMOWAD_CABLE_LENGTH];
    array[KECHMOWAD_DIAMETER] = cable.diameter = 450;
    array[KECHMOWAD_DEPTH] = cable.depth = 1200;
    array[KECHMOWAD_DIFFUSIVITY] = cable.diffusivity = 600;
    array[KECHMOWAD_SURFACE_RATIO] = cable.surface_ratio = 650000;
    array[KECHMOWAD_FAST_WEIGHT] = cable.fast_weight = 400000;
    array[KECHMOWAD_FAST_RATE] = cable.fast_rate = 900;
    array[KECHMOWAD_SLOW_RATE] = cable.slow_rate = 120;
    array[KECHMOWAD_RATED] = cable.rated = 380;
    for (size_t field = 0; field < LENGTH(array); field++)
        hold("field of the struct", field, kechmowad_fields(&cable)[field], array[field]);
    hold_same_answers(&cable, array);
}

/* Each cable is told the field that its place among them names. */
static void hold_fields_told(const char *what, const struct kechmowad_cable cables[8])
{
    for (size_t field = 0; field < KECHMOWAD_CABLE_LENGTH; field++) {
        int64_t answers[3][5];
        ask_all(kechmowad_fields(&cables[field]), answers);
        for (size_t call = 0; call < 3; call++)
            hold_answer(what, answers[call], 2, KECHMOWAD_FIELD, (int64_t)field + 1, 0);
    }
}

/* Cable A eight times, with one field after the other just outside its range. */
static void try_fields(void)
{
    struct kechmowad_cable below[8], above[8];
    for (size_t field = 0; field < LENGTH(below); field++)
        below[field] = above[field] = cable_a();
    below[0].diameter = 99; above[0].diameter = 1501;
    below[1].depth = 299; above[1].depth = 5001;
    below[2].diffusivity = 99; above[2].diffusivity = 2001;
    /* Nothing lies below a range that begins at 0: the largest number instead. */
    below[3].surface_ratio = UINT32_MAX; above[3].surface_ratio = 1000001;
    below[4].fast_weight = UINT32_MAX; above[4].fast_weight = 1000001;
    below[5].fast_rate = 0; above[5].fast_rate = 100001;
    below[6].slow_rate = 0; above[6].slow_rate = 100001;
    below[7].rated = 49; above[7].rated = 2001;
    hold_fields_told("field below its range", below);
    hold_fields_told("field above its range", above);
}

/* Cable A, 300 A and no steps; two neighbours 200 mm to either side, the first at record 1. */
static const uint8_t three_cables[] = {
    0x00, 0x00, 0x01, 0xF4, 0x00, 0x00, 0x03, 0xE8, 0x00, 0x00, 0x01, 0xF4, 0x00, 0x09, 0x27,
    0xC0, 0x00, 0x07, 0xA1, 0x20, 0x00, 0x00, 0x03, 0xE8, 0x00, 0x00, 0x00, 0x64, 0x00, 0x00,
    0x01, 0x90, 0x01, 0x2C, 0x00, 0x00, 0x00, 0x01, 0x00, 0xC8, 0x03, 0xE8, 0x00, 0x02, 0xFF,
    0x38, 0x03, 0xE8, 0x00, 0x00,
};

/* C1's 36 bytes are the same sheet up to its first link: they answer as the cable alone. */
static void try_short_sheet(void)
{
    const struct kechmowad_cable cable = cable_a();
    int64_t alone[3][5], answer[5];
    ask_all(kechmowad_fields(&cable), alone);
    for (size_t call = 0; call < 3; call++) {
        fill(answer, LENGTH(answer));
        ask_sheet(call, three_cables, 36, answer);
        for (size_t at = 0; at < LENGTH(answer); at++)
            hold("sheet without neighbours", at, answer[at], alone[call][at]);
    }
    ask_sheet(3, three_cables, 36, answer);
    hold("rise of C1, low", KECHMOWAD_LOW, answer[KECHMOWAD_LOW], 562500);
    hold("rise of C1, high", KECHMOWAD_HIGH, answer[KECHMOWAD_HIGH], 562500);
}

/* The exact share of the three is 296,515.003 millionths, by mpmath at 60 digits. */
static void try_three_cables(void)
{
    int64_t answer[5];
    ask_sheet(0, three_cables, sizeof three_cables, answer);
    hold("share of three, refusal", KECHMOWAD_REFUSAL, answer[KECHMOWAD_REFUSAL], 0);
    hold("share of three, below", KECHMOWAD_LOW, answer[KECHMOWAD_LOW] <= 296515, 1);
    hold("share of three, above", KECHMOWAD_HIGH, answer[KECHMOWAD_HIGH] >= 296516, 1);
    ask_sheet(1, three_cables, sizeof three_cables, answer);
    hold_answer("factor of three", answer, 0, KECHMOWAD_NONE, 0, 1000);
    ask_sheet(2, three_cables, sizeof three_cables, answer);
    hold_answer("current of three", answer, 0, KECHMOWAD_NONE, 0, 400);
}

/* The sheet with two bytes exchanged for others: what each call is told. */
static void try_refused_neighbours(void)
{
    static const struct { size_t at; unsigned value; int64_t refusal, place; } changes[] = {
        { 36, 3, 14, 0 }, { 42, 1, 14, 1 }, { 48, 2, 14, 2 }, { 38, 3001, 15, 1 },
        { 44, 0xF447, 15, 2 }, { 46, 299, 15, 2 }, { 40, 5001, 15, 1 }, { 38, 49, 16, 1 },
        { 44, 0xFFCF, 16, 2 }, { 34, 3, 5, 0 },
    };
    for (size_t i = 0; i < SHEET_CALLS * LENGTH(changes); i++) {
        const size_t change = i / SHEET_CALLS, at = changes[change].at;
        uint8_t sheet[sizeof three_cables];
        int64_t answer[5];
        memcpy(sheet, three_cables, sizeof sheet);
        sheet[at] = (uint8_t)(changes[change].value >> 8);
        sheet[at + 1] = (uint8_t)changes[change].value;
        ask_sheet(i % SHEET_CALLS, sheet, sizeof sheet, answer);
        hold_answer("refused neighbour", answer, changes[change].refusal, KECHMOWAD_RECORD,
                    changes[change].place, 0);
    }
}

int main(void)
{
    try_no_sheet();
    try_words();
    try_numbers_without_words();
    try_cases();
    try_struct_and_array();
    try_fields();
    try_short_sheet();
    try_three_cables();
    try_refused_neighbours();
    if (wrong > 0)
        printf("header: %d wrong\n", wrong);
    return wrong > 0;
}
