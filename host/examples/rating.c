/*
 * The four calculations for cable A of document 01, three of them for three such cables in
 * one trench, and a refusal of each kind of place.
 *
 *     host/examples/run-c
 */
#include <inttypes.h>
#include <stdio.h>

#include "kechmowad.h"

static const struct kechmowad_cable usual = {
    .diameter = 500,          /* 50 mm */
    .depth = 1000,            /* 1 m */
    .diffusivity = 500,       /* 0.5e-6 m2/s */
    .surface_ratio = 600000,  /* 0.6 of the conductor's steady rise */
    .fast_weight = 500000,    /* half of the attainment is fast */
    .fast_rate = 1000,
    .slow_rate = 100,
    .rated = 400,
};

/* The same cable in a sheet's bytes, big-endian. */
#define CABLE_BYTES                                                                      \
    0x00, 0x00, 0x01, 0xF4, 0x00, 0x00, 0x03, 0xE8, 0x00, 0x00, 0x01, 0xF4, 0x00, 0x09, \
    0x27, 0xC0, 0x00, 0x07, 0xA1, 0x20, 0x00, 0x00, 0x03, 0xE8, 0x00, 0x00, 0x00, 0x64, \
    0x00, 0x00, 0x01, 0x90

/* 300 A for ever, and steps to the same 300 A at 60 and 30 minutes before now. */
static const uint8_t steady[] = {
    CABLE_BYTES, 0x01, 0x2C, 0x00, 0x01, /* 300 A, first link 1 */
    0x00, 0x3C, 0x01, 0x2C, 0x00, 0x02,  /* record 1: 60 minutes, 300 A, next 2 */
    0x00, 0x1E, 0x01, 0x2C, 0x00, 0x00,  /* record 2: 30 minutes, 300 A, the end */
};

/* Record 1 leads to itself, so that the minutes do not fall. */
static const uint8_t looping[] = {
    CABLE_BYTES, 0x01, 0x2C, 0x00, 0x01, /* 300 A, first link 1 */
    0x00, 0x1E, 0x01, 0x2C, 0x00, 0x01,  /* record 1: 30 minutes, 300 A, next 1 */
};

/*
 * Neighbours 200 mm to either side at the cable's depth. Field 4 is then the ratio for all
 * three: with that of a single cable the answers would be wrong, and nothing tells.
 */
static const uint8_t three_cables[] = {
    CABLE_BYTES, 0x01, 0x2C, 0x00, 0x00, 0x00, 0x01, /* 300 A, no steps, second link 1 */
    0x00, 0xC8, 0x03, 0xE8, 0x00, 0x02,              /* record 1: 200 mm aside, 1,000 deep, next 2 */
    0xFF, 0x38, 0x03, 0xE8, 0x00, 0x00,              /* record 2: -200 mm, 1,000 deep, the end */
};

/* 40 mm are less than the cable's diameter of 50. */
static const uint8_t too_near[] = {
    CABLE_BYTES, 0x01, 0x2C, 0x00, 0x00, 0x00, 0x01, /* 300 A, no steps, second link 1 */
    0x00, 0x28, 0x03, 0xE8, 0x00, 0x00,              /* record 1: 40 mm aside, 1,000 deep */
};

static const char *word_of_kind(int64_t kind)
{
    switch (kind) {
    case KECHMOWAD_NONE:
        return "no place";
    case KECHMOWAD_FIELD:
        return "field";
    case KECHMOWAD_RECORD:
        return "record";
    case KECHMOWAD_HOUR:
        return "hour";
    case KECHMOWAD_INPUT:
        return "input";
    default: /* of a later version */
        return "place";
    }
}

/* Prints the refusal, and says so, where an answer is one. */
static int refused(const int64_t answer[])
{
    int64_t kind = answer[KECHMOWAD_PLACE_KIND];
    if (answer[KECHMOWAD_REFUSAL] == 0)
        return 0;
    printf("refused %" PRId64 " at %s", answer[KECHMOWAD_REFUSAL], word_of_kind(kind));
    if (kind != KECHMOWAD_NONE)
        printf(" %" PRId64, answer[KECHMOWAD_PLACE]);
    printf("\n");
    return 1;
}

static void print_pair(const char *name, const int64_t answer[])
{
    printf("%s: ", name);
    if (!refused(answer))
        printf("%" PRId64 " to %" PRId64 " millionths\n", answer[KECHMOWAD_LOW],
               answer[KECHMOWAD_HIGH]);
}

static void print_value(const char *name, const int64_t answer[], const char *unit)
{
    printf("%s: ", name);
    if (!refused(answer))
        printf("%" PRId64 " %s\n", answer[KECHMOWAD_VALUE], unit);
}

/* 100 A for eighteen hours, then 400 A for six. */
static void set_day(uint16_t hours[24])
{
    for (int hour = 0; hour < 24; hour++)
        hours[hour] = hour < 18 ? 100 : 400;
}

static void rate_alone(const uint32_t cable[8])
{
    int64_t answer[KECHMOWAD_ANSWER_LENGTH];
    uint16_t hours[24];

    kechmowad_share(cable, 60, answer);
    print_pair("share after 60 minutes", answer);

    kechmowad_rise(steady, sizeof steady, answer);
    print_pair("rise of the sheet", answer);

    set_day(hours);
    kechmowad_factor(cable, hours, answer);
    print_value("factor of the day", answer, "thousandths");

    kechmowad_current(cable, 75, 100, 120, answer);
    print_value("emergency current", answer, "A");
}

static void rate_in_trench(void)
{
    int64_t answer[KECHMOWAD_ANSWER_LENGTH];
    uint16_t hours[24];

    kechmowad_share_in_sheet(three_cables, sizeof three_cables, 60, answer);
    print_pair("share of three cables", answer);

    set_day(hours);
    kechmowad_factor_in_sheet(three_cables, sizeof three_cables, hours, answer);
    print_value("factor of three cables", answer, "thousandths");

    kechmowad_current_in_sheet(three_cables, sizeof three_cables, 75, 100, 120, answer);
    print_value("emergency current of three cables", answer, "A");
}

static void show_refusals(const uint32_t cable[8])
{
    struct kechmowad_cable thin = usual;
    int64_t answer[KECHMOWAD_ANSWER_LENGTH];
    uint16_t hours[24];

    thin.diameter = 99;
    kechmowad_share(kechmowad_fields(&thin), 60, answer);
    print_pair("cable of 9.9 mm", answer);

    kechmowad_rise(looping, sizeof looping, answer);
    print_pair("looping sheet", answer);

    kechmowad_share_in_sheet(too_near, sizeof too_near, 60, answer);
    print_pair("neighbour 40 mm aside", answer);

    set_day(hours);
    hours[5] = 4001;
    kechmowad_factor(cable, hours, answer);
    print_value("day with 4001 A", answer, "thousandths");

    kechmowad_current(cable, 201, 100, 60, answer);
    print_value("preload of 201 percent", answer, "A");

    kechmowad_current(cable, 51, 25, 60, answer);
    print_value("preload above the limit", answer, "A");
}

int main(void)
{
    const uint32_t *cable = kechmowad_fields(&usual);
    rate_alone(cable);
    rate_in_trench();
    show_refusals(cable);
    return 0;
}
