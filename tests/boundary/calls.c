/* Calls every function of include/jilbaroof.h, and holds the answers to the specification: its sheet (E4, E10 to E13), its refusals, its
 * limits, and readings of 0. */
#include "jilbaroof.h"

#include <stdio.h>

typedef jilbaroof_search (*searcher)(const uint8_t *, size_t, uint32_t, uint32_t, const uint8_t *, size_t, uint32_t *, size_t, uint16_t *,
                                     size_t);
typedef jilbaroof_jump (*question)(const uint8_t *, size_t, uint32_t, uint32_t);

static const uint8_t P[] = {40, 42, 44};
static const uint8_t L[] = {40, 42, 44, 41, 43, 45, 39, 42, 43, 70, 41, 41, 43, 40};
/* the profile Q stands in the recording Y at 1, 5 and 9 with a 0, where contact was lost, and at 13 whole */
static const uint8_t Q[] = {12, 10, 8};
static const uint8_t Y[] = {30, 0, 10, 8, 30, 12, 0, 8, 30, 12, 10, 0, 30, 12, 11, 8, 30};
static const uint8_t some[] = {0, 1, 0, 255};
/* fill() makes every entry 1, but the first of zero_1 0, and so the 64th of zero_64 and the 65th of zero_65, and one of late 9 */
static uint8_t many[1000001], late[1000000], zero_1[65], zero_64[65], zero_65[65];
static int wrong = 0;

/* Calls that are refused by 1, 7, 8, 2 or 3, the first that applies in this order, also by numbers that a narrower type would cut to allowed
 * ones or to no points. */
typedef struct {
    uint32_t number;
    const uint8_t *points;
    size_t m;
    uint32_t delta, gamma;
    const uint8_t *recording;
    size_t n;
} refused;

static const refused refusals[] = {
    {1, NULL, 0, 1, 2, L, 14},
    {1, NULL, 0, 256, 16321, many, 1000001},
    {7, many, 65, 1, 2, L, 14},
    {7, many, 65, 256, 16321, many, 1000001},
    {7, many, 65536, 1, 2, L, 14},
    {7, many, 65537, 1, 2, L, 14},
    {7, zero_1, 65, 1, 2, L, 14},
    {7, zero_65, 65, 256, 16321, many, 1000001},
    {8, zero_1, 1, 1, 2, L, 14},
    {8, zero_1, 64, 1, 2, L, 14},
    {8, zero_64, 64, 1, 2, L, 14},
    {8, zero_64, 64, 256, 2, L, 14},
    {8, zero_64, 64, 1, 16321, L, 14},
    {8, zero_64, 64, 1, 2, many, 1000001},
    {8, zero_1, 64, 256, 16321, many, 1000001},
    {2, P, 3, 256, 2, many, 1000001},
    {2, P, 3, 65537, 2, L, 14},
    {2, P, 3, 1, 16321, L, 14},
    {2, P, 3, 1, 65538, L, 14},
    {3, P, 3, 1, 2, many, 1000001},
    {3, many, 64, 255, 16320, many, 1000001},
};
static const refused *const refusals_end = refusals + sizeof refusals / sizeof *refusals;

static void fill(void)
{
    for (size_t i = 0; i < sizeof many; i++)
        many[i] = 1;
    for (size_t i = 0; i < sizeof late; i++)
        late[i] = i == 999997 ? 9 : 1;
    for (size_t i = 0; i < 65; i++) {
        zero_1[i] = i != 0;
        zero_64[i] = i != 63;
        zero_65[i] = i != 64;
    }
}

static void hold(const char *what, int held)
{
    if (!held) {
        printf("boundary: C: %s: wrong\n", what);
        wrong = 1;
    }
}

static int is(jilbaroof_search got, uint32_t refusal, size_t total, size_t tried, uint32_t least)
{
    return got.refusal == refusal && got.total == total && got.tried == tried && got.least == least;
}

static int tells(jilbaroof_first_place got, uint32_t refusal, uint32_t found, size_t place, size_t tried)
{
    return got.refusal == refusal && got.found == found && got.place == place && got.tried == tried;
}

static int judges(jilbaroof_verdict got, uint32_t refusal, uint32_t kind, size_t point, uint32_t sum)
{
    return got.refusal == refusal && got.kind == kind && got.point == point && got.sum == sum;
}

static int says(jilbaroof_jump got, uint32_t refusal, size_t jump)
{
    return got.refusal == refusal && got.jump == jump;
}

/* What a search for P in L finds from a position on, with delta 1. */
typedef struct {
    size_t from;
    uint32_t gamma, least;
    size_t total;
    uint32_t places[3];
    uint16_t sums[3];
} found;

/* It, with lists of these lengths, and no pointer where a length is 0. */
static void search_with(const char *name, searcher ask, const found *f, size_t tried, size_t room, size_t sums_room)
{
    uint32_t list[4] = {99, 99, 99, 99};
    uint16_t sums[4] = {99, 99, 99, 99};
    jilbaroof_search got = ask(P, 3, 1, f->gamma, L + f->from, 14 - f->from, room ? list : NULL, room, sums_room ? sums : NULL, sums_room);
    hold(name, is(got, 0, f->total, tried, f->least));
    for (size_t i = 0; i < 4; i++) {
        hold(name, list[i] == (i < room && i < f->total ? f->places[i] : 99));
        hold(name, sums[i] == (i < sums_room && i < f->total ? f->sums[i] : 99));
    }
}

/* E4, with a perfect fit, and E5 from position 1 on, whose least sum is not the first; with lists of each length from 0 to 4, in all pairs. */
static void search(const char *name, searcher ask, size_t tried, size_t tried_from_1)
{
    static const found e4 = {0, 2, 0, 2, {0, 6}, {0, 2}}, e5_from_1 = {1, 3, 2, 3, {2, 5, 9}, {3, 2, 3}};
    for (size_t room = 0; room <= 4; room++)
        for (size_t sums_room = 0; sums_room <= 4; sums_room++) {
            search_with(name, ask, &e4, tried, room, sums_room);
            search_with(name, ask, &e5_from_1, tried_from_1, room, sums_room);
        }
}

/* Each of the refusals; both lists stay as they were. */
static void search_refused(const char *name, searcher ask)
{
    for (const refused *r = refusals; r < refusals_end; r++) {
        uint32_t list[2] = {9, 9};
        uint16_t sums[2] = {9, 9};
        hold(name, is(ask(r->points, r->m, r->delta, r->gamma, r->recording, r->n, list, 2, sums, 2), r->number, 0, 0, 0));
        hold(name, list[0] == 9 && list[1] == 9 && sums[0] == 9 && sums[1] == 9);
    }
}

/* What is just allowed: no reading, fewer than points, as many; 64 points, also with a 0 behind them; the widest tolerances, and the greatest sum
 * that two pressures a point can have; a million readings, none a place, or all, the closest far behind both lists. */
static void search_limits(const char *name, searcher ask)
{
    uint32_t list[1] = {9};
    uint16_t sums[1] = {9};
    uint8_t high[64];
    for (size_t i = 0; i < sizeof high; i++)
        high[i] = 255;
    hold(name, is(ask(P, 3, 1, 2, NULL, 0, NULL, 0, NULL, 0), 0, 0, 0, 0));
    hold(name, is(ask(P, 3, 1, 2, L, 2, list, 1, sums, 1), 0, 0, 0, 0));
    hold(name, list[0] == 9 && sums[0] == 9);
    hold(name, is(ask(P, 3, 1, 2, L, 3, list, 1, sums, 1), 0, 1, 1, 0));
    hold(name, list[0] == 0 && sums[0] == 0);
    hold(name, is(ask(many, 64, 0, 0, many, 64, NULL, 0, NULL, 0), 0, 1, 1, 0));
    hold(name, is(ask(zero_65, 64, 0, 0, many, 64, NULL, 0, NULL, 0), 0, 1, 1, 0));
    hold(name, is(ask(many, 64, 255, 16320, high, 64, NULL, 0, sums, 1), 0, 1, 1, 16256));
    hold(name, sums[0] == 16256);
    jilbaroof_search all = ask(P, 3, 255, 16320, L, 14, NULL, 0, NULL, 0);
    hold(name, all.refusal == 0 && all.total == 12 && all.least == 0);
    jilbaroof_search none = ask(P, 3, 1, 2, many, 1000000, list, 1, sums, 1);
    hold(name, none.refusal == 0 && none.total == 0 && none.least == 0);
    hold(name, list[0] == 0 && sums[0] == 16256);
    hold(name, is(ask((const uint8_t[]){10}, 1, 9, 9, late, 1000000, list, 1, sums, 1), 0, 1000000, 1000000, 1));
    hold(name, list[0] == 0 && sums[0] == 9);
}

/* A window holding a 0 is no place, within the tolerances or at the widest; with 1 in the place of each 0 it is one. */
static void search_lost(const char *name, searcher ask, size_t tried, size_t tried_widest)
{
    uint32_t list[5] = {9, 9, 9, 9, 9};
    uint16_t sums[5] = {9, 9, 9, 9, 9};
    hold(name, is(ask(Q, 3, 12, 12, Y, 17, list, 5, sums, 5), 0, 1, tried, 1));
    hold(name, list[0] == 13 && list[1] == 9 && sums[0] == 1 && sums[1] == 9);
    hold(name, is(ask(many, 1, 255, 16320, some, 4, list, 5, sums, 5), 0, 2, tried_widest, 0));
    hold(name, list[0] == 1 && list[1] == 3 && list[2] == 9 && sums[0] == 0 && sums[1] == 254 && sums[2] == 9);
    uint8_t kept[17];
    for (size_t i = 0; i < 17; i++)
        kept[i] = Y[i] == 0 ? 1 : Y[i];
    jilbaroof_search whole = ask(Q, 3, 12, 12, kept, 17, list, 5, sums, 4);
    hold(name, whole.refusal == 0 && whole.total == 4 && whole.least == 1);
    hold(name, list[0] == 1 && list[1] == 5 && list[2] == 9 && list[3] == 13 && list[4] == 9);
    hold(name, sums[0] == 11 && sums[1] == 9 && sums[2] == 7 && sums[3] == 1 && sums[4] == 9);
    /* long enough for blocks of 64 windows */
    static const uint8_t gap[200] = {[100] = 1, [101] = 1, [102] = 1};
    for (size_t widest = 0; widest < 2; widest++) {
        list[0] = sums[0] = 9;
        jilbaroof_search one = ask(many, 3, widest ? 255 : 1, widest ? 16320 : 2, gap, 200, list, 5, sums, 5);
        hold(name, one.refusal == 0 && one.total == 1 && one.least == 0);
        hold(name, list[0] == 100 && list[1] == 5 && sums[0] == 0 && sums[1] == 9);
    }
}

/* Profiles whose counters packed has in one word of 64 bits, in two (80 bits, as E10's second input) and in 16, which is the most: every searcher
 * accepts them all. All readings are near, so that only the sums decide, which are above gamma, at it and below it, and too great for 8 bits;
 * in the last search one reading is a 0. */
static void search_words(const char *name, searcher ask, size_t tried_lost)
{
    uint8_t pairs[20], high[200];
    uint32_t list[8] = {9, 9, 9, 9, 9, 9, 9, 9};
    uint16_t sums[65] = {9, 9, 9, 9, 9, 9};
    for (size_t i = 0; i < sizeof pairs; i++)
        pairs[i] = 1 + i % 2;
    hold(name, is(ask(many, 16, 1, 7, pairs, 20, list, 8, sums, 65), 0, 0, 5, 0));
    hold(name, list[0] == 9 && sums[0] == 9);
    hold(name, is(ask(many, 16, 1, 8, pairs, 20, list, 8, sums, 65), 0, 5, 5, 8));
    hold(name, list[0] == 0 && list[4] == 4 && list[5] == 9 && sums[0] == 8 && sums[4] == 8 && sums[5] == 9);
    /* 64 differences of 128 are 8,192, and counters of 15 bits; one of them is 127 in the windows from 37 to 100 */
    for (size_t i = 0; i < sizeof high; i++)
        high[i] = i == 100 ? 128 : 129;
    hold(name, is(ask(many, 64, 128, 8191, high, 200, list, 8, sums, 65), 0, 64, 137, 8191));
    hold(name, list[0] == 37 && list[7] == 44 && sums[0] == 8191 && sums[63] == 8191 && sums[64] == 0);
    hold(name, is(ask(many, 64, 128, 8192, high, 200, list, 8, sums, 2), 0, 137, 137, 8191));
    hold(name, list[0] == 0 && list[7] == 7 && sums[0] == 8192 && sums[1] == 8192 && sums[2] == 8191);
    high[70] = 0;
    hold(name, is(ask(many, 64, 255, 16320, high, 200, list, 8, sums, 65), 0, 73, tried_lost, 8191));
    hold(name, list[0] == 0 && list[6] == 6 && list[7] == 71 && sums[0] == 8192 && sums[6] == 8192 && sums[7] == 8191 && sums[64] == 8192);
}

/* E4; E4 from position 1 on and E5 from 2 on, where place and count differ; a place at the last window, and none with one reading less; one
 * before which the after-check jump would have a window more tried; a place and a count that 16 bits do not hold; readings of 0. */
static void first(void)
{
    static const uint8_t passed[] = {41, 43, 45, 43, 40, 42, 44};
    hold("first, E4", tells(jilbaroof_first(P, 3, 1, 2, L, 14), 0, 1, 0, 1));
    hold("first, E4 from 1", tells(jilbaroof_first(P, 3, 1, 2, L + 1, 13), 0, 1, 5, 3));
    hold("first, E5 from 2", tells(jilbaroof_first(P, 3, 1, 3, L + 2, 12), 0, 1, 1, 2));
    hold("first, last window", tells(jilbaroof_first(P, 3, 1, 2, L + 1, 8), 0, 1, 5, 3));
    hold("first, none", tells(jilbaroof_first(P, 3, 1, 2, L + 1, 7), 0, 0, 0, 2));
    hold("first, by the reading seen", tells(jilbaroof_first(P, 3, 1, 2, passed, 7), 0, 1, 4, 2));
    hold("first, far on", tells(jilbaroof_first((const uint8_t[]){9, 1, 1}, 3, 0, 0, late, 1000000), 0, 1, 999997, 999996));
    hold("first, lost contact", tells(jilbaroof_first(Q, 3, 12, 12, Y, 17), 0, 1, 13, 5));
    hold("first, lost contact alone", tells(jilbaroof_first(Q, 3, 12, 12, Y, 12), 0, 0, 0, 3));
    hold("first, lost contact, widest", tells(jilbaroof_first(many, 1, 255, 16320, some, 4), 0, 1, 1, 1));
}

/* The refusals, as the searchers have them. */
static void first_refused(void)
{
    for (const refused *r = refusals; r < refusals_end; r++)
        hold("first, refused", tells(jilbaroof_first(r->points, r->m, r->delta, r->gamma, r->recording, r->n), r->number, 0, 0, 0));
}

/* What is just allowed. A million readings are in first(). */
static void first_limits(void)
{
    hold("first, no reading", tells(jilbaroof_first(P, 3, 1, 2, NULL, 0), 0, 0, 0, 0));
    hold("first, 2 readings", tells(jilbaroof_first(P, 3, 1, 2, L, 2), 0, 0, 0, 0));
    hold("first, 3 readings", tells(jilbaroof_first(P, 3, 1, 2, L, 3), 0, 1, 0, 1));
    hold("first, 64 points", tells(jilbaroof_first(many, 64, 0, 0, many, 64), 0, 1, 0, 1));
    hold("first, a 0 behind 64 points", tells(jilbaroof_first(zero_65, 64, 0, 0, many, 64), 0, 1, 0, 1));
    hold("first, widest", tells(jilbaroof_first(P, 3, 255, 16320, L + 1, 13), 0, 1, 0, 1));
}

/* E4 and E5 at windows of each kind, the last window among them; a point that is far by gamma alone, and one behind a sum above g; readings of
 * 0, each within delta; sums of 64 points that 8 bits do not hold; a position that 16 bits do not hold. */
static void check(void)
{
    static const uint8_t pair[] = {10, 10}, three[] = {10, 10, 10}, third[] = {13, 13, 14};
    uint8_t high[64];
    for (size_t i = 0; i < sizeof high; i++)
        high[i] = 255;
    hold("check, E4 at 0", judges(jilbaroof_check(P, 3, 1, 2, L, 14, 0), 0, JILBAROOF_FITS, 0, 0));
    hold("check, E4 at 1", judges(jilbaroof_check(P, 3, 1, 2, L, 14, 1), 0, JILBAROOF_FAR, 1, 0));
    hold("check, E4 at 3", judges(jilbaroof_check(P, 3, 1, 2, L, 14, 3), 0, JILBAROOF_OVER, 0, 3));
    hold("check, E4 at 6", judges(jilbaroof_check(P, 3, 1, 2, L, 14, 6), 0, JILBAROOF_FITS, 0, 2));
    hold("check, E4 at 11", judges(jilbaroof_check(P, 3, 1, 2, L, 14, 11), 0, JILBAROOF_FAR, 3, 0));
    hold("check, E5 at 3", judges(jilbaroof_check(P, 3, 1, 3, L, 14, 3), 0, JILBAROOF_FITS, 0, 3));
    hold("check, over gamma", judges(jilbaroof_check(pair, 2, 5, 2, (const uint8_t[]){12, 11}, 2, 0), 0, JILBAROOF_OVER, 0, 3));
    hold("check, far by gamma", judges(jilbaroof_check(pair, 2, 5, 2, (const uint8_t[]){12, 13}, 2, 0), 0, JILBAROOF_FAR, 2, 0));
    hold("check, far behind a sum", judges(jilbaroof_check(three, 3, 3, 4, third, 3, 0), 0, JILBAROOF_FAR, 3, 0));
    hold("check, lost at 1", judges(jilbaroof_check(Q, 3, 12, 12, Y, 17, 1), 0, JILBAROOF_FAR, 1, 0));
    hold("check, lost at 2", judges(jilbaroof_check(Q, 3, 12, 12, Y, 17, 5), 0, JILBAROOF_FAR, 2, 0));
    hold("check, lost at 3", judges(jilbaroof_check(Q, 3, 12, 12, Y, 17, 9), 0, JILBAROOF_FAR, 3, 0));
    hold("check, not lost", judges(jilbaroof_check(Q, 3, 12, 12, Y, 17, 13), 0, JILBAROOF_FITS, 0, 1));
    hold("check, lost, widest", judges(jilbaroof_check(many, 1, 255, 16320, some, 4, 0), 0, JILBAROOF_FAR, 1, 0));
    hold("check, 64 points", judges(jilbaroof_check(many, 64, 255, 16320, high, 64, 0), 0, JILBAROOF_FITS, 0, 16256));
    hold("check, 64 points, over", judges(jilbaroof_check(many, 64, 255, 16255, high, 64, 0), 0, JILBAROOF_OVER, 0, 16256));
    high[63] = 0;
    hold("check, 64 points, far", judges(jilbaroof_check(many, 64, 255, 16255, high, 64, 0), 0, JILBAROOF_FAR, 64, 0));
    hold("check, far on", judges(jilbaroof_check(pair, 2, 9, 18, many, 1000000, 999998), 0, JILBAROOF_FITS, 0, 18));
}

/* The refusals as the searchers have them, whether s has a window or not; then 6: directly behind the last window, at the end and beyond it, by
 * numbers that a narrower type would cut to a window's or that wrap with m, and where there is no window at all. */
static void check_refused(void)
{
    static const size_t behind[] = {12, 13, 14, 15, SIZE_MAX - 2, SIZE_MAX};
    for (const refused *r = refusals; r < refusals_end; r++) {
        const size_t windows[] = {0, r->n, r->n + 1, SIZE_MAX};
        for (size_t i = 0; i < 4; i++)
            hold("check, refused",
                 judges(jilbaroof_check(r->points, r->m, r->delta, r->gamma, r->recording, r->n, windows[i]), r->number, 0, 0, 0));
    }
    for (size_t i = 0; i < sizeof behind / sizeof *behind; i++)
        hold("check, no window", judges(jilbaroof_check(P, 3, 1, 2, L, 14, behind[i]), 6, 0, 0, 0));
    hold("check, at 2^32", judges(jilbaroof_check(P, 3, 1, 2, L, 14, 4294967296), 6, 0, 0, 0));
    hold("check, far on, no window", judges(jilbaroof_check(P, 3, 1, 2, many, 1000000, 999998), 6, 0, 0, 0));
    hold("check, no reading", judges(jilbaroof_check(P, 3, 1, 2, NULL, 0, 0), 6, 0, 0, 0));
    hold("check, 2 readings", judges(jilbaroof_check(P, 3, 1, 2, L, 2, 0), 6, 0, 0, 0));
    hold("check, 3 readings", judges(jilbaroof_check(P, 3, 1, 2, L, 3, 0), 0, JILBAROOF_FITS, 0, 0));
    hold("check, 3 readings, at 1", judges(jilbaroof_check(P, 3, 1, 2, L, 3, 1), 6, 0, 0, 0));
    hold("check, a 0 behind 64 points", judges(jilbaroof_check(zero_65, 64, 0, 0, many, 64, 0), 0, JILBAROOF_FITS, 0, 0));
}

/* The questions as functions of the profile and the tolerances alone. Point 0 would be refused by 6, and 1, 7, 8 and 2 come first. */
static jilbaroof_jump last_reading(const uint8_t *points, size_t m, uint32_t delta, uint32_t gamma)
{
    return jilbaroof_last_reading(points, m, delta, gamma, 44);
}

static jilbaroof_jump next_reading(const uint8_t *points, size_t m, uint32_t delta, uint32_t gamma)
{
    return jilbaroof_next_reading(points, m, delta, gamma, 44);
}

static jilbaroof_jump seen_reading(const uint8_t *points, size_t m, uint32_t delta, uint32_t gamma)
{
    return jilbaroof_seen_reading(points, m, delta, gamma, 44);
}

static jilbaroof_jump mismatch(const uint8_t *points, size_t m, uint32_t delta, uint32_t gamma)
{
    return jilbaroof_mismatch(points, m, delta, gamma, 0);
}

/* The refusals but 3, since a question has no recording. */
static void question_refused(const char *name, question ask)
{
    for (const refused *r = refusals; r < refusals_end; r++)
        if (r->number != 3)
            hold(name, says(ask(r->points, r->m, r->delta, r->gamma), r->number, 0));
    /* 64 points are not too many, and a 0 behind them is none of them: the next reason is mismatch's own */
    hold(name, ask(many, 64, 255, 16320).refusal == (ask == mismatch ? 6 : 0));
    hold(name, ask(zero_65, 64, 255, 16320).refusal == (ask == mismatch ? 6 : 0));
}

int main(void)
{
    static const searcher searchers[] = {jilbaroof_plain, jilbaroof_packed, jilbaroof_last, jilbaroof_skip, jilbaroof_maximal};
    static const question questions[] = {last_reading, next_reading, seen_reading, jilbaroof_after_check, jilbaroof_full, mismatch};
    static const char *const names[] = {"plain", "packed", "last", "skip", "maximal"};
    static const char *const asked[] = {"last_reading", "next_reading", "seen_reading", "after_check", "full", "mismatch"};
    static const size_t tried[] = {12, 12, 4, 6, 5}, tried_from_1[] = {11, 11, 4, 5, 5};
    static const size_t tried_lost[] = {15, 15, 5, 9, 5}, tried_widest[] = {4, 4, 2, 2, 3}, tried_words[] = {137, 137, 73, 137, 73};
    fill();
    for (size_t i = 0; i < 5; i++) {
        search(names[i], searchers[i], tried[i], tried_from_1[i]);
        search_lost(names[i], searchers[i], tried_lost[i], tried_widest[i]);
        search_words(names[i], searchers[i], tried_words[i]);
        search_refused(names[i], searchers[i]);
        search_limits(names[i], searchers[i]);
    }
    for (size_t i = 0; i < 6; i++)
        question_refused(asked[i], questions[i]);

    first();
    first_refused();
    first_limits();

    check();
    check_refused();

    hold("last_reading 44", says(jilbaroof_last_reading(P, 3, 1, 2, 44), 0, 0));
    hold("last_reading 41", says(jilbaroof_last_reading(P, 3, 1, 2, 41), 0, 1));
    hold("last_reading 40", says(jilbaroof_last_reading(P, 3, 1, 2, 40), 0, 2));
    hold("last_reading 70", says(jilbaroof_last_reading(P, 3, 1, 2, 70), 0, 3));
    hold("last_reading 0", says(jilbaroof_last_reading(P, 3, 1, 2, 0), 0, 3));
    hold("last_reading 0, widest", says(jilbaroof_last_reading(P, 3, 255, 16320, 0), 0, 3));
    hold("last_reading 1, widest", says(jilbaroof_last_reading(P, 3, 255, 16320, 1), 0, 0));
    hold("next_reading 44", says(jilbaroof_next_reading(P, 3, 1, 2, 44), 0, 1));
    hold("next_reading 70", says(jilbaroof_next_reading(P, 3, 1, 2, 70), 0, 4));
    hold("next_reading 0", says(jilbaroof_next_reading(P, 3, 1, 2, 0), 0, 4));
    hold("next_reading 0, widest", says(jilbaroof_next_reading(P, 3, 255, 16320, 0), 0, 4));
    hold("next_reading 1, widest", says(jilbaroof_next_reading(P, 3, 255, 16320, 1), 0, 1));
    /* 44 and 45 are near the last point alone, 43 and 41 near the one before it, 40 near the first alone */
    hold("seen_reading 45", says(jilbaroof_seen_reading(P, 3, 1, 2, 45), 0, 3));
    hold("seen_reading 44", says(jilbaroof_seen_reading(P, 3, 1, 2, 44), 0, 3));
    hold("seen_reading 43", says(jilbaroof_seen_reading(P, 3, 1, 2, 43), 0, 1));
    hold("seen_reading 41", says(jilbaroof_seen_reading(P, 3, 1, 2, 41), 0, 1));
    hold("seen_reading 40", says(jilbaroof_seen_reading(P, 3, 1, 2, 40), 0, 2));
    hold("seen_reading 70", says(jilbaroof_seen_reading(P, 3, 1, 2, 70), 0, 3));
    hold("seen_reading 0", says(jilbaroof_seen_reading(P, 3, 1, 2, 0), 0, 3));
    hold("seen_reading 0, widest", says(jilbaroof_seen_reading(P, 3, 255, 16320, 0), 0, 3));
    hold("seen_reading 1, widest", says(jilbaroof_seen_reading(P, 3, 255, 16320, 1), 0, 1));
    hold("seen_reading, 1 point", says(jilbaroof_seen_reading(P, 1, 1, 2, 40), 0, 1));
    hold("seen_reading, 64 points", says(jilbaroof_seen_reading(many, 64, 1, 2, 2), 0, 1));
    hold("seen_reading, 64 points, 3", says(jilbaroof_seen_reading(many, 64, 1, 2, 3), 0, 64));
    hold("after_check", says(jilbaroof_after_check((const uint8_t[]){10, 20, 20}, 3, 1, 2), 0, 1));
    hold("full", says(jilbaroof_full((const uint8_t[]){10, 20, 20}, 3, 1, 2), 0, 3));
    hold("mismatch, E12", says(jilbaroof_mismatch((const uint8_t[]){6, 5}, 2, 1, 2, 2), 0, 1));
    hold("mismatch, E13", says(jilbaroof_mismatch((const uint8_t[]){255, 254}, 2, 1, 2, 2), 0, 2));
    /* only a 0 would be near 1 and not near 2 */
    hold("mismatch, no reading below 1", says(jilbaroof_mismatch((const uint8_t[]){1, 2}, 2, 1, 2, 2), 0, 2));
    hold("mismatch at 0", says(jilbaroof_mismatch(P, 3, 1, 2, 0), 6, 0));
    hold("mismatch at 4", says(jilbaroof_mismatch(P, 3, 1, 2, 4), 6, 0));
    hold("mismatch at 2^32 + 1", says(jilbaroof_mismatch(P, 3, 1, 2, 4294967297), 6, 0));

    if (!wrong)
        puts("boundary: C: all answers as the sheet has them");
    return wrong;
}
