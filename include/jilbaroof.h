/* Jilbaroof for C: find a pressure profile in a recording, all its places or the first, ask how far a search may jump, and why a window is
 * no place.
 *
 * A reading is a byte: a pressure from 1 to 255, or 0 where the sensor had lost contact. A profile is 1 to 64 pressures, called points; a
 * recording is up to 1,000,000 readings. The window at s is the m readings from position s on, for a profile of m points. s is a place when
 * every difference between a point and its reading is at most delta, the sum of the m differences at most gamma, and none of the readings
 * is 0: a window holding a 0 is no place, whatever the tolerances. Positions and places count from 0.
 *
 * Who checks what. The library checks every value: it takes any points, any recording, any delta and gamma, any reading, any point number
 * and any position, and answers or refuses by a number (below); nothing a caller can pass as a value makes it fail. It allocates nothing, and
 * keeps nothing after it returns. What it answers is proved, for every input. The caller answers for the memory, which the library cannot
 * check:
 *   - a pointer and the length behind it name that many entries, of a recording or profile to be read, of a list to be written;
 *   - no list shares memory with the other one, the points or the recording, nothing else writes any of them during the call, and nothing
 *     else reads a list.
 * Where a length is 0, nothing is read or written through its pointer, which may be NULL.
 * The functions have no state and may be called from several threads at once. They are compiled for 64-bit processors: size_t has 64 bits.
 *
 * Refusals: the first reason that applies, in this order; 0 where none does. A refused call answers 0 in every other field and leaves
 * both lists as they were.
 *   1  the profile has no points: usually no file was chosen
 *   7  the profile has more than 64 points, and must be cut
 *   8  the profile holds a 0, which says that contact was lost: every point must be a pressure, 1 to 255
 *   2  delta is above 255, or gamma above 16,320
 *   3  the recording has more than 1,000,000 readings (searchers, jilbaroof_first and jilbaroof_check)
 *   6  the point number is 0 or above m (jilbaroof_mismatch), or s has no window: s + m is above n (jilbaroof_check)
 * (4 is no longer given: it was jilbaroof_packed's, for counters that do not fit one word. The number is not used again. 5 belongs to the
 * program `places` and is never given here.)
 */
#ifndef JILBAROOF_H
#define JILBAROOF_H

#include <stddef.h>
#include <stdint.h>

#ifdef __cplusplus
extern "C" {
#endif

/* What a search answers. */
typedef struct {
    uint32_t refusal; /* 0, or why the search was refused */
    size_t total;     /* how many places there are, listed or not */
    size_t tried;     /* how many windows this searcher tried */
    uint32_t least;   /* the least sum of all places, listed or not; 0 where there is none, and a perfect fit has 0 too, so look at total */
} jilbaroof_search;

/* What jilbaroof_first answers. */
typedef struct {
    uint32_t refusal; /* 0, or why the call was refused */
    uint32_t found;   /* 1 where a place is told; 0 where there is none, and on refusal */
    size_t place;     /* the first place; 0 where found is 0, so look at found first */
    size_t tried;     /* how many windows were tried */
} jilbaroof_first_place;

/* What each of the six questions about jumps answers. */
typedef struct {
    uint32_t refusal; /* 0, or why the question was refused */
    size_t jump;      /* the jump: from the window at s to the window at s + jump */
} jilbaroof_jump;

/* The kinds of verdict. Near means the same as for the questions below. */
enum {
    JILBAROOF_FAR = 0,  /* some reading is not near its point */
    JILBAROOF_FITS = 1, /* the window is a place */
    JILBAROOF_OVER = 2  /* every reading is near its point, and the sum of the differences is above gamma */
};

/* What jilbaroof_check answers. */
typedef struct {
    uint32_t refusal; /* 0, or why the call was refused; look at it first, since a refused call has kind 0 as well */
    uint32_t kind;    /* JILBAROOF_FAR, JILBAROOF_FITS or JILBAROOF_OVER */
    size_t point;     /* where it is far: the number of the first point, from 1 on, whose reading is not near; else 0 */
    uint32_t sum;     /* where it fits or is over: the sum of the differences; else 0 */
} jilbaroof_verdict;

/* The five searchers. All find the same places: list receives the first of them in rising order, as many as fit, and sums receives in the same
 * order what the differences of each add up to, as many as fit there. Either list may be the longer one, and both keep every other entry.
 * The searchers differ in which windows they try, and so in time and in `tried`. */

/* Tries every window. */
jilbaroof_search jilbaroof_plain(const uint8_t *points, size_t m, uint32_t delta, uint32_t gamma,
                                 const uint8_t *recording, size_t n,
                                 uint32_t *list, size_t room, uint16_t *sums, size_t sums_room);

/* Keeps a counter for each point, side by side in as many 64-bit words as they need, 16 at most, and reads each reading once, whatever came
 * before; so its time hardly depends on the readings, but for the places that it finds and lists. The more words, the longer it takes. A
 * counter has 1 + b bits, b the least with 2^b above the smaller of gamma and m times d, d the smaller of delta and gamma, and none is
 * split over two words. */
jilbaroof_search jilbaroof_packed(const uint8_t *points, size_t m, uint32_t delta, uint32_t gamma,
                                  const uint8_t *recording, size_t n,
                                  uint32_t *list, size_t room, uint16_t *sums, size_t sums_room);

/* Looks at the last reading of a window, and jumps. */
jilbaroof_search jilbaroof_last(const uint8_t *points, size_t m, uint32_t delta, uint32_t gamma,
                                const uint8_t *recording, size_t n,
                                uint32_t *list, size_t room, uint16_t *sums, size_t sums_room);

/* Looks at every m-th reading, and tries the windows that put a near point there. */
jilbaroof_search jilbaroof_skip(const uint8_t *points, size_t m, uint32_t delta, uint32_t gamma,
                                const uint8_t *recording, size_t n,
                                uint32_t *list, size_t room, uint16_t *sums, size_t sums_room);

/* Compares the points that promise long jumps first, and takes the larger of two jumps. */
jilbaroof_search jilbaroof_maximal(const uint8_t *points, size_t m, uint32_t delta, uint32_t gamma,
                                   const uint8_t *recording, size_t n,
                                   uint32_t *list, size_t room, uint16_t *sums, size_t sums_room);

/* Is there a place at all? Goes as jilbaroof_last does, stops at the first place, and lists nothing. The place is the first entry of a
 * searcher's list, and there is none exactly where the total of a search that is not refused is 0. `tried` counts the windows that jilbaroof_last tries up to and
 * including that place; where there is none, all that it tries. */
jilbaroof_first_place jilbaroof_first(const uint8_t *points, size_t m, uint32_t delta, uint32_t gamma,
                                      const uint8_t *recording, size_t n);

/* The six questions: how far a search may go on from a window without passing a place, given what it has seen. Near means: differs by
 * at most the smaller of delta and gamma. 0 is near to no point. */

/* The window's last reading is a. A jump of 0 says that this window must be tried. Where a is 0, the jump is m. */
jilbaroof_jump jilbaroof_last_reading(const uint8_t *points, size_t m, uint32_t delta, uint32_t gamma, uint8_t a);

/* The reading directly after a window that was tried is a. Where a is 0, the jump is m + 1. */
jilbaroof_jump jilbaroof_next_reading(const uint8_t *points, size_t m, uint32_t delta, uint32_t gamma, uint8_t a);

/* The last reading of a window that was tried is a. This is the jump by which jilbaroof_last and jilbaroof_first go on from there. Where a is 0,
 * the jump is m. */
jilbaroof_jump jilbaroof_seen_reading(const uint8_t *points, size_t m, uint32_t delta, uint32_t gamma, uint8_t a);

/* The last reading of a window that was tried is near the last point, and nothing more is known of it. The jump is never longer than that of
 * jilbaroof_seen_reading for such a reading. */
jilbaroof_jump jilbaroof_after_check(const uint8_t *points, size_t m, uint32_t delta, uint32_t gamma);

/* All points of the window were near. */
jilbaroof_jump jilbaroof_full(const uint8_t *points, size_t m, uint32_t delta, uint32_t gamma);

/* Point number p (1 to m) was not near, and all points that are compared before it were. The lone jump of point q is the least k from 1 on
 * for which there is no point q - k, or some reading from 1 to 255 is near point q - k and not near point q. Points are compared by falling
 * lone jump, and of two with the same the one of the higher number first. */
jilbaroof_jump jilbaroof_mismatch(const uint8_t *points, size_t m, uint32_t delta, uint32_t gamma, size_t p);

/* Why is the window at s no place? A point that is not near is told before any sum. Where gamma is below delta, a reading that differs by more
 * than gamma is not near. It fits exactly where the searchers list s. */
jilbaroof_verdict jilbaroof_check(const uint8_t *points, size_t m, uint32_t delta, uint32_t gamma,
                                  const uint8_t *recording, size_t n, size_t s);

#ifdef __cplusplus
}
#endif

#endif
