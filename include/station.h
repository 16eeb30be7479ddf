/* The route station's curve for C99 and later, and C++11 and later: the functions of the proved library libstation.a.
 * `tools/archive` makes the library, `tools/install PREFIX` installs both; examples/fly.c flies a course with them,
 * examples/fleet.c flies several drones on it, examples/join.c joins two courses, examples/strokes.c draws one by straight strokes. board.h
 * has the autopilot board's functions, which are in the library as well. N6, A4 and the like are clauses of docs/REQUIREMENTS.md.
 *
 * Units: ten ticks are a second; north, east and up are millimetres seen from the home post, in whole numbers. N, L and P stand for the
 * counts of waypoints, of legs, and of ticks on all legs together.
 *
 * Answers (A1, A9): STATION_DONE, or the least number of the refusals that this call looks for and finds; joining, the round and strokes
 * have orders of their own (A13 to A15), and so has the board (A16). A refused call leaves all that it was lent as it was, but for the next
 * turn, which goes with the refusal of a seat (Q3). There is no state behind the calls, no heap, no global variable and no errno; threads
 * may call at the same time.
 *
 * A slice is a pointer, followed by how many elements there are. Any bytes and numbers may stand in it (D1). The caller owes that
 *   - its pointer is never null, even for no elements, is aligned as its type wants, and reaches over all the elements;
 *   - what a call writes (out; list when laying out; the runner of a step or a back; the sheet when writing or joining; fleet, place and
 *     next of a round; ends of strokes) shares no memory with another slice of that call (slices that it only reads may share theirs: a
 *     sheet can be joined with itself);
 *   - no other thread writes a slice during the call.
 * Results fill out (of a round place and next) from its start, and nothing after them is touched. An out that is too short stays as it was
 * although the answer is the same: the functions over structs, further down, cannot be called with a short out.
 *
 * The archive's member with these functions, exports.o, as `tools/measure` prints it (`tools/measure --write` renews these lines). The
 * board's have a member of their own, board.o, which a program that calls none of them does not link:
 * [measured]
 *   format:           elf64-x86-64, for Linux (System V calls)
 *   outside symbols:  memmove memset
 *   code:             14282 bytes with constants, data 0, zeroed data 0
 *   deepest stack:    7368 bytes (read 288, lay_out 448, place_at_tick 452, place_of_runner 452, runner_at_tick 304, step 304, back 304, write 144, join 440, round 580, strokes 7368)
 * [/measured]
 */
#ifndef STATION_H
#define STATION_H

#include <stddef.h>
#include <stdint.h>

/* The version of this header and its library. MAJOR moves where a correct caller may have to change, MINOR where functions or numbers are
 * added. MINOR moves as well where a refusal gets another limit: a correct caller handles its number already; and where the same calls come
 * to other figures within their clauses, as in 1.5 by the rounding of halves (L4): bend numbers that an earlier version laid out are not
 * this one's own (C1), so lay out again. PATCH moves where every answer stays and only time or words move, as in 1.5.1 by how a tick's leg
 * is found (P7).
 *
 * From 1.x to 2.0: a runner is three numbers, the third its laps flown, in every record, in a fleet and as arguments; a runner of two
 * numbers becomes one with 0 laps. A back at a closed course's first waypoint takes a lap off, and without one it is refused with 15.
 * 2.1 adds board.h and the number 23, which no function of this header answers. */
#define STATION_VERSION_MAJOR 2
#define STATION_VERSION_MINOR 1
#define STATION_VERSION_PATCH 0
#define STATION_VERSION "2.1.0"

/* Asks gcc and clang to warn where an answer is dropped or a null pointer is handed over; nothing to other compilers. */
#if defined(__GNUC__)
#define STATION_CHECKED __attribute__((warn_unused_result, nonnull))
#else
#define STATION_CHECKED
#endif

#ifdef __cplusplus
extern "C" {
#endif

/* The refusals by number (group N). */
enum {
    STATION_DONE = 0,     /* not refused */
    STATION_TORN = 1,     /* N1: no room for the header, or its count of bytes is not the slice's */
    STATION_EDITION = 2,  /* N2: a version other than 1 */
    STATION_ENDS = 3,     /* N3: no such kind of ends */
    STATION_POINTS = 4,   /* N4: over 512 waypoints, or fewer than 2, closed: fewer than 3 */
    STATION_SIZE = 5,     /* N5: too many or too few bytes for that kind and N (8 + 2L + 12N; held: 24 more), or elements (G3) */
    STATION_LEG = 6,      /* N6: a leg of 0 or over 256 ticks */
    STATION_REACH = 7,    /* N7: a waypoint's north or east over 1,000,000 mm in size, or its up not from -50,000 to 120,000 mm */
    STATION_SLOPE = 8,    /* N8: a slope over 5,000 mm per tick in size */
    STATION_SHELF = 9,    /* N9: the list is shorter than 3N */
    STATION_PAST = 10,    /* N10: the tick is over P, on an open course */
    STATION_ADRIFT = 11,  /* N11: no such leg, or the offset is beyond it, or laps on an open course */
    STATION_BEND = 12,    /* N12: at an end of the leg, a bend number over 2^37 in size */
    STATION_LANDED = 13,  /* N13: the runner has come to the end of an open course */
    STATION_PAGE = 14,    /* N14: the slice is shorter than the sheet to be written into it */
    STATION_START = 15,   /* N15: the runner stands at the first waypoint with no lap flown */
    STATION_SHUT = 16,    /* N16: one of the two sheets to be joined is not free-ended */
    STATION_APART = 17,   /* N17: the first sheet's last waypoint is not the second's first, on some axis */
    STATION_CROWDED = 18, /* N18: the joined course would have over 512 waypoints */
    STATION_SEATS = 19,   /* N19: the fleet has no seats, or over 32 */
    STATION_TURN = 20,    /* N20: the turn is not below the number of seats */
    STATION_GRAIN = 21,   /* N21: a tolerance below 0 or over 1,000 mm */
    STATION_INK = 22,     /* N22: the list for the ends of strokes is shorter than the answer */
    STATION_BOARD = 23    /* N23: over 48 waypoints, the most that the board reads; no function of this header tests it */
};

/* The kinds of ends (S4). */
enum { STATION_FREE = 0, STATION_HELD = 1, STATION_CLOSED = 2 };

/* How long an accepted sheet can be, in bytes (S9), how long a list it can ask for, in numbers (N9), how many seats a fleet can have (N19),
 * and how many ends the strokes of a course can have (H5; of one that is known, P + 1): sizes for arrays. */
enum { STATION_LONGEST_SHEET = 7198, STATION_LONGEST_LIST = 1536, STATION_MOST_SEATS = 32, STATION_MOST_STROKE_ENDS = 131073 };

/* The greatest tolerance of strokes, in millimetres (N21). */
enum { STATION_MOST_TOLERANCE = 1000 };

/* Reads a sheet. Tests 1-8 (A2). Results: kind of ends, N, P. */
STATION_CHECKED uint64_t station_read(const uint8_t *sheet, size_t sheet_length, uint64_t *out, size_t out_length);

/* Lays out the sheet's bend numbers in a list: N for north, then N for east, then N for up (L5). Tests 1-9 (A3). Bend numbers, and places
 * too, are rounded to the nearest, a half away from zero (L4), so that a course that is mirrored on an axis, its slopes as well where it is
 * held, has mirrored bend numbers and places there (L7, P6). */
STATION_CHECKED uint64_t station_lay_out(const uint8_t *sheet, size_t sheet_length, int64_t *list, size_t list_length);

/* The place at a tick, by a list that was laid out for this sheet; a closed course has a place at any tick (P4). Tests 1-10 and 12 (A4).
 * Results: north, east, up. It takes about the same time at every tick of a course, and that time goes with N, since each call tests the
 * whole sheet (P7). */
STATION_CHECKED uint64_t station_place_at_tick(const uint8_t *sheet, size_t sheet_length, const int64_t *list, size_t list_length,
                                               uint64_t tick, int64_t *out, size_t out_length);

/* A runner is a leg, counted from 0, an offset in ticks, and the laps that it has flown (M1): on an open course none, else it is adrift
 * (N11), on a closed one any number (M10). */

/* The place of a runner, which its laps do not change. Tests 1-9, 11, 12 (A5). Results: north, east, up. */
STATION_CHECKED uint64_t station_place_of_runner(const uint8_t *sheet, size_t sheet_length, const int64_t *list, size_t list_length,
                                                 uint64_t leg, uint64_t offset, uint64_t laps, int64_t *out, size_t out_length);

/* The runner that stands at a tick. Tests 1-8 and 10 (A6). Results: leg, offset, laps: on a closed course tick / P, rounded down, else 0
 * (M10). It takes about the same time at every tick of a course, and that time goes with N, since each call tests the whole sheet (P7). */
STATION_CHECKED uint64_t station_runner_at_tick(const uint8_t *sheet, size_t sheet_length, uint64_t tick, uint64_t *out, size_t out_length);

/* Moves a runner (leg, offset, laps) on by a tick where it lies (M2). A step to the first waypoint of a closed course adds a lap; 2^64 - 1
 * laps, the most, stay as many (M10). Tests 1-8, 11, 13 (A7). Fewer than three numbers are no runner: 11. */
STATION_CHECKED uint64_t station_step(const uint8_t *sheet, size_t sheet_length, uint64_t *runner, size_t runner_length);

/* Moves a runner (leg, offset, laps) back by a tick where it lies (M6), from the first waypoint of a closed course by taking a lap off; so
 * that it undoes a step, and a step undoes it, but for a step to the first waypoint that found the most laps and kept them (M8). Tests 1-8,
 * 11, 15 (A12). Fewer than three numbers are no runner: 11. */
STATION_CHECKED uint64_t station_back(const uint8_t *sheet, size_t sheet_length, uint64_t *runner, size_t runner_length);

/* Writes a sheet at the front of the slice `sheet`, whose bytes behind it stay, from lists in the sheet's order (G1): the legs; north, east
 * and up of each waypoint in turn; the slopes, six on a held course and none on others. N is a third of the count of waypoint numbers,
 * rounded down (G2). Numbers of any size are tested as they are (G4). Tests 3-8, then 14 (A11); 5 where a list's count does not fit kind
 * and N. Results: the sheet's length; where out has no place for it, the sheet is written all the same. */
STATION_CHECKED uint64_t station_write(uint64_t kind, const uint64_t *legs, size_t legs_length, const int64_t *waypoints,
                                       size_t waypoints_length, const int64_t *slopes, size_t slopes_length, uint8_t *sheet,
                                       size_t sheet_length, uint64_t *out, size_t out_length);

/* Joins two free-ended courses, the second of which starts at the waypoint where the first ends: at the front of the slice `sheet`, whose
 * bytes behind it stay, the joined sheet (J1). It has the legs of both in turn and their waypoints likewise, the shared one once (J2). The
 * waypoints of the first keep their ticks, those of the second come later by the first's P (J4); between waypoints the joined course has a
 * spline of its own, which need follow neither of the two (J5). Tests 1-8 of the first sheet, 1-8 of the second, 16, 17, 18 and, last of
 * all, 14, in this order (A13); which of the two sheets was refused is not told. Results: the joined sheet's length; where out has no place
 * for it, the sheet is written all the same. */
STATION_CHECKED uint64_t station_join(const uint8_t *first, size_t first_length, const uint8_t *second, size_t second_length,
                                      uint8_t *sheet, size_t sheet_length, uint64_t *out, size_t out_length);

/* Serves one seat of a fleet of drones on one course, the seat whose turn it is (Q1): moves its runner on by a tick where it lies, as a
 * step does, and tells where that brings it (Q2). fleet has leg, offset and laps of each seat in turn; there are k = fleet_length / 3
 * seats, rounded down, and one or two numbers left over belong to none. Tests 1-9, 19, 20, then of this seat 11, 13 and, at the leg on
 * which it stands after the step, 12, in this order (A14). Results: north, east, up into place; the next turn into next, which is turn + 1,
 * or 0 after the last seat. A seat that is refused (11, 13, 12) keeps its record, and its number comes with the next turn in next, without
 * a place; with the other numbers nothing comes (Q3). The other seats' records stay as they were (Q4). Where place or next is too short,
 * the record is moved on all the same. With each turn handed on as it came back, any k calls in a row that 1-9, 19 and 20 do not refuse
 * serve each seat once (Q5). */
STATION_CHECKED uint64_t station_round(const uint8_t *sheet, size_t sheet_length, const int64_t *list, size_t list_length, uint64_t *fleet,
                                       size_t fleet_length, uint64_t turn, int64_t *place, size_t place_length, uint64_t *next,
                                       size_t next_length);

/* Cuts the course into straight strokes, for a tablet to draw. A stroke joins the places at two ticks of one leg, straight and even in
 * ticks, and is within the tolerance, in millimetres, of the place at each of its ticks on each axis (H1, H2). A leg for which one stroke
 * will not do is cut at half its ticks, rounded down, and each half likewise (H3). Results: at the front of ends, whose numbers behind them
 * stay, the ticks at which strokes begin and end, rising from 0 to P, every waypoint's among them (H4, H5); into out how many these are,
 * one more than there are strokes. Where out has no place for it, the ends are written all the same. There are at most P + 1 of them:
 * where ends has so many places, they are not counted first, which saves time. Tests 1-9, 21, 12 at every leg of the course and, last of
 * all, 22, in this order (A15). */
STATION_CHECKED uint64_t station_strokes(const uint8_t *sheet, size_t sheet_length, const int64_t *list, size_t list_length,
                                         int64_t tolerance, uint64_t *ends, size_t ends_length, uint64_t *out, size_t out_length);

/* The same calls with structs for what they answer, for the lists of a sheet, and for the seats of a fleet. */

struct station_course {
    uint64_t kind;      /* STATION_FREE, STATION_HELD or STATION_CLOSED */
    uint64_t waypoints; /* N; the list needs three times as many numbers */
    uint64_t ticks;     /* P */
};

struct station_place {
    int64_t north, east, up;
};

struct station_runner {
    uint64_t leg, offset;
    uint64_t laps; /* laps flown; 0 on an open course */
};

/* An array of runners is a fleet's numbers as they lie: does not compile where a runner is more than its three. */
typedef char station_runner_is_three_numbers[sizeof(struct station_runner) == 3 * sizeof(uint64_t) ? 1 : -1];

/* What a sheet is written from (G1). A list of no elements may have a null pointer here. */
struct station_lists {
    uint64_t kind; /* STATION_FREE, STATION_HELD or STATION_CLOSED */
    const uint64_t *legs;
    size_t legs_length;
    const int64_t *waypoints; /* north, east, up of each waypoint in turn */
    size_t waypoints_length;  /* three times N */
    const int64_t *slopes;    /* held: north, east, up at the start, then at the end */
    size_t slopes_length;     /* held: 6, else 0 */
};

/* What a call left in out goes into a struct where it was done; then its answer. For the functions over structs, here and in board.h. */

STATION_CHECKED static inline uint64_t station_told_course(uint64_t answer, const uint64_t *out, struct station_course *course)
{
    if (answer == STATION_DONE) {
        course->kind = out[0];
        course->waypoints = out[1];
        course->ticks = out[2];
    }
    return answer;
}

STATION_CHECKED static inline uint64_t station_told_place(uint64_t answer, const int64_t *out, struct station_place *place)
{
    if (answer == STATION_DONE) {
        place->north = out[0];
        place->east = out[1];
        place->up = out[2];
    }
    return answer;
}

STATION_CHECKED static inline uint64_t station_told_runner(uint64_t answer, const uint64_t *out, struct station_runner *runner)
{
    if (answer == STATION_DONE) {
        runner->leg = out[0];
        runner->offset = out[1];
        runner->laps = out[2];
    }
    return answer;
}

/* station_read, into a struct. */
STATION_CHECKED static inline uint64_t station_read_into(const uint8_t *sheet, size_t sheet_length, struct station_course *course)
{
    uint64_t out[3] = {0, 0, 0};
    uint64_t answer = station_read(sheet, sheet_length, out, 3);
    return station_told_course(answer, out, course);
}

/* station_place_at_tick, into a struct. */
STATION_CHECKED static inline uint64_t station_place_at_tick_into(const uint8_t *sheet, size_t sheet_length, const int64_t *list,
                                                                  size_t list_length, uint64_t tick, struct station_place *place)
{
    int64_t out[3] = {0, 0, 0};
    uint64_t answer = station_place_at_tick(sheet, sheet_length, list, list_length, tick, out, 3);
    return station_told_place(answer, out, place);
}

/* station_place_of_runner, from a struct and into one. */
STATION_CHECKED static inline uint64_t station_place_of_runner_into(const uint8_t *sheet, size_t sheet_length, const int64_t *list,
                                                                    size_t list_length, struct station_runner runner,
                                                                    struct station_place *place)
{
    int64_t out[3] = {0, 0, 0};
    uint64_t answer = station_place_of_runner(sheet, sheet_length, list, list_length, runner.leg, runner.offset, runner.laps, out, 3);
    return station_told_place(answer, out, place);
}

/* station_runner_at_tick, into a struct. */
STATION_CHECKED static inline uint64_t station_runner_at_tick_into(const uint8_t *sheet, size_t sheet_length, uint64_t tick,
                                                                   struct station_runner *runner)
{
    uint64_t out[3] = {0, 0, 0};
    uint64_t answer = station_runner_at_tick(sheet, sheet_length, tick, out, 3);
    return station_told_runner(answer, out, runner);
}

/* station_step, on a struct. */
STATION_CHECKED static inline uint64_t station_step_runner(const uint8_t *sheet, size_t sheet_length, struct station_runner *runner)
{
    uint64_t record[3] = {runner->leg, runner->offset, runner->laps};
    uint64_t answer = station_step(sheet, sheet_length, record, 3);
    return station_told_runner(answer, record, runner);
}

/* station_back, on a struct. */
STATION_CHECKED static inline uint64_t station_back_runner(const uint8_t *sheet, size_t sheet_length, struct station_runner *runner)
{
    uint64_t record[3] = {runner->leg, runner->offset, runner->laps};
    uint64_t answer = station_back(sheet, sheet_length, record, 3);
    return station_told_runner(answer, record, runner);
}

/* station_write, from a struct. The sheet's length goes into *length where it is not refused. */
STATION_CHECKED static inline uint64_t station_write_lists(const struct station_lists *lists, uint8_t *sheet, size_t sheet_length,
                                                           size_t *length)
{
    /* stand in for lists of no elements, which may be null */
    const uint64_t no_leg = 0;
    const int64_t no_number = 0;
    const uint64_t *legs = lists->legs_length == 0 ? &no_leg : lists->legs;
    const int64_t *waypoints = lists->waypoints_length == 0 ? &no_number : lists->waypoints;
    const int64_t *slopes = lists->slopes_length == 0 ? &no_number : lists->slopes;
    uint64_t out[1] = {0};
    uint64_t answer = station_write(lists->kind, legs, lists->legs_length, waypoints, lists->waypoints_length, slopes,
                                    lists->slopes_length, sheet, sheet_length, out, 1);
    if (answer == STATION_DONE)
        *length = (size_t)out[0];
    return answer;
}

/* station_join. The joined sheet's length goes into *length where it is not refused. */
STATION_CHECKED static inline uint64_t station_join_into(const uint8_t *first, size_t first_length, const uint8_t *second,
                                                         size_t second_length, uint8_t *sheet, size_t sheet_length, size_t *length)
{
    uint64_t out[1] = {0};
    uint64_t answer = station_join(first, first_length, second, second_length, sheet, sheet_length, out, 1);
    if (answer == STATION_DONE)
        *length = (size_t)out[0];
    return answer;
}

/* station_round, on an array of so many seats and into a struct. *turn becomes the next turn where a seat was served, refused (11, 13, 12)
 * or not; with every other number it stays (Q3). */
STATION_CHECKED static inline uint64_t station_round_fleet(const uint8_t *sheet, size_t sheet_length, const int64_t *list,
                                                           size_t list_length, struct station_runner *fleet, size_t seats, uint64_t *turn,
                                                           struct station_place *place)
{
    int64_t out[3] = {0, 0, 0};
    uint64_t next[1] = {*turn};
    uint64_t answer = station_round(sheet, sheet_length, list, list_length, &fleet->leg, 3 * seats, *turn, out, 3, next, 1);
    *turn = next[0];
    return station_told_place(answer, out, place);
}

/* station_strokes. How many ends there are goes into *count where it is not refused. */
STATION_CHECKED static inline uint64_t station_strokes_into(const uint8_t *sheet, size_t sheet_length, const int64_t *list,
                                                            size_t list_length, int64_t tolerance, uint64_t *ends, size_t ends_length,
                                                            size_t *count)
{
    uint64_t out[1] = {0};
    uint64_t answer = station_strokes(sheet, sheet_length, list, list_length, tolerance, ends, ends_length, out, 1);
    if (answer == STATION_DONE)
        *count = (size_t)out[0];
    return answer;
}

/* The word of an answer (group N), "done" for STATION_DONE, "unknown" for a number that this header does not name. */
static inline const char *station_word(uint64_t answer)
{
    switch (answer) {
    case STATION_DONE:
        return "done";
    case STATION_TORN:
        return "torn";
    case STATION_EDITION:
        return "edition";
    case STATION_ENDS:
        return "ends";
    case STATION_POINTS:
        return "points";
    case STATION_SIZE:
        return "size";
    case STATION_LEG:
        return "leg";
    case STATION_REACH:
        return "reach";
    case STATION_SLOPE:
        return "slope";
    case STATION_SHELF:
        return "shelf";
    case STATION_PAST:
        return "past";
    case STATION_ADRIFT:
        return "adrift";
    case STATION_BEND:
        return "bend";
    case STATION_LANDED:
        return "landed";
    case STATION_PAGE:
        return "page";
    case STATION_START:
        return "start";
    case STATION_SHUT:
        return "shut";
    case STATION_APART:
        return "apart";
    case STATION_CROWDED:
        return "crowded";
    case STATION_SEATS:
        return "seats";
    case STATION_TURN:
        return "turn";
    case STATION_GRAIN:
        return "grain";
    case STATION_INK:
        return "ink";
    case STATION_BOARD:
        return "board";
    default:
        return "unknown";
    }
}

#ifdef __cplusplus
}
#endif

#endif
