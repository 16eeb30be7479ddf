/* The eleven calls of include/station.h over twelve parts, which base.c and careful.c write each in its own way; where BOARD is set the six
 * of include/board.h, which are the same code with the board's limit, over the first five parts. The file that includes this one says by
 * NAME what its calls are called; by KEPT it may say what it keeps of a course beside its fields. ROOM and NO_RUNNER are the answers where
 * a lent slice is too short, from src/room.rs; nothing is written into it then. */
#include "board.h"

#include <string.h>

/* The most waypoints that there is memory for (N4, N23). */
#ifdef BOARD
#define MOST_POINTS 48
#else
#define MOST_POINTS 512
#endif

#ifndef KEPT
#define KEPT
#endif

struct course {
    uint64_t kind, n, leg_count, ticks;
    const uint8_t *legs, *points, *slopes;
    KEPT
};

/* Tests 1 to 8, and behind 4 that N is not over `most`, which is 23; fills the course in where none applies. */
static uint64_t read_course(const uint8_t *s, size_t length, uint64_t most, struct course *c);
/* Lays out all three axes in the first 3N places of a list. */
static void lay_out_axes(const struct course *c, int64_t *list);
/* Test 10, then the leg, offset and laps that a tick names. */
static uint64_t find_tick(const struct course *c, uint64_t tick, uint64_t *leg, uint64_t *offset, uint64_t *laps);
/* The length of a leg. */
static uint64_t leg_length(const struct course *c, uint64_t leg);
/* Test 12, the room, then the place at a leg and an offset that fit. */
static uint64_t place(const struct course *c, const int64_t *list, uint64_t leg, uint64_t offset, int64_t *out, size_t out_length);
#ifndef BOARD
/* Test 6 over a list of legs: whether it applies. */
static int some_leg_bad(const uint64_t *legs, size_t count);
/* Test 7 over n waypoints of three numbers. */
static int some_waypoint_bad(const int64_t *waypoints, size_t n);
/* Test 8 over a list of slopes. */
static int some_slope_bad(const int64_t *slopes, size_t count);
/* Two bytes for each leg (S6); then where they end. */
static uint8_t *put_legs(uint8_t *p, const uint64_t *legs, size_t count);
/* Four bytes for each number (S7, S8); then where they end. */
static uint8_t *put_numbers(uint8_t *p, const int64_t *numbers, size_t count);
/* Test 12 over a whole list of bend numbers. */
static int some_bend_bad(const int64_t *list, size_t count);
/* Test 22, then the ends of all strokes (H4), and how many they are. */
static uint64_t draw(const struct course *c, const int64_t *list, int64_t tolerance, uint64_t *ends, size_t ends_length, uint64_t *count);
#endif

/* Test 11. */
static int is_adrift(const struct course *c, uint64_t leg, uint64_t offset, uint64_t laps)
{
    if (leg >= c->leg_count || (laps > 0 && c->kind != STATION_CLOSED))
        return 1;
    uint64_t h = leg_length(c, leg);
    if (offset < h)
        return 0;
    return !(offset == h && c->kind != STATION_CLOSED && leg == c->leg_count - 1);
}

/* Tests 11 and 13 of a runner, then moves it on by a tick. The most laps are kept (M10). */
static inline uint64_t move_on(const struct course *c, uint64_t *runner)
{
    if (is_adrift(c, runner[0], runner[1], runner[2]))
        return STATION_ADRIFT;
    uint64_t h = leg_length(c, runner[0]);
    if (runner[1] == h)
        return STATION_LANDED;
    int last = runner[0] == c->leg_count - 1;
    if (runner[1] + 1 < h || (last && c->kind != STATION_CLOSED)) {
        runner[1] += 1;
    } else {
        runner[0] = last ? 0 : runner[0] + 1;
        runner[1] = 0;
        if (last && runner[2] < UINT64_MAX)
            runner[2] += 1;
    }
    return STATION_DONE;
}

uint64_t NAME(read)(const uint8_t *sheet, size_t sheet_length, uint64_t *out, size_t out_length)
{
    struct course c;
    uint64_t answer = read_course(sheet, sheet_length, MOST_POINTS, &c);
    if (answer)
        return answer;
    if (out_length < 3)
        return ROOM;
    out[0] = c.kind;
    out[1] = c.n;
    out[2] = c.ticks;
    return STATION_DONE;
}

uint64_t NAME(lay_out)(const uint8_t *sheet, size_t sheet_length, int64_t *list, size_t list_length)
{
    struct course c;
    uint64_t answer = read_course(sheet, sheet_length, MOST_POINTS, &c);
    if (answer)
        return answer;
    if (list_length < 3 * c.n)
        return STATION_SHELF;
    lay_out_axes(&c, list);
    return STATION_DONE;
}

uint64_t NAME(place_at_tick)(const uint8_t *sheet, size_t sheet_length, const int64_t *list, size_t list_length, uint64_t tick,
                             int64_t *out, size_t out_length)
{
    struct course c;
    uint64_t leg, offset, laps;
    uint64_t answer = read_course(sheet, sheet_length, MOST_POINTS, &c);
    if (answer)
        return answer;
    if (list_length < 3 * c.n)
        return STATION_SHELF;
    answer = find_tick(&c, tick, &leg, &offset, &laps);
    if (answer)
        return answer;
    return place(&c, list, leg, offset, out, out_length);
}

uint64_t NAME(place_of_runner)(const uint8_t *sheet, size_t sheet_length, const int64_t *list, size_t list_length, uint64_t leg,
                               uint64_t offset, uint64_t laps, int64_t *out, size_t out_length)
{
    struct course c;
    uint64_t answer = read_course(sheet, sheet_length, MOST_POINTS, &c);
    if (answer)
        return answer;
    if (list_length < 3 * c.n)
        return STATION_SHELF;
    if (is_adrift(&c, leg, offset, laps))
        return STATION_ADRIFT;
    return place(&c, list, leg, offset, out, out_length);
}

uint64_t NAME(runner_at_tick)(const uint8_t *sheet, size_t sheet_length, uint64_t tick, uint64_t *out, size_t out_length)
{
    struct course c;
    uint64_t leg, offset, laps;
    uint64_t answer = read_course(sheet, sheet_length, MOST_POINTS, &c);
    if (answer)
        return answer;
    answer = find_tick(&c, tick, &leg, &offset, &laps);
    if (answer)
        return answer;
    if (out_length < 3)
        return ROOM;
    out[0] = leg;
    out[1] = offset;
    out[2] = laps;
    return STATION_DONE;
}

uint64_t NAME(step)(const uint8_t *sheet, size_t sheet_length, uint64_t *runner, size_t runner_length)
{
    struct course c;
    uint64_t answer = read_course(sheet, sheet_length, MOST_POINTS, &c);
    if (answer)
        return answer;
    if (runner_length < 3)
        return NO_RUNNER;
    return move_on(&c, runner);
}

#ifndef BOARD
uint64_t NAME(back)(const uint8_t *sheet, size_t sheet_length, uint64_t *runner, size_t runner_length)
{
    struct course c;
    uint64_t answer = read_course(sheet, sheet_length, MOST_POINTS, &c);
    if (answer)
        return answer;
    if (runner_length < 3)
        return NO_RUNNER;
    if (is_adrift(&c, runner[0], runner[1], runner[2]))
        return STATION_ADRIFT;
    if (runner[1] > 0) {
        runner[1] -= 1;
        return STATION_DONE;
    }
    if (runner[0] == 0) {
        /* an open course's runner has no lap */
        if (runner[2] == 0)
            return STATION_START;
        runner[0] = c.leg_count;
        runner[2] -= 1;
    }
    runner[0] -= 1;
    runner[1] = leg_length(&c, runner[0]) - 1;
    return STATION_DONE;
}

/* S2 to S5: the length, the version, the kind, N. */
static uint8_t *put_head(uint8_t *p, size_t length, uint64_t kind, size_t n)
{
    p[0] = (uint8_t)(length >> 24);
    p[1] = (uint8_t)(length >> 16);
    p[2] = (uint8_t)(length >> 8);
    p[3] = (uint8_t)length;
    p[4] = 1;
    p[5] = (uint8_t)kind;
    p[6] = (uint8_t)(n >> 8);
    p[7] = (uint8_t)n;
    return p + 8;
}

uint64_t NAME(write)(uint64_t kind, const uint64_t *legs, size_t legs_length, const int64_t *waypoints, size_t waypoints_length,
                     const int64_t *slopes, size_t slopes_length, uint8_t *sheet, size_t sheet_length, uint64_t *out, size_t out_length)
{
    size_t n = waypoints_length / 3;
    int closed = kind == STATION_CLOSED, held = kind == STATION_HELD;
    if (kind > STATION_CLOSED)
        return STATION_ENDS;
    if (n < (closed ? 3 : 2) || n > 512)
        return STATION_POINTS;
    if (waypoints_length != 3 * n || legs_length != (closed ? n : n - 1) || slopes_length != (held ? 6 : 0))
        return STATION_SIZE;
    if (some_leg_bad(legs, legs_length))
        return STATION_LEG;
    if (some_waypoint_bad(waypoints, n))
        return STATION_REACH;
    if (some_slope_bad(slopes, slopes_length))
        return STATION_SLOPE;
    size_t length = 8 + 2 * legs_length + 12 * n + 4 * slopes_length;
    if (sheet_length < length)
        return STATION_PAGE;
    uint8_t *p = put_head(sheet, length, kind, n);
    p = put_legs(p, legs, legs_length);
    p = put_numbers(p, waypoints, waypoints_length);
    put_numbers(p, slopes, slopes_length);
    if (out_length < 1)
        return ROOM;
    out[0] = length;
    return STATION_DONE;
}

/* A copied section of a sheet; then where it ends. */
static uint8_t *put_section(uint8_t *p, const uint8_t *section, size_t bytes)
{
    memcpy(p, section, bytes);
    return p + bytes;
}

/* Sections are copied as they stand: two sheets' numbers have the same bytes where they are the same. */
uint64_t NAME(join)(const uint8_t *first, size_t first_length, const uint8_t *second, size_t second_length, uint8_t *sheet,
                    size_t sheet_length, uint64_t *out, size_t out_length)
{
    struct course a, b;
    uint64_t answer = read_course(first, first_length, MOST_POINTS, &a);
    if (answer)
        return answer;
    answer = read_course(second, second_length, MOST_POINTS, &b);
    if (answer)
        return answer;
    if (a.kind != STATION_FREE || b.kind != STATION_FREE)
        return STATION_SHUT;
    if (memcmp(a.points + 12 * (a.n - 1), b.points, 12) != 0)
        return STATION_APART;
    size_t n = a.n + b.n - 1;
    if (n > 512)
        return STATION_CROWDED;
    size_t length = 8 + 2 * (n - 1) + 12 * n;
    if (sheet_length < length)
        return STATION_PAGE;
    uint8_t *p = put_head(sheet, length, STATION_FREE, n);
    p = put_section(p, a.legs, 2 * a.leg_count);
    p = put_section(p, b.legs, 2 * b.leg_count);
    p = put_section(p, a.points, 12 * a.n);
    put_section(p, b.points + 12, 12 * (b.n - 1));
    if (out_length < 1)
        return ROOM;
    out[0] = length;
    return STATION_DONE;
}

/* The seat's runner is moved on in a copy, which becomes its record where 12 does not apply; the lack of room keeps no record back. */
uint64_t NAME(round)(const uint8_t *sheet, size_t sheet_length, const int64_t *list, size_t list_length, uint64_t *fleet,
                     size_t fleet_length, uint64_t turn, int64_t *out, size_t out_length, uint64_t *next, size_t next_length)
{
    struct course c;
    size_t seats = fleet_length / 3;
    uint64_t answer = read_course(sheet, sheet_length, MOST_POINTS, &c);
    if (answer)
        return answer;
    if (list_length < 3 * c.n)
        return STATION_SHELF;
    if (seats < 1 || seats > STATION_MOST_SEATS)
        return STATION_SEATS;
    if (turn >= seats)
        return STATION_TURN;
    if (next_length > 0)
        next[0] = turn + 1 < seats ? turn + 1 : 0;
    uint64_t *seat = fleet + 3 * turn;
    uint64_t runner[3] = {seat[0], seat[1], seat[2]};
    answer = move_on(&c, runner);
    if (answer)
        return answer;
    answer = place(&c, list, runner[0], runner[1], out, out_length);
    if (answer == STATION_BEND)
        return answer;
    seat[0] = runner[0];
    seat[1] = runner[1];
    seat[2] = runner[2];
    return answer;
}

uint64_t NAME(strokes)(const uint8_t *sheet, size_t sheet_length, const int64_t *list, size_t list_length, int64_t tolerance,
                       uint64_t *ends, size_t ends_length, uint64_t *out, size_t out_length)
{
    struct course c;
    uint64_t count;
    uint64_t answer = read_course(sheet, sheet_length, MOST_POINTS, &c);
    if (answer)
        return answer;
    if (list_length < 3 * c.n)
        return STATION_SHELF;
    if (tolerance < 0 || tolerance > STATION_MOST_TOLERANCE)
        return STATION_GRAIN;
    if (some_bend_bad(list, 3 * c.n))
        return STATION_BEND;
    answer = draw(&c, list, tolerance, ends, ends_length, &count);
    if (answer)
        return answer;
    if (out_length < 1)
        return ROOM;
    out[0] = count;
    return STATION_DONE;
}
#endif
