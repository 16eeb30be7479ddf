/* How deep the stack is that each call of the library needs: compiled with it and run by tools/measure, for the station's library, and with
 * BOARD for the board's.
 *
 * A call is made on a stack of its own that was painted first; the lowest byte that lost its paint is how deep the call went. The same call
 * site is tried with a function that does nothing: the difference, and the return address, is the library's. Two paints are used, since a
 * byte may be written with the paint's own value. */
#include "board.h"

#include <stdio.h>
#include <stdlib.h>
#include <string.h>
#include <ucontext.h>

/* How many calls there are, of which the first six are also the board's, and the most waypoints that they read. */
#ifdef BOARD
#define LIBRARY(call) board_##call
enum { CALLS = 6, MOST_POINTS = BOARD_MOST_POINTS };
#else
#define LIBRARY(call) station_##call
enum { CALLS = 11, MOST_POINTS = 512 };
#endif
enum { STACK = 1 << 18, JOIN = 8, ROUND = 9, STROKES = 10, ADDRESS = 8 };

/* What is lent to a call: a sheet, the one that is joined to it, the lists it is made from, room for one more; a fleet; a tolerance, and a
 * list for the ends of strokes. */
static uint8_t sheet[STATION_LONGEST_SHEET + 1], second[STATION_LONGEST_SHEET + 1];
static size_t sheet_length, second_length;
static uint64_t legs[512];
static int64_t waypoints[3 * 512], slopes[6];
static struct station_lists lists = {0, legs, 0, waypoints, 0, slopes, 0};
static uint8_t page[STATION_LONGEST_SHEET];
static int64_t list[STATION_LONGEST_LIST];
static uint64_t tick, words[3], fleet[3 * STATION_MOST_SEATS];
static int64_t place[3], tolerance;
static uint64_t ends[STATION_MOST_STROKE_ENDS];
static size_t ends_length;

static const char *const names[] = {"read", "lay_out", "place_at_tick", "place_of_runner", "runner_at_tick",
                                    "step", "back",    "write",         "join",            "round",          "strokes"};
static uint64_t deepest[CALLS];

/* The library's calls, or functions of the same types that do nothing; of the board only the first six are set. */
struct calls {
    uint64_t (*read)(const uint8_t *, size_t, uint64_t *, size_t);
    uint64_t (*lay_out)(const uint8_t *, size_t, int64_t *, size_t);
    uint64_t (*place_at_tick)(const uint8_t *, size_t, const int64_t *, size_t, uint64_t, int64_t *, size_t);
    uint64_t (*place_of_runner)(const uint8_t *, size_t, const int64_t *, size_t, uint64_t, uint64_t, uint64_t, int64_t *, size_t);
    uint64_t (*runner_at_tick)(const uint8_t *, size_t, uint64_t, uint64_t *, size_t);
    uint64_t (*step)(const uint8_t *, size_t, uint64_t *, size_t);
    uint64_t (*back)(const uint8_t *, size_t, uint64_t *, size_t);
    uint64_t (*write)(uint64_t, const uint64_t *, size_t, const int64_t *, size_t, const int64_t *, size_t, uint8_t *, size_t, uint64_t *,
                      size_t);
    uint64_t (*join)(const uint8_t *, size_t, const uint8_t *, size_t, uint8_t *, size_t, uint64_t *, size_t);
    uint64_t (*round)(const uint8_t *, size_t, const int64_t *, size_t, uint64_t *, size_t, uint64_t, int64_t *, size_t, uint64_t *,
                      size_t);
    uint64_t (*strokes)(const uint8_t *, size_t, const int64_t *, size_t, int64_t, uint64_t *, size_t, uint64_t *, size_t);
};

static const struct calls library = {
    .read = LIBRARY(read),
    .lay_out = LIBRARY(lay_out),
    .place_at_tick = LIBRARY(place_at_tick),
    .place_of_runner = LIBRARY(place_of_runner),
    .runner_at_tick = LIBRARY(runner_at_tick),
    .step = LIBRARY(step),
#ifndef BOARD
    .back = station_back,
    .write = station_write,
    .join = station_join,
    .round = station_round,
    .strokes = station_strokes,
#endif
};

static uint64_t no_read(const uint8_t *s, size_t n, uint64_t *out, size_t m)
{
    return (void)s, (void)n, (void)out, (void)m, 0;
}

static uint64_t no_lay_out(const uint8_t *s, size_t n, int64_t *out, size_t m)
{
    return (void)s, (void)n, (void)out, (void)m, 0;
}

static uint64_t no_place_at_tick(const uint8_t *s, size_t n, const int64_t *l, size_t k, uint64_t t, int64_t *out, size_t m)
{
    return (void)s, (void)n, (void)l, (void)k, (void)t, (void)out, (void)m, 0;
}

static uint64_t no_place_of_runner(const uint8_t *s, size_t n, const int64_t *l, size_t k, uint64_t a, uint64_t b, uint64_t c, int64_t *out,
                                   size_t m)
{
    return (void)s, (void)n, (void)l, (void)k, (void)a, (void)b, (void)c, (void)out, (void)m, 0;
}

static uint64_t no_runner_at_tick(const uint8_t *s, size_t n, uint64_t t, uint64_t *out, size_t m)
{
    return (void)s, (void)n, (void)t, (void)out, (void)m, 0;
}

static uint64_t no_write(uint64_t k, const uint64_t *l, size_t a, const int64_t *w, size_t b, const int64_t *s, size_t c, uint8_t *p,
                         size_t n, uint64_t *out, size_t m)
{
    return (void)k, (void)l, (void)a, (void)w, (void)b, (void)s, (void)c, (void)p, (void)n, (void)out, (void)m, 0;
}

static uint64_t no_join(const uint8_t *s, size_t a, const uint8_t *t, size_t b, uint8_t *p, size_t n, uint64_t *out, size_t m)
{
    return (void)s, (void)a, (void)t, (void)b, (void)p, (void)n, (void)out, (void)m, 0;
}

static uint64_t no_round(const uint8_t *s, size_t n, const int64_t *l, size_t k, uint64_t *f, size_t g, uint64_t t, int64_t *p, size_t m,
                         uint64_t *out, size_t o)
{
    return (void)s, (void)n, (void)l, (void)k, (void)f, (void)g, (void)t, (void)p, (void)m, (void)out, (void)o, 0;
}

static uint64_t no_strokes(const uint8_t *s, size_t n, const int64_t *l, size_t k, int64_t t, uint64_t *e, size_t g, uint64_t *out,
                           size_t m)
{
    return (void)s, (void)n, (void)l, (void)k, (void)t, (void)e, (void)g, (void)out, (void)m, 0;
}

static const struct calls nothing = {no_read, no_lay_out, no_place_at_tick, no_place_of_runner, no_runner_at_tick,
                                     no_read, no_read,    no_write,         no_join,            no_round,
                                     no_strokes};

/* Which call is made, and its answer; volatile, so that the compiler keeps one call site for both sets. */
static const struct calls *volatile chosen;
static volatile int call;
static volatile uint64_t answer;
static ucontext_t here, there;

static void make_call(void)
{
    const struct calls *c = chosen;
    switch (call) {
    case 0:
        answer = c->read(sheet, sheet_length, words, 3);
        break;
    case 1:
        answer = c->lay_out(sheet, sheet_length, list, STATION_LONGEST_LIST);
        break;
    case 2:
        answer = c->place_at_tick(sheet, sheet_length, list, STATION_LONGEST_LIST, tick, place, 3);
        break;
    case 3:
        answer = c->place_of_runner(sheet, sheet_length, list, STATION_LONGEST_LIST, words[0], words[1], words[2], place, 3);
        break;
    case 4:
        answer = c->runner_at_tick(sheet, sheet_length, tick, words, 3);
        break;
    case 5:
        answer = c->step(sheet, sheet_length, words, 3);
        break;
    case 6:
        answer = c->back(sheet, sheet_length, words, 3);
        break;
    case 7:
        answer = c->write(lists.kind, lists.legs, lists.legs_length, lists.waypoints, lists.waypoints_length, lists.slopes,
                          lists.slopes_length, page, sizeof page, words, 1);
        break;
    case JOIN:
        answer = c->join(sheet, sheet_length, second, second_length, page, sizeof page, words, 1);
        break;
    case ROUND:
        answer = c->round(sheet, sheet_length, list, STATION_LONGEST_LIST, fleet, 3 * STATION_MOST_SEATS, STATION_MOST_SEATS - 1, place, 3,
                          words, 1);
        break;
    default:
        answer = c->strokes(sheet, sheet_length, list, STATION_LONGEST_LIST, tolerance, ends, ends_length, words, 1);
    }
}

/* The bytes of a fresh stack that stay painted below the call. */
static size_t untouched(const struct calls *which, uint8_t paint)
{
    static uint8_t stack[STACK];
    memset(stack, paint, STACK);
    chosen = which;
    if (getcontext(&there) != 0)
        exit(1);
    there.uc_stack.ss_sp = stack;
    there.uc_stack.ss_size = STACK;
    there.uc_link = &here;
    makecontext(&there, make_call, 0);
    if (swapcontext(&here, &there) != 0)
        exit(1);
    size_t left = 0;
    while (left < STACK && stack[left] == paint)
        left++;
    return left;
}

/* Makes one call, if there is such a one, on what is in place, at a tick and of a runner, and keeps its deepest; the answer has to be
 * `wanted`. */
static void measure_call(int i, uint64_t at, struct station_runner runner, uint64_t wanted)
{
    static const uint8_t paints[] = {0xa5, 0x5a};
    uint64_t *seat = fleet + 3 * (STATION_MOST_SEATS - 1);
    if (i >= CALLS)
        return;
    for (size_t p = 0; p < sizeof paints; p++) {
        call = i;
        tick = at;
        words[0] = seat[0] = runner.leg;
        words[1] = seat[1] = runner.offset;
        words[2] = seat[2] = runner.laps;
        size_t empty = untouched(&nothing, paints[p]);
        size_t full = untouched(&library, paints[p]);
        if (answer != wanted || full == 0 || full > empty) {
            fprintf(stderr, "measure: %s answers %llu, not %llu\n", names[i], (unsigned long long)answer,
                    (unsigned long long)wanted);
            exit(1);
        }
        uint64_t depth = empty - full + ADDRESS;
        if (depth > deepest[i])
            deepest[i] = depth;
    }
}

static const struct station_runner first = {0, 0, 0}, second_tick = {0, 1, 0};

/* Strokes of the sheet in place at a tolerance: with room for the most ends, for just as many as there are, and for one less, which is
 * refused. */
static void measure_strokes(int64_t millimetres, uint64_t wanted)
{
    tolerance = millimetres;
    ends_length = STATION_MOST_STROKE_ENDS;
    measure_call(STROKES, 0, first, wanted);
    if (wanted != STATION_DONE)
        return;
    ends_length = (size_t)words[0];
    measure_call(STROKES, 0, first, STATION_DONE);
    ends_length--;
    measure_call(STROKES, 0, first, STATION_INK);
}

/* All calls but the joining and the strokes, which have one answer on the sheet and lists that are in place; of a fleet the last seat is
 * served. */
static void measure(uint64_t at, struct station_runner runner, uint64_t wanted)
{
    for (int i = 0; i < JOIN; i++)
        measure_call(i, at, runner, wanted);
    measure_call(ROUND, at, runner, wanted);
}

/* A closed course's runners with laps, on legs of 256, 1 and 2 ticks: back over the first waypoint, on to it, on to it with the most. */
static void measure_laps(void)
{
    static const struct station_runner runners[] = {{0, 0, 1}, {2, 1, 1}, {2, 1, UINT64_MAX}};
    for (size_t i = 0; i < sizeof runners / sizeof runners[0]; i++)
        measure(UINT64_MAX - i, runners[i], STATION_DONE);
}

/* Makes the lists of a course whose waypoints swing between each axis' own limits; answers P. */
static uint64_t make_lists(uint64_t kind, size_t n)
{
    static const int64_t least[] = {-1000000, -1000000, -50000}, most[] = {1000000, 1000000, 120000};
    uint64_t ticks = 0;
    lists.kind = kind;
    lists.legs_length = kind == STATION_CLOSED ? n : n - 1;
    lists.waypoints_length = 3 * n;
    lists.slopes_length = kind == STATION_HELD ? 6 : 0;
    for (size_t i = 0; i < lists.legs_length; i++) {
        legs[i] = i % 3 == 0 ? 256 : i % 3;
        ticks += legs[i];
    }
    for (size_t i = 0; i < lists.waypoints_length; i++)
        waypoints[i] = i % 2 ? most[i % 3] : least[i % 3];
    for (size_t i = 0; i < lists.slopes_length; i++)
        slopes[i] = i % 2 ? 5000 : -5000;
    return ticks;
}

static void put(uint64_t value, int bytes)
{
    while (bytes-- > 0)
        sheet[sheet_length++] = (uint8_t)(value >> 8 * bytes);
}

/* Puts their sheet of group S in place. */
static void make_sheet(void)
{
    sheet_length = 0;
    put(8 + 2 * lists.legs_length + 4 * (lists.waypoints_length + lists.slopes_length), 4);
    put(1, 1);
    put(lists.kind, 1);
    put(lists.waypoints_length / 3, 2);
    for (size_t i = 0; i < lists.legs_length; i++)
        put(legs[i], 2);
    for (size_t i = 0; i < lists.waypoints_length; i++)
        put((uint64_t)waypoints[i], 4);
    for (size_t i = 0; i < lists.slopes_length; i++)
        put((uint64_t)slopes[i], 4);
}

/* Joins a sheet with n waypoints and free ends to one with m and that kind of ends. The second starts where the first ends if n is odd. */
static void measure_join(size_t n, uint64_t kind, size_t m, uint64_t wanted)
{
    make_lists(kind, m);
    make_sheet();
    memcpy(second, sheet, sheet_length);
    second_length = sheet_length;
    make_lists(STATION_FREE, n);
    make_sheet();
    measure_call(JOIN, 0, first, wanted);
}

int main(void)
{
    for (uint64_t kind = STATION_FREE; kind <= STATION_CLOSED; kind++) {
        uint64_t ticks = make_lists(kind, MOST_POINTS);
        make_sheet();
        for (uint64_t at = 0; at <= ticks; at += ticks / 4)
            measure(at, second_tick, STATION_DONE);
        /* at 0 mm each leg of 256 ticks is cut as often as it can be; at 1000 mm many stretches are kept */
        measure_strokes(0, STATION_DONE);
        measure_strokes(1000, STATION_DONE);
        measure_strokes(1001, STATION_GRAIN);
        make_lists(kind, 3);
        make_sheet();
        measure(1, second_tick, STATION_DONE);
        /* on to the next leg or to the end, back to the leg before */
        measure(1, (struct station_runner){1, 0, 0}, STATION_DONE);
        if (kind == STATION_CLOSED)
            measure_laps();
        legs[0] = 0;
        make_sheet();
        measure(1, second_tick, STATION_LEG);
        measure_strokes(0, STATION_LEG);
#ifdef BOARD
        make_lists(kind, MOST_POINTS + 1);
        make_sheet();
        measure(1, second_tick, STATION_BOARD);
#endif
    }
    measure_join(257, STATION_FREE, 256, STATION_DONE);
    measure_join(3, STATION_FREE, 2, STATION_DONE);
    measure_join(3, STATION_HELD, 512, STATION_SHUT);
    measure_join(3, STATION_CLOSED, 512, STATION_SHUT);
    measure_join(512, STATION_FREE, 512, STATION_APART);
    measure_join(511, STATION_FREE, 512, STATION_CROWDED);
    for (int i = 0; i < CALLS; i++)
        printf("%s %llu\n", names[i], (unsigned long long)deepest[i]);
    return 0;
}
