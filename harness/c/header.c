/* What include/station.h and include/board.h say, for src/header.rs: each enumerator by its name, the words, the functions over structs,
 * and some figures by them. A new enumerator of a header belongs in the list; evidence fails while it is not there. */
#include "board.h"

struct entry {
    const char *name;
    uint64_t value;
};

#define ENTRY(name) {"STATION_" #name, STATION_##name}
#define BOARD_ENTRY(name) {"BOARD_" #name, BOARD_##name}

static const struct entry entries[] = {
    ENTRY(DONE), ENTRY(TORN), ENTRY(EDITION), ENTRY(ENDS), ENTRY(POINTS), ENTRY(SIZE), ENTRY(LEG),
    ENTRY(REACH), ENTRY(SLOPE), ENTRY(SHELF), ENTRY(PAST), ENTRY(ADRIFT), ENTRY(BEND), ENTRY(LANDED),
    ENTRY(PAGE), ENTRY(START), ENTRY(SHUT), ENTRY(APART), ENTRY(CROWDED), ENTRY(SEATS), ENTRY(TURN), ENTRY(GRAIN), ENTRY(INK),
    ENTRY(BOARD), ENTRY(FREE), ENTRY(HELD), ENTRY(CLOSED), ENTRY(LONGEST_SHEET), ENTRY(LONGEST_LIST), ENTRY(MOST_SEATS),
    ENTRY(MOST_STROKE_ENDS), ENTRY(MOST_TOLERANCE),
    BOARD_ENTRY(MOST_POINTS), BOARD_ENTRY(LONGEST_SHEET), BOARD_ENTRY(LONGEST_LIST),
};

/* The i-th enumerator, or 0 past the last. */
const struct entry *header_entry(size_t i)
{
    return i < sizeof entries / sizeof entries[0] ? &entries[i] : 0;
}

/* The header's word for a number. */
const char *header_word(uint64_t number)
{
    return station_word(number);
}

/* The calls by the headers' functions over structs, in the form of the calls themselves, so that evidence can compare them alike. The
 * structs hold before a call what out holds. Where out is too short for a struct, and for laying out, there is only the call itself. Those
 * that station and board both have are in forms.h, in which FORM is such a form and CALL the header's function. */

static void put_place(const struct station_place *place, int64_t *out)
{
    out[0] = place->north;
    out[1] = place->east;
    out[2] = place->up;
}

static void put_runner(const struct station_runner *runner, uint64_t *out)
{
    out[0] = runner->leg;
    out[1] = runner->offset;
    out[2] = runner->laps;
}

#define FORM(call) structs_##call
#define CALL(call) station_##call
#include "forms.h"
#undef FORM
#undef CALL

#define FORM(call) structs_board_##call
#define CALL(call) board_##call
#include "forms.h"

uint64_t structs_back(const uint8_t *sheet, size_t n, uint64_t *runner, size_t m)
{
    if (m < 3)
        return station_back(sheet, n, runner, m);
    struct station_runner record = {runner[0], runner[1], runner[2]};
    uint64_t answer = station_back_runner(sheet, n, &record);
    put_runner(&record, runner);
    return answer;
}

/* A list of no elements is null in the struct; gcc traps where the header hands that on to the call (build.rs). */
uint64_t structs_write(uint64_t kind, const uint64_t *legs, size_t l, const int64_t *waypoints, size_t w, const int64_t *slopes, size_t s,
                       uint8_t *sheet, size_t n, uint64_t *out, size_t m)
{
    if (m < 1)
        return station_write(kind, legs, l, waypoints, w, slopes, s, sheet, n, out, m);
    struct station_lists lists = {kind, l ? legs : 0, l, w ? waypoints : 0, w, s ? slopes : 0, s};
    size_t length = out[0];
    uint64_t answer = station_write_lists(&lists, sheet, n, &length);
    out[0] = length;
    return answer;
}

uint64_t structs_join(const uint8_t *first, size_t a, const uint8_t *second, size_t b, uint8_t *sheet, size_t n, uint64_t *out, size_t m)
{
    if (m < 1)
        return station_join(first, a, second, b, sheet, n, out, m);
    size_t length = out[0];
    uint64_t answer = station_join_into(first, a, second, b, sheet, n, &length);
    out[0] = length;
    return answer;
}

/* Whether the next turn goes with an answer to a round (Q3). */
static int passes_on(uint64_t answer)
{
    return answer == STATION_DONE || answer == STATION_ADRIFT || answer == STATION_LANDED || answer == STATION_BEND;
}

/* The fleet's numbers are the structs themselves. A turn that moved though it may not is put into next, where evidence sees it. */
uint64_t structs_round(const uint8_t *sheet, size_t n, const int64_t *list, size_t k, uint64_t *fleet, size_t f, uint64_t turn,
                       int64_t *out, size_t m, uint64_t *next, size_t t)
{
    if (m < 3 || t < 1)
        return station_round(sheet, n, list, k, fleet, f, turn, out, m, next, t);
    struct station_place place = {out[0], out[1], out[2]};
    uint64_t at = turn;
    uint64_t answer = station_round_fleet(sheet, n, list, k, (struct station_runner *)fleet, f / 3, &at, &place);
    put_place(&place, out);
    if (passes_on(answer) || at != turn)
        next[0] = at;
    return answer;
}

uint64_t structs_strokes(const uint8_t *sheet, size_t n, const int64_t *list, size_t k, int64_t tolerance, uint64_t *ends, size_t e,
                         uint64_t *out, size_t m)
{
    if (m < 1)
        return station_strokes(sheet, n, list, k, tolerance, ends, e, out, m);
    size_t count = out[0];
    uint64_t answer = station_strokes_into(sheet, n, list, k, tolerance, ends, e, &count);
    out[0] = count;
    return answer;
}

/* W17 as a C program meets it: the courses are written from their lists, then the runners at ticks around their first sixteen legs, and a
 * lap on. */
struct figure {
    uint64_t kind, tick, answer;
    struct station_runner runner;
};

static const struct figure figures[] = {
    {STATION_FREE, 135, STATION_DONE, {15, 15, 0}}, {STATION_FREE, 136, STATION_DONE, {16, 0, 0}},
    {STATION_FREE, 152, STATION_DONE, {16, 16, 0}}, {STATION_FREE, 153, STATION_DONE, {17, 0, 0}},
    {STATION_FREE, 171, STATION_DONE, {17, 18, 0}}, {STATION_FREE, 172, STATION_PAST, {77, 77, 77}},
    {STATION_CLOSED, 190, STATION_DONE, {0, 0, 1}}, {STATION_CLOSED, 326, STATION_DONE, {16, 0, 1}},
};

/* Whether the i-th figure is met: 1 or 0, and -1 past the last. */
int header_figure(size_t i)
{
    if (i >= sizeof figures / sizeof figures[0])
        return -1;
    const struct figure *figure = &figures[i];
    uint64_t legs[19];
    int64_t waypoints[57] = {0};
    for (uint64_t leg = 0; leg < 19; leg++)
        legs[leg] = leg + 1;
    struct station_lists lists = {figure->kind, legs, figure->kind == STATION_CLOSED ? 19 : 18, waypoints, 57, 0, 0};
    uint8_t sheet[STATION_LONGEST_SHEET];
    size_t length = 0;
    if (station_write_lists(&lists, sheet, sizeof sheet, &length) != STATION_DONE)
        return 0;
    struct station_runner runner = {77, 77, 77}, wanted = figure->runner;
    uint64_t answer = station_runner_at_tick_into(sheet, length, figure->tick, &runner);
    return answer == figure->answer && runner.leg == wanted.leg && runner.offset == wanted.offset && runner.laps == wanted.laps;
}
