/* The autopilot board's functions for C99 and later, and C++11 and later, over the station's sheets, lists and records (station.h): the
 * proved library libboard.a, which has these six and nothing else (B1). `tools/archive board` makes it, `tools/install PREFIX` installs it
 * with both headers; examples/board.c flies a course with it. libstation.a has the same code, so that the station can ask what the board
 * will say of a sheet. N23, A16 and the like are clauses of docs/REQUIREMENTS.md.
 *
 * The board has memory for 48 waypoints. Each function is the station's of the same name with one test more, 23 where N is over 48 and not
 * over 512, right after 4 and before 5 (A16, B2). For a sheet with N up to 48, whatever its other bytes, answers, lists and runners are
 * the same on both (B3). All that station.h says of answers, of slices and of what the caller owes holds here.
 *
 * libboard.a, as `tools/measure` prints it (`tools/measure --write` renews these lines):
 * [measured]
 *   format:           elf64-x86-64, for Linux (System V calls)
 *   outside symbols:  memset
 *   code:             6614 bytes with constants, data 0, zeroed data 0
 *   deepest stack:    452 bytes (read 304, lay_out 448, place_at_tick 452, place_of_runner 452, runner_at_tick 320, step 304)
 * [/measured]
 */
#ifndef BOARD_H
#define BOARD_H

#include "station.h"

#ifdef __cplusplus
extern "C" {
#endif

/* The most waypoints of a sheet that the board reads (N23), how long such a sheet can be, in bytes, and how long a list it can ask for, in
 * numbers (B5): sizes for arrays. Where an array holds only the front of a longer sheet, the answer is 1, since the end is missing. */
enum { BOARD_MOST_POINTS = 48, BOARD_LONGEST_SHEET = 702, BOARD_LONGEST_LIST = 144 };

/* Reads a sheet. Tests 1-4, 23, 5-8, in this order (A2, A16). Results: kind of ends, N, P. */
STATION_CHECKED uint64_t board_read(const uint8_t *sheet, size_t sheet_length, uint64_t *out, size_t out_length);

/* Lays out the sheet's bend numbers in a list, as station_lay_out does (L5). Tests those of board_read, then 9 (A3, A16). */
STATION_CHECKED uint64_t board_lay_out(const uint8_t *sheet, size_t sheet_length, int64_t *list, size_t list_length);

/* The place at a tick, by a list that was laid out for this sheet, here or at the station (B3). Tests those of board_read, then 9, 10, 12
 * (A4, A16). Results: north, east, up. */
STATION_CHECKED uint64_t board_place_at_tick(const uint8_t *sheet, size_t sheet_length, const int64_t *list, size_t list_length,
                                             uint64_t tick, int64_t *out, size_t out_length);

/* The place of a runner. Tests those of board_read, then 9, 11, 12 (A5, A16). Results: north, east, up. */
STATION_CHECKED uint64_t board_place_of_runner(const uint8_t *sheet, size_t sheet_length, const int64_t *list, size_t list_length,
                                               uint64_t leg, uint64_t offset, uint64_t laps, int64_t *out, size_t out_length);

/* The runner that stands at a tick. Tests those of board_read, then 10 (A6, A16). Results: leg, offset, laps. */
STATION_CHECKED uint64_t board_runner_at_tick(const uint8_t *sheet, size_t sheet_length, uint64_t tick, uint64_t *out, size_t out_length);

/* Moves a runner (leg, offset, laps) on by a tick where it lies. Tests those of board_read, then 11, 13 (A7, A16). Fewer than three numbers
 * are no runner: 11. */
STATION_CHECKED uint64_t board_step(const uint8_t *sheet, size_t sheet_length, uint64_t *runner, size_t runner_length);

/* The same calls with structs for what they answer. */

/* board_read, into a struct. */
STATION_CHECKED static inline uint64_t board_read_into(const uint8_t *sheet, size_t sheet_length, struct station_course *course)
{
    uint64_t out[3] = {0, 0, 0};
    uint64_t answer = board_read(sheet, sheet_length, out, 3);
    return station_told_course(answer, out, course);
}

/* board_place_at_tick, into a struct. */
STATION_CHECKED static inline uint64_t board_place_at_tick_into(const uint8_t *sheet, size_t sheet_length, const int64_t *list,
                                                                size_t list_length, uint64_t tick, struct station_place *place)
{
    int64_t out[3] = {0, 0, 0};
    uint64_t answer = board_place_at_tick(sheet, sheet_length, list, list_length, tick, out, 3);
    return station_told_place(answer, out, place);
}

/* board_place_of_runner, from a struct and into one. */
STATION_CHECKED static inline uint64_t board_place_of_runner_into(const uint8_t *sheet, size_t sheet_length, const int64_t *list,
                                                                  size_t list_length, struct station_runner runner,
                                                                  struct station_place *place)
{
    int64_t out[3] = {0, 0, 0};
    uint64_t answer = board_place_of_runner(sheet, sheet_length, list, list_length, runner.leg, runner.offset, runner.laps, out, 3);
    return station_told_place(answer, out, place);
}

/* board_runner_at_tick, into a struct. */
STATION_CHECKED static inline uint64_t board_runner_at_tick_into(const uint8_t *sheet, size_t sheet_length, uint64_t tick,
                                                                 struct station_runner *runner)
{
    uint64_t out[3] = {0, 0, 0};
    uint64_t answer = board_runner_at_tick(sheet, sheet_length, tick, out, 3);
    return station_told_runner(answer, out, runner);
}

/* board_step, on a struct. */
STATION_CHECKED static inline uint64_t board_step_runner(const uint8_t *sheet, size_t sheet_length, struct station_runner *runner)
{
    uint64_t record[3] = {runner->leg, runner->offset, runner->laps};
    uint64_t answer = board_step(sheet, sheet_length, record, 3);
    return station_told_runner(answer, record, runner);
}

#ifdef __cplusplus
}
#endif

#endif
