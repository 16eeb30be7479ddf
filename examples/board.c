/* Flies a course as the autopilot board does, for C and C++: worked course A (T5), or the sheet in a file, `board FILE`, in memory for 48
 * waypoints and no more. Where the board's library is installed (tools/install PREFIX):
 *     cc board.c $(pkg-config --cflags --libs board) -o board
 * A sheet that the board reads is printed as the stand prints it (T2). harness/newcomers compiles and runs it and compares what it prints
 * with board.expected and with the worked courses. */
#include <inttypes.h>
#include <stdio.h>
#include <string.h>

#include <board.h>

/* Course A, as it comes from the station: bytes, version, kind of ends, waypoints; the legs; north, east and up of each waypoint. */
static const uint8_t course_a[] = {
    0, 0, 0, 48, 1, 0, 0, 3,               /* free ends, three waypoints */
    0, 2, 0, 2,                            /* two legs of 2 ticks */
    0, 0, 0, 0,  0, 0, 0, 10, 0, 0, 0, 20, /* the first waypoint */
    0, 0, 0, 8,  0, 0, 0, 10, 0, 0, 0, 22, /* the second */
    0, 0, 0, 0,  0, 0, 0, 10, 0, 0, 0, 24, /* the third */
};

/* The sheet, with room for one byte more than the longest, so that a longer file is refused (with 1: its end is missing); and its bend
 * numbers. */
static uint8_t sheet[BOARD_LONGEST_SHEET + 1];
static size_t sheet_length;
static int64_t list[BOARD_LONGEST_LIST];

static int load(const char *name)
{
    FILE *file = fopen(name, "rb");
    if (file == NULL) {
        perror(name);
        return 0;
    }
    sheet_length = fread(sheet, 1, sizeof sheet, file);
    fclose(file);
    return 1;
}

/* A runner from the first tick to the last, on a closed course to its first waypoint again; where it stands at each tick. */
static uint64_t fly(const struct station_course *course)
{
    struct station_runner runner = {0, 0, 0};
    uint64_t answer = board_runner_at_tick_into(sheet, sheet_length, 0, &runner);
    printf("tick north east up\n");
    for (uint64_t tick = 0; answer == STATION_DONE; tick++) {
        struct station_place place = {0, 0, 0};
        answer = board_place_of_runner_into(sheet, sheet_length, list, BOARD_LONGEST_LIST, runner, &place);
        if (answer == STATION_DONE)
            printf("%" PRIu64 " %" PRId64 " %" PRId64 " %" PRId64 "\n", tick, place.north, place.east, place.up);
        if (tick == course->ticks)
            break;
        if (answer == STATION_DONE)
            answer = board_step_runner(sheet, sheet_length, &runner);
    }
    return answer;
}

int main(int argc, char **argv)
{
    struct station_course course = {0, 0, 0};

    if (argc > 2) {
        fprintf(stderr, "usage: board [FILE]\n");
        return 2;
    }
    if (argc < 2) {
        sheet_length = sizeof course_a;
        memcpy(sheet, course_a, sizeof course_a);
    } else if (!load(argv[1])) {
        return 1;
    }

    uint64_t answer = board_read_into(sheet, sheet_length, &course);
    if (answer == STATION_DONE)
        answer = board_lay_out(sheet, sheet_length, list, BOARD_LONGEST_LIST);
    if (answer == STATION_DONE)
        answer = fly(&course);
    if (answer != STATION_DONE) {
        printf("refused %" PRIu64 " %s\n", answer, station_word(answer));
        return 1;
    }
    return 0;
}
