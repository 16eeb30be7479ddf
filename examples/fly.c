/* Flies a course with the station's library, for C and C++: worked course A (T5), written from its lists, or the sheet in a file,
 * `fly FILE`. Where the library is installed (tools/install PREFIX):
 *     cc fly.c $(pkg-config --cflags --libs station) -o fly
 * harness/newcomers compiles and runs it and compares what it prints with fly.expected; rust/station/examples/fly.rs prints the same. */
#include <inttypes.h>
#include <stdio.h>

#include <station.h>

/* Course A: free ends, two legs of 2 ticks, north, east and up of three waypoints, no slopes (G1). */
static const uint64_t legs[] = {2, 2};
static const int64_t waypoints[] = {
    0, 10, 20, /* the first waypoint */
    8, 10, 22, /* the second */
    0, 10, 24, /* the third */
};
static const struct station_lists course_a = {STATION_FREE, legs, 2, waypoints, 9, NULL, 0};

/* The sheet, with room for one byte more than the longest, so that a longer file is refused; and its bend numbers. */
static uint8_t sheet[STATION_LONGEST_SHEET + 1];
static size_t sheet_length;
static int64_t list[STATION_LONGEST_LIST];

/* What a call answered, as the stand prints a refusal (T4). */
static void tell(const char *what, uint64_t answer)
{
    if (answer == STATION_DONE)
        printf("%s: %s\n", what, station_word(answer));
    else
        printf("%s: refused %" PRIu64 " %s\n", what, answer, station_word(answer));
}

static int load(const char *name)
{
    FILE *file = fopen(name, "rb");
    if (file == NULL) {
        perror(name);
        return 0;
    }
    sheet_length = fread(sheet, 1, sizeof sheet, file);
    fclose(file);
    return 1;
}

/* One line for each tick (T2). */
static uint64_t fly_by_tick(const struct station_course *course)
{
    printf("tick north east up\n");
    for (uint64_t tick = 0; tick <= course->ticks; tick++) {
        struct station_place place = {0, 0, 0};
        uint64_t answer = station_place_at_tick_into(sheet, sheet_length, list, STATION_LONGEST_LIST, tick, &place);
        if (answer != STATION_DONE)
            return answer;
        printf("%" PRIu64 " %" PRId64 " %" PRId64 " %" PRId64 "\n", tick, place.north, place.east, place.up);
    }
    return STATION_DONE;
}

/* The same places by a runner that is moved on from the first waypoint; counts the ticks at which both agree. On a closed course that is a
 * lap (M10). */
static uint64_t fly_by_runner(const struct station_course *course, struct station_runner *runner)
{
    uint64_t same = 0;
    for (uint64_t tick = 0; tick <= course->ticks; tick++) {
        struct station_place by_tick = {0, 0, 0}, by_runner = {0, 0, 0};
        uint64_t answer = tick == 0 ? station_runner_at_tick_into(sheet, sheet_length, 0, runner)
                                    : station_step_runner(sheet, sheet_length, runner);
        if (answer == STATION_DONE)
            answer = station_place_of_runner_into(sheet, sheet_length, list, STATION_LONGEST_LIST, *runner, &by_runner);
        if (answer == STATION_DONE)
            answer = station_place_at_tick_into(sheet, sheet_length, list, STATION_LONGEST_LIST, tick, &by_tick);
        if (answer != STATION_DONE)
            return answer;
        if (by_tick.north == by_runner.north && by_tick.east == by_runner.east && by_tick.up == by_runner.up)
            same += 1;
    }
    printf("by runner: %" PRIu64 " of %" PRIu64 " places the same\n", same, course->ticks + 1);
    printf("laps flown: %" PRIu64 "\n", runner->laps);
    return STATION_DONE;
}

/* Where a runner stands. */
static uint64_t tell_place(const char *what, struct station_runner runner)
{
    struct station_place place = {0, 0, 0};
    uint64_t answer = station_place_of_runner_into(sheet, sheet_length, list, STATION_LONGEST_LIST, runner, &place);
    if (answer == STATION_DONE)
        printf("%s: %" PRId64 " %" PRId64 " %" PRId64 "\n", what, place.north, place.east, place.up);
    return answer;
}

/* A gust took the drone off its way: it goes back by a tick and comes again, to where it was (M8). */
static uint64_t come_again(struct station_runner *runner)
{
    uint64_t answer = station_back_runner(sheet, sheet_length, runner);
    if (answer == STATION_DONE)
        answer = tell_place("after a gust, back by a tick", *runner);
    if (answer == STATION_DONE)
        answer = station_step_runner(sheet, sheet_length, runner);
    if (answer == STATION_DONE)
        answer = tell_place("and on again", *runner);
    return answer;
}

/* Calls that are refused: a step or a tick past an open course's end; a tick back from the start of any course, with no lap flown; and a
 * sheet that nobody accepts. */
static void show_refusals(const struct station_course *course, struct station_runner *runner)
{
    struct station_place place;
    struct station_course other;
    struct station_runner first = {0, 0, 0};
    tell("one step more", station_step_runner(sheet, sheet_length, runner));
    tell("one tick more", station_place_at_tick_into(sheet, sheet_length, list, STATION_LONGEST_LIST, course->ticks + 1, &place));
    tell("back from the start", station_back_runner(sheet, sheet_length, &first));
    sheet[8] = 0;
    sheet[9] = 0;
    tell("with a first leg of 0 ticks", station_read_into(sheet, sheet_length, &other));
}

int main(int argc, char **argv)
{
    static const char *const kinds[] = {"free", "held", "closed"};
    struct station_course course = {0, 0, 0};
    struct station_runner runner = {0, 0, 0};

    if (argc > 2) {
        fprintf(stderr, "usage: fly [FILE]\n");
        return 2;
    }
    uint64_t answer = STATION_DONE;
    if (argc < 2)
        answer = station_write_lists(&course_a, sheet, sizeof sheet, &sheet_length);
    else if (!load(argv[1]))
        return 1;

    if (answer == STATION_DONE)
        answer = station_read_into(sheet, sheet_length, &course);
    if (answer == STATION_DONE) {
        printf("%s: %" PRIu64 " waypoints, %" PRIu64 " ticks\n", kinds[course.kind], course.waypoints, course.ticks);
        answer = station_lay_out(sheet, sheet_length, list, STATION_LONGEST_LIST);
    }
    if (answer == STATION_DONE)
        answer = fly_by_tick(&course);
    if (answer == STATION_DONE)
        answer = fly_by_runner(&course, &runner);
    if (answer == STATION_DONE)
        answer = come_again(&runner);
    if (answer != STATION_DONE) {
        tell("the sheet", answer);
        return 1;
    }
    show_refusals(&course, &runner);
    return 0;
}
