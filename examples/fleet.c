/* Flies three drones on one course with the station's library, for C and C++: worked course A (T5), written from its lists, or the sheet in
 * a file, `fleet FILE`. The drones start a third of the course apart. Where the library is installed (tools/install PREFIX):
 *     cc fleet.c $(pkg-config --cflags --libs station) -o fleet
 * harness/newcomers compiles and runs it and compares what it prints with fleet.expected. */
#include <inttypes.h>
#include <stdio.h>

#include <station.h>

enum { SEATS = 3 };

/* Course A: free ends, two legs of 2 ticks, north, east and up of three waypoints, no slopes (G1). */
static const uint64_t legs[] = {2, 2};
static const int64_t waypoints[] = {0, 10, 20, 8, 10, 22, 0, 10, 24};
static const struct station_lists course_a = {STATION_FREE, legs, 2, waypoints, 9, NULL, 0};

/* The sheet, with room for one byte more than the longest, so that a longer file is refused; and its bend numbers. */
static uint8_t sheet[STATION_LONGEST_SHEET + 1];
static size_t sheet_length;
static int64_t list[STATION_LONGEST_LIST];

/* A seat for each drone (Q1). */
static struct station_runner fleet[SEATS];

static int load(const char *name)
{
    FILE *file = fopen(name, "rb");
    if (file == NULL) {
        perror(name);
        return 0;
    }
    sheet_length = fread(sheet, 1, sizeof sheet, file);
    fclose(file);
    return 1;
}

/* Lays the sheet out, and puts the drones on it. */
static uint64_t start(struct station_course *course)
{
    uint64_t answer = station_read_into(sheet, sheet_length, course);
    if (answer == STATION_DONE)
        answer = station_lay_out(sheet, sheet_length, list, STATION_LONGEST_LIST);
    for (uint64_t seat = 0; seat < SEATS && answer == STATION_DONE; seat++)
        answer = station_runner_at_tick_into(sheet, sheet_length, seat * course->ticks / SEATS, &fleet[seat]);
    return answer;
}

/* As many rounds for each seat as the course has ticks: on an open course all have landed then, on a closed one each has flown a lap. A
 * seat that has landed passes the turn on (Q3). */
static uint64_t fly(const struct station_course *course)
{
    uint64_t turn = 0;
    for (uint64_t rounds = 0; rounds < SEATS * course->ticks; rounds++) {
        struct station_place place = {0, 0, 0};
        uint64_t seat = turn;
        uint64_t answer = station_round_fleet(sheet, sheet_length, list, STATION_LONGEST_LIST, fleet, SEATS, &turn, &place);
        if (answer == STATION_DONE)
            printf("seat %" PRIu64 ": %" PRId64 " %" PRId64 " %" PRId64 "\n", seat, place.north, place.east, place.up);
        else if (answer == STATION_LANDED)
            printf("seat %" PRIu64 ": refused %" PRIu64 " %s\n", seat, answer, station_word(answer));
        else
            return answer;
    }
    return STATION_DONE;
}

/* How often each drone has been round (M10). */
static void tell_laps(void)
{
    printf("laps flown:");
    for (uint64_t seat = 0; seat < SEATS; seat++)
        printf(" %" PRIu64, fleet[seat].laps);
    printf("\n");
}

int main(int argc, char **argv)
{
    struct station_course course = {0, 0, 0};

    if (argc > 2) {
        fprintf(stderr, "usage: fleet [FILE]\n");
        return 2;
    }
    uint64_t answer = STATION_DONE;
    if (argc < 2)
        answer = station_write_lists(&course_a, sheet, sizeof sheet, &sheet_length);
    else if (!load(argv[1]))
        return 1;

    if (answer == STATION_DONE)
        answer = start(&course);
    if (answer == STATION_DONE)
        answer = fly(&course);
    if (answer != STATION_DONE) {
        printf("the sheet: refused %" PRIu64 " %s\n", answer, station_word(answer));
        return 1;
    }
    tell_laps();
    return 0;
}
