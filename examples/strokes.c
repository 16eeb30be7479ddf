/* Prints the straight strokes by which a tablet draws a course, with the station's library, for C and C++: those of worked course A (T5), at
 * 1 millimetre and at 2 (W19), or of the sheet in a file, `strokes MILLIMETRES FILE`. Where the library is installed (tools/install PREFIX):
 *     cc strokes.c $(pkg-config --cflags --libs station) -o strokes
 * harness/newcomers compiles and runs it and compares what it prints with strokes.expected. */
#include <errno.h>
#include <inttypes.h>
#include <stdio.h>
#include <stdlib.h>

#include <station.h>

/* Course A: free ends, two legs of 2 ticks, north, east and up of three waypoints, no slopes (G1). */
static const uint64_t legs[] = {2, 2};
static const int64_t waypoints[] = {0, 10, 20, 8, 10, 22, 0, 10, 24};
static const struct station_lists course_a = {STATION_FREE, legs, 2, waypoints, 9, NULL, 0};

/* The sheet, with room for one byte more than the longest, so that a longer file is refused; its bend numbers; its strokes' ends, with room
 * for every course, so that none are refused for want of it and none are counted first (H5). */
static uint8_t sheet[STATION_LONGEST_SHEET + 1];
static size_t sheet_length;
static int64_t list[STATION_LONGEST_LIST];
static uint64_t ends[STATION_MOST_STROKE_ENDS];

static int load(const char *name)
{
    FILE *file = fopen(name, "rb");
    if (file == NULL) {
        perror(name);
        return 0;
    }
    sheet_length = fread(sheet, 1, sizeof sheet, file);
    fclose(file);
    return 1;
}

/* A tolerance in millimetres; the station refuses what is out of its range (N21), text that is no number is refused here. */
static int tolerance_read(const char *text, int64_t *tolerance)
{
    char *rest;
    errno = 0;
    *tolerance = strtoll(text, &rest, 10);
    return rest != text && *rest == '\0' && errno == 0;
}

/* Draws the sheet, which was laid out, and prints the tick and the place of each end: a stroke leads from each of them to the next. */
static uint64_t draw(int64_t tolerance)
{
    size_t count = 0;
    uint64_t answer =
        station_strokes_into(sheet, sheet_length, list, STATION_LONGEST_LIST, tolerance, ends, STATION_MOST_STROKE_ENDS, &count);
    if (answer != STATION_DONE)
        return answer;
    printf("strokes at %" PRId64 " mm: %" PRIu64 "\n", tolerance, (uint64_t)count - 1);
    for (size_t i = 0; i < count; i++) {
        struct station_place place = {0, 0, 0};
        answer = station_place_at_tick_into(sheet, sheet_length, list, STATION_LONGEST_LIST, ends[i], &place);
        if (answer != STATION_DONE)
            return answer;
        printf("%" PRIu64 " %" PRId64 " %" PRId64 " %" PRId64 "\n", ends[i], place.north, place.east, place.up);
    }
    return STATION_DONE;
}

int main(int argc, char **argv)
{
    uint64_t answer = STATION_DONE;
    int64_t tolerance = 1;

    if ((argc != 1 && argc != 3) || (argc == 3 && !tolerance_read(argv[1], &tolerance))) {
        fprintf(stderr, "usage: strokes [MILLIMETRES FILE]\n");
        return 2;
    }
    if (argc == 1)
        answer = station_write_lists(&course_a, sheet, sizeof sheet, &sheet_length);
    else if (!load(argv[2]))
        return 1;

    if (answer == STATION_DONE)
        answer = station_lay_out(sheet, sheet_length, list, STATION_LONGEST_LIST);
    if (answer == STATION_DONE)
        answer = draw(tolerance);
    if (answer == STATION_DONE && argc == 1)
        answer = draw(2);
    if (answer != STATION_DONE) {
        printf("strokes: refused %" PRIu64 " %s\n", answer, station_word(answer));
        return 1;
    }
    return 0;
}
