/* Joins two course sheets with the station's library, for C and C++: `join FIRST SECOND > JOINED` for two files. The second course has to
 * start where the first ends, and both are free-ended (J2). Where the library is installed (tools/install PREFIX):
 *     cc join.c $(pkg-config --cflags --libs station) -o join
 * harness/newcomers compiles and runs it: courses/a/sheet and courses/onward/sheet give courses/joined/sheet. */
#include <inttypes.h>
#include <stdio.h>

#include <station.h>

/* A sheet from a file, with room for one byte more than the longest, so that a longer file is refused. */
struct file {
    uint8_t bytes[STATION_LONGEST_SHEET + 1];
    size_t length;
};
static struct file first, second;

/* An array of this length serves every joined course. */
static uint8_t joined[STATION_LONGEST_SHEET];

static int load(const char *name, struct file *sheet)
{
    FILE *stream = fopen(name, "rb");
    if (stream == NULL) {
        perror(name);
        return 0;
    }
    sheet->length = fread(sheet->bytes, 1, sizeof sheet->bytes, stream);
    int failed = ferror(stream);
    if (failed)
        perror(name);
    fclose(stream);
    return !failed;
}

int main(int argc, char **argv)
{
    if (argc != 3) {
        fprintf(stderr, "usage: join FIRST SECOND > JOINED\n");
        return 2;
    }
    if (!load(argv[1], &first) || !load(argv[2], &second))
        return 1;

    size_t length = 0;
    uint64_t answer = station_join_into(first.bytes, first.length, second.bytes, second.length, joined, sizeof joined, &length);
    if (answer != STATION_DONE) {
        fprintf(stderr, "join: refused %" PRIu64 " %s\n", answer, station_word(answer));
        return 1;
    }
    if (fwrite(joined, 1, length, stdout) != length || fflush(stdout) != 0) {
        perror("join: standard output");
        return 1;
    }
    return 0;
}
