/*
 * Reports on a season of any length: the files named on the command line, orders and timetables in turn, one after
 * another and so many times over.
 *
 *     cc -I include examples/season.c target/staticlib/libcontroller.a -o season
 *     ./season 1500 examples/casebook.order examples/casebook.timetable \
 *                   examples/ring_of_ten.order examples/casebook.timetable
 *
 * The season program reads 65,536 bytes and no more, as each program does; this season has 102,000. The library has no
 * such limit: the whole season is handed to it at once. Here that is memory from malloc; a mapped file would do.
 *
 * Exit status: 0 reported, 1 refused, 2 not run at all.
 */
#include <errno.h>
#include <inttypes.h>
#include <stdio.h>
#include <stdlib.h>
#include <string.h>

#include "wichteab.h"

/* A season as it grows: its bytes, their count, and how many there is room for. */
struct season {
    uint8_t *bytes;
    size_t length;
    size_t room;
};

/* Sees that there is room for so many bytes more. */
static int make_room(struct season *season, size_t more)
{
    size_t room = season->room == 0 ? 65536 : season->room;
    uint8_t *bytes;
    while (room - season->length < more) {
        if (room > SIZE_MAX / 2) {
            return 0;
        }
        room *= 2;
    }
    bytes = room == season->room ? season->bytes : realloc(season->bytes, room);
    if (bytes == NULL) {
        return 0;
    }
    season->bytes = bytes;
    season->room = room;
    return 1;
}

/* Appends the whole file: a part of it would be another season, and nothing would tell. */
static int append_file(struct season *season, const char *name)
{
    FILE *file = fopen(name, "rb");
    size_t got = 1;
    int whole = file != NULL;
    while (whole && got > 0) {
        whole = make_room(season, 4096);
        got = whole ? fread(season->bytes + season->length, 1, 4096, file) : 0;
        season->length += got;
    }
    if (!whole || ferror(file)) {
        fprintf(stderr, "season: cannot read %s: %s\n", name, strerror(errno));
        whole = 0;
    }
    if (file != NULL) {
        fclose(file);
    }
    return whole;
}

/* The season so many times over. */
static int repeat(struct season *season, unsigned long times)
{
    size_t once = season->length;
    if (times == 0) {
        season->length = 0;
    }
    for (; times > 1; times--) {
        if (!make_room(season, once)) {
            fprintf(stderr, "season: out of memory\n");
            return 0;
        }
        memcpy(season->bytes + season->length, season->bytes, once);
        season->length += once;
    }
    return 1;
}

/* Prints the five lines, or why there is no report. */
static int print_report(const struct season *season)
{
    uint64_t report[WICHTEAB_REPORT_NUMBERS];
    uint64_t answer = wichteab_season_report(season->bytes, season->length, report);
    uint32_t number = wichteab_number(answer);
    if (number != WICHTEAB_ACCEPTED) {
        printf("refused %u %u %s: %s\n", (unsigned)number, (unsigned)wichteab_place(answer), wichteab_family(number),
               wichteab_reason(number));
        return 1;
    }
    printf("accepted %" PRIu64 "\n", wichteab_report_accepted(report));
    printf("refused %" PRIu64 "\n", wichteab_report_refused(report));
    printf("steps %" PRIu64 "\n", wichteab_report_steps(report));
    printf("moves %" PRIu64 "\n", wichteab_report_moves(report));
    if (wichteab_report_parallelism(report) == WICHTEAB_PARALLELISM_NONE) {
        printf("parallelism none\n");
    } else {
        printf("parallelism %" PRIu64 "\n", wichteab_report_parallelism(report));
    }
    return 0;
}

int main(int argc, char **argv)
{
    struct season season = {NULL, 0, 0};
    int status = 2;
    int i;
    int whole = argc >= 2;
    if (!whole) {
        fprintf(stderr, "usage: season TIMES FILE..\n");
    }
    /* there is an address to lend, even of no bytes */
    whole = whole && make_room(&season, 1);
    for (i = 2; whole && i < argc; i++) {
        whole = append_file(&season, argv[i]);
    }
    if (whole && repeat(&season, strtoul(argv[1], NULL, 10))) {
        status = print_report(&season);
    }
    free(season.bytes);
    return status;
}
