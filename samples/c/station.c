/* A first program over egretfold.h: an address there and back, a stream fed to a session, and station 14's month replayed and
 * scored. It is built by `make` with what pkg-config says of an installed Egretfold, and run with the log as its argument:
 *
 *     make && ./station ../station-14.log
 */
#include <egretfold.h>

#include <inttypes.h>
#include <stdbool.h>
#include <stdio.h>
#include <stdlib.h>

/* A refusal that this program doesn't expect. */
static void accepted(const char *what, uint32_t refusal)
{
    if (refusal != 0) {
        fprintf(stderr, "%s: refused %" PRIu32 "\n", what, refusal);
        exit(1);
    }
}

/* Window C3 of document 01: 4 bytes an element, tiled. */
static void there_and_back(void)
{
    const uint32_t base = 0, pitch = 100, height = 20, size = 4;
    const bool tiled = true;
    uint32_t at[2], pair[3];

    accepted("translate", egretfold_translate(base, pitch, height, size, tiled, 37, 18, at));
    printf("(37, 18) is at %" PRIu32 ", and %" PRIu32 " elements follow each other from there\n", at[0], at[1]);
    accepted("locate", egretfold_locate(base, pitch, height, size, tiled, at[0] + 2, pair));
    printf("byte %" PRIu32 " is place %" PRIu32 " of (%" PRIu32 ", %" PRIu32 ")\n", at[0] + 2, pair[2], pair[0], pair[1]);
    if (egretfold_translate(base, pitch, height, size, tiled, 96, 0, at) == EGRETFOLD_REFUSAL_PAIR_OUTSIDE)
        printf("(96, 0) is outside its window\n");
}

/* Document 01's whole stream, then a start without a header of its own. */
static void a_stream(void)
{
    static const uint32_t words[] = {
        EGRETFOLD_HEADER_SET_INST_FMT,  0x1000, 0x04000010,
        EGRETFOLD_HEADER_SET_OUT_FMT,   0,      0x800,      0x02010064, 18,
        EGRETFOLD_HEADER_SET_DOMAIN,    0,      0,          95,         17,
        EGRETFOLD_HEADER_START_PROGRAM, 0,
        7,
    };
    uint32_t own[EGRETFOLD_OWN], shared[EGRETFOLD_SHARED];
    uint64_t tallies[EGRETFOLD_TALLIES], fed[2], counts[2];

    accepted("begin", egretfold_session_begin(own, tallies, shared, 1));
    uint32_t refusal = egretfold_session_feed(own, tallies, shared, words, sizeof words / sizeof words[0], fed);
    accepted("tallies", egretfold_session_tallies(tallies, counts));
    printf("%" PRIu64 " words, %" PRIu64 " commands, %" PRIu64 " run, %" PRIu64 " elements claimed\n", fed[0], fed[1], counts[0], counts[1]);
    if (refusal == EGRETFOLD_REFUSAL_UNKNOWN_HEADER)
        printf("word %" PRIu64 " is no header\n", fed[0]);
}

/* A log in pieces, as they come, and its month. The month's verdict is the exit status that `egretfold score` has. */
static int a_month(const char *name)
{
    static uint32_t log[EGRETFOLD_LOG], own[EGRETFOLD_OWN], shared[EGRETFOLD_SHARED];
    static uint64_t marks[EGRETFOLD_MARKS], tallies[EGRETFOLD_TALLIES];
    uint64_t claimed[EGRETFOLD_DAYS], served[EGRETFOLD_DAYS], month[3], taken[1];
    static const char *const called[] = {"full", "short", "nothing owed"};
    uint8_t piece[4096];
    size_t length;
    FILE *file = fopen(name, "rb");

    if (file == NULL) {
        perror(name);
        return 2;
    }
    accepted("begin", egretfold_log_begin(log, marks, own, tallies, shared, 1));
    while ((length = fread(piece, 1, sizeof piece, file)) > 0)
        accepted("log", egretfold_log_feed(log, marks, own, tallies, shared, piece, length, taken));
    fclose(file);
    accepted("month", egretfold_score_month(log, marks, tallies, 101, 30, 14000000, claimed, served, month));
    for (int day = 0; day < 30; day++)
        if (served[day] < 14000000)
            printf("day %d: %" PRIu64 " served of %" PRIu64 " claimed\n", 101 + day, served[day], claimed[day]);
    printf("%s: %" PRIu64 " of %" PRIu64 " elements\n", called[month[2]], month[0], month[1]);
    return month[2] == EGRETFOLD_VERDICT_SHORT ? 3 : 0;
}

int main(int count, char **arguments)
{
    if (count != 2) {
        fprintf(stderr, "usage: %s LOG\n", arguments[0]);
        return 2;
    }
    there_and_back();
    a_stream();
    return a_month(arguments[1]);
}
