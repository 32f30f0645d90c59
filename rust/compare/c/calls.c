/* Every function of egretfold.h called from C99: once with an answer that document 01 fixes, and once refused, where the
 * function can refuse. Prints the calls that differ, then how many answers agreed; ends with 1 on any difference. */
#include <egretfold.h>

#include <inttypes.h>
#include <stdio.h>
#include <string.h>

static unsigned agreed, differed;

/* Compares one number of a call's answer with the expected one. */
static void agree(const char *call, uint64_t answer, uint64_t expected)
{
    if (answer == expected) {
        agreed++;
        return;
    }
    differed++;
    printf("%s: %" PRIu64 ", expected %" PRIu64 "\n", call, answer, expected);
}

/* The same for the words of a room. */
static void agree_words(const char *call, const uint32_t *room, const uint32_t *expected, size_t length)
{
    for (size_t i = 0; i < length; i++)
        agree(call, room[i], expected[i]);
}

/* The same for the bytes of a room, as one answer. */
static void agree_bytes(const char *call, const uint8_t *room, const uint8_t *expected, size_t length)
{
    agree(call, memcmp(room, expected, length) == 0, 1);
}

struct session {
    uint32_t own[EGRETFOLD_OWN];
    uint64_t tallies[EGRETFOLD_TALLIES];
    uint32_t shared[EGRETFOLD_SHARED];
};

/* Document 01's whole stream, with the headers that the guide's table shows for set_domain and start_program. */
static const uint32_t stream[15] = {
    0xC0010A00, 0x1000, 0x4000010,           /* instructions */
    0xC0030C00, 0,      0x800,     0x2010064, 0x12, /* output 0 */
    0xC0030700, 0,      0,         0x5F,      0x11, /* domain */
    0xC0000800, 0,                           /* start */
};

static void begin(struct session *s)
{
    agree("session_begin", egretfold_session_begin(s->own, s->tallies, s->shared, 1), 0);
}

static uint32_t feed(struct session *s, const uint32_t *words, size_t length, uint64_t fed[2])
{
    return egretfold_session_feed(s->own, s->tallies, s->shared, words, length, fed);
}

static void check_status(const char *call, const struct session *s, uint32_t taken, uint32_t stopped, uint32_t header,
                         uint32_t parameters, uint32_t readiness)
{
    uint32_t status[6] = {99, 99, 99, 99, 99, 99};
    const uint32_t expected[6] = {taken, stopped, header, parameters, readiness, 1};
    agree(call, egretfold_session_status(s->own, status), 0);
    agree_words(call, status, expected, 6);
}

/* The whole stream in two pieces, cut behind the output's number. */
static void check_feed(struct session *s)
{
    uint64_t fed[2] = {9, 9};
    begin(s);
    agree("session_feed, first piece", feed(s, stream, 5, fed), 0);
    agree("session_feed, words of the first piece", fed[0], 5);
    agree("session_feed, commands of the first piece", fed[1], 1);
    check_status("session_status inside a command", s, 5, 0, 0xC0030C00, 1, 7);
    agree("session_feed, second piece", feed(s, stream + 5, 10, fed), 0);
    agree("session_feed, words of the second piece", fed[0], 10);
    agree("session_feed, commands of the second piece", fed[1], 3);
    check_status("session_status at the end", s, 15, 0, 0, 0, 0);
}

/* What the whole stream leaves: four commands, one run, 1,728 elements. */
static void check_settings(const struct session *s)
{
    uint64_t counts[2] = {9, 9};
    uint32_t domain[5] = {9, 9, 9, 9, 9};
    uint32_t masks[5] = {9, 9, 9, 9, 9};
    const uint32_t domain_set[5] = {1, 0, 0, 0x5F, 0x11};
    const uint32_t masks_new[5] = {65535, 0, 0, 0, 0};
    agree("session_tallies", egretfold_session_tallies(s->tallies, counts), 0);
    agree("session_tallies, runs", counts[0], 1);
    agree("session_tallies, elements", counts[1], 1728);
    agree("session_domain", egretfold_session_domain(s->own, domain), 0);
    agree_words("session_domain", domain, domain_set, 5);
    agree("session_masks", egretfold_session_masks(s->shared, masks), 0);
    agree_words("session_masks", masks, masks_new, 5);
}

static void check_formats(const struct session *s)
{
    const uint32_t filled[4] = {9, 9, 9, 9};
    const uint32_t instructions[4] = {1, 0x1000, 0x4000010, 1};
    const uint32_t output[4] = {1, 0x800, 0x2010064, 0x12};
    const uint32_t none[4] = {0, 0, 0, 0};
    uint32_t format[4];
    memcpy(format, filled, sizeof format);
    agree("session_format of wait_for_idle", egretfold_session_format(s->own, s->shared, 0xC0000900, 0, format), 2);
    agree("session_format of output 4", egretfold_session_format(s->own, s->shared, 0xC0030C00, 4, format), 4);
    agree_words("session_format, room after a refusal", format, filled, 4);
    agree("session_format, instructions", egretfold_session_format(s->own, s->shared, 0xC0010A00, 77, format), 0);
    agree_words("session_format, instructions", format, instructions, 4);
    agree("session_format, output 0", egretfold_session_format(s->own, s->shared, 0xC0030C00, 0, format), 0);
    agree_words("session_format, output 0", format, output, 4);
    agree("session_format, input 15", egretfold_session_format(s->own, s->shared, 0xC0030B00, 15, format), 0);
    agree_words("session_format, input 15", format, none, 4);
}

/* Word by word: a start completes a command; a word in no line of the table stops the session. */
static void check_words(struct session *s)
{
    const uint32_t open[6] = {0, 0, 0, 0, 0, 0};
    const uint32_t start[6] = {1, 0xC0000800, 0, 0, 0, 0};
    const uint32_t filled[6] = {9, 9, 9, 9, 9, 9};
    uint32_t command[6];
    uint64_t fed[2] = {9, 9};
    memcpy(command, filled, sizeof command);
    agree("session_word, header", egretfold_session_word(s->own, s->tallies, s->shared, 0xC0000800, command), 0);
    agree_words("session_word, header", command, open, 6);
    agree("session_word, last word", egretfold_session_word(s->own, s->tallies, s->shared, 0, command), 0);
    agree_words("session_word, last word", command, start, 6);
    memcpy(command, filled, sizeof command);
    agree("session_word, unknown", egretfold_session_word(s->own, s->tallies, s->shared, 0xC0038000, command), 2);
    agree_words("session_word, room after a refusal", command, filled, 6);
    agree("session_word, stopped", egretfold_session_word(s->own, s->tallies, s->shared, 0xC0000900, command), 1);
    agree("session_feed, stopped", feed(s, stream, 15, fed), 1);
    agree("session_feed, words of a stopped session", fed[0], 0);
    agree("session_feed, commands of a stopped session", fed[1], 0);
    check_status("session_status, stopped", s, 17, 1, 0, 0, 0);
}

/* A piece with a refused word: those before it stand. */
static void check_refused_piece(void)
{
    const uint32_t words[6] = {0xC0000900, 0, 0xC0001900, 0x10000, 0xC0000900, 0};
    uint64_t fed[2] = {9, 9};
    struct session s;
    begin(&s);
    agree("session_feed, mask too wide", feed(&s, words, 6, fed), 3);
    agree("session_feed, words before the refused one", fed[0], 3);
    agree("session_feed, commands before the refused one", fed[1], 1);
}

/* The output of the whole stream has channel 0 alone: with all other channels' bits a start is a run of no elements. */
static void check_silent(void)
{
    const uint32_t words[4] = {0xC0001900, 0xFFFE, 0xC0000800, 0};
    uint64_t fed[2] = {9, 9};
    uint64_t counts[2] = {9, 9};
    struct session s;
    begin(&s);
    agree("session_feed, the whole stream", feed(&s, stream, 15, fed), 0);
    agree("session_feed, a silent output", feed(&s, words, 4, fed), 0);
    agree("session_tallies, silent", egretfold_session_tallies(s.tallies, counts), 0);
    agree("session_tallies, runs of a silent output", counts[0], 2);
    agree("session_tallies, elements of a silent output", counts[1], 1728);
}

/* Edition 2 credits the two channels of FLOAT32_2 under a full mask, and one of them with channel 0 masked off; edition 1 one for
 * each. */
static void check_editions(void)
{
    const uint32_t words[11] = {0xC0030C00, 1, 0x4000, 0x3000060, 0x12, 0xC0000800, 0, 0xC0001900, 0xFFEF, 0xC0000800, 0};
    const uint64_t elements[3] = {0, 1728 + 2 * 1728 + 2 * 1728, 1728 + 3 * 1728 + 2 * 1728};
    struct session s, before;
    for (uint32_t edition = 1; edition < 3; edition++) {
        uint64_t fed[2] = {9, 9}, counts[2] = {9, 9};
        uint32_t status[6] = {9, 9, 9, 9, 9, 9};
        agree("session_begin under an edition", egretfold_session_begin(s.own, s.tallies, s.shared, edition), 0);
        agree("session_feed under an edition", feed(&s, stream, 15, fed), 0);
        agree("session_feed, two outputs under an edition", feed(&s, words, 11, fed), 0);
        agree("session_tallies under an edition", egretfold_session_tallies(s.tallies, counts), 0);
        agree("session_tallies, runs under an edition", counts[0], 3);
        agree("session_tallies, elements under an edition", counts[1], elements[edition]);
        agree("session_status under an edition", egretfold_session_status(s.own, status), 0);
        agree("session_status, the edition", status[5], edition);
    }
    memcpy(&before, &s, sizeof s);
    agree("session_begin, edition 0", egretfold_session_begin(s.own, s.tallies, s.shared, 0), 3);
    agree("session_begin, edition 3", egretfold_session_begin(s.own, s.tallies, s.shared, 3), 3);
    agree("session_begin, own numbers after a refusal", memcmp(s.own, before.own, sizeof s.own) == 0, 1);
    agree("session_begin, tallies after a refusal", memcmp(s.tallies, before.tallies, sizeof s.tallies) == 0, 1);
    agree("session_begin, settings after a refusal", memcmp(s.shared, before.shared, sizeof s.shared) == 0, 1);
}

struct pair {
    struct session zero;
    uint32_t own1[EGRETFOLD_OWN];
    uint64_t tallies1[EGRETFOLD_TALLIES];
};

static uint32_t begin_pair(struct pair *p, uint32_t inputs, uint32_t outputs, uint32_t edition)
{
    return egretfold_pair_begin(p->zero.own, p->zero.tallies, p->own1, p->tallies1, p->zero.shared, inputs, outputs, edition);
}

static uint32_t feed_pair(struct pair *p, const uint32_t *words, size_t length, const uint32_t *parties, size_t groups,
                          uint64_t fed[6])
{
    return egretfold_pair_feed(p->zero.own, p->zero.tallies, p->own1, p->tallies1, p->zero.shared, words, length, parties, groups,
                               fed);
}

static void check_fed(const char *call, const uint64_t fed[6], const uint64_t expected[6])
{
    for (unsigned i = 0; i < 6; i++)
        agree(call, fed[i], expected[i]);
}

/* What that leaves: two runs of party 0, and party 1 stopped after three words. */
static void check_parties(const struct pair *p)
{
    const uint32_t ended[6] = {3, 1, 0, 0, 7, 1};
    uint32_t status[6] = {9, 9, 9, 9, 9, 9};
    uint64_t counts[2] = {9, 9};
    agree("session_status of party 1", egretfold_session_status(p->own1, status), 0);
    agree_words("session_status of party 1", status, ended, 6);
    agree("session_tallies of party 1", egretfold_session_tallies(p->tallies1, counts), 0);
    agree("session_tallies of party 1, runs", counts[0], 0);
    agree("session_tallies of party 0", egretfold_session_tallies(p->zero.tallies, counts), 0);
    agree("session_tallies of party 0, runs", counts[0], 2);
    agree("session_tallies of party 0, elements", counts[1], 2 * 1728);
}

static void check_pair_begin(struct pair *p)
{
    memset(p, 7, sizeof *p);
    agree("pair_begin, input 16", begin_pair(p, 0x10000, 2, 1), 3);
    agree("pair_begin, output 4", begin_pair(p, 0, 16, 1), 3);
    agree("pair_begin, edition 3", begin_pair(p, 0, 2, 3), 3);
    agree("pair_begin, party 0's numbers after a refusal", p->zero.own[0], 0x07070707);
    agree("pair_begin, party 1's numbers after a refusal", p->own1[0], 0x07070707);
    agree("pair_begin, settings after a refusal", p->zero.shared[0], 0x07070707);
    agree("pair_begin", begin_pair(p, 0, 2, 1), 0);
}

/* Party 0 owns output 0 and sends the whole stream; party 1, which owns output 1, sends a word before each of the first three. Then
 * party 0 begins a start, and party 1 names output 0: it gets 20, and party 0's run goes on. */
static void check_pair(void)
{
    uint32_t words[18] = {0xC0000900, 0xC0010A00, 0, 0x1000, 0xC0030C00, 0x4000010};
    const uint32_t start[2] = {0xC0000800, 0}, parties[1] = {0xFFFC0015}, second[1] = {2}, first[1] = {0};
    const uint64_t filled[6] = {9, 9, 9, 9, 9, 9}, both[6] = {15, 4, 0, 3, 1, 0};
    const uint64_t refused[6] = {1, 0, 0, 0, 0, 20}, alone[6] = {1, 1, 0, 0, 0, 0}, stopped[6] = {1, 0, 0, 0, 0, 1};
    uint64_t fed[6] = {9, 9, 9, 9, 9, 9};
    struct pair p;
    memcpy(words + 6, stream + 3, 12 * sizeof *words);
    check_pair_begin(&p);
    agree("pair_feed, too few groups", feed_pair(&p, words, 18, parties, 0, fed), 11);
    check_fed("pair_feed, room after a refusal", fed, filled);
    agree("pair_feed", feed_pair(&p, words, 18, parties, 1, fed), 0);
    check_fed("pair_feed, both parties", fed, both);
    agree("pair_feed, another's output", feed_pair(&p, start, 2, second, 1, fed), 0);
    check_fed("pair_feed, another's output", fed, refused);
    agree("pair_feed, no word of party 1", feed_pair(&p, start + 1, 1, first, 1, fed), 0);
    check_fed("pair_feed, no word of party 1", fed, alone);
    agree("pair_feed, party 1 is stopped", feed_pair(&p, start, 2, second, 1, fed), 0);
    check_fed("pair_feed, party 1 is stopped", fed, stopped);
    check_parties(&p);
}

struct replay {
    uint32_t log[EGRETFOLD_LOG];
    uint64_t marks[EGRETFOLD_MARKS];
    struct session s;
};

static uint32_t feed_log(struct replay *r, const uint8_t *bytes, size_t length, uint64_t taken[1])
{
    return egretfold_log_feed(r->log, r->marks, r->s.own, r->s.tallies, r->s.shared, bytes, length, taken);
}

/* A record at the front of the room: its kind, then its number, low byte first. */
static size_t put_record(uint8_t *room, uint8_t kind, uint32_t number)
{
    room[0] = kind;
    for (unsigned i = 0; i < 4; i++)
        room[1 + i] = (uint8_t)(number >> 8 * i);
    return 5;
}

static void check_part(const char *call, const struct replay *r, uint32_t part, uint64_t runs, uint64_t elements)
{
    uint64_t counts[2] = {9, 9};
    agree(call, egretfold_log_part(r->log, r->marks, r->s.tallies, part, counts), 0);
    agree(call, counts[0], runs);
    agree(call, counts[1], elements);
}

static void check_log_status(const char *call, const struct replay *r, const uint32_t expected[7])
{
    uint32_t status[7] = {9, 9, 9, 9, 9, 9, 9};
    agree(call, egretfold_log_status(r->log, status), 0);
    agree_words(call, status, expected, 7);
}

/* The whole stream before the first midnight, a start that midnight cuts, and on the second day a refused word and one more.
 * Gives the log's length. */
static size_t put_log(uint8_t *room)
{
    const uint32_t later[7][2] = {{1, 0xC0000800}, {2, 30}, {1, 0}, {2, 31}, {1, 0xC0030C00}, {1, 4}, {1, 0xC0000900}};
    size_t length = 0;
    for (unsigned i = 0; i < 15; i++)
        length += put_record(room + length, 1, stream[i]);
    for (unsigned i = 0; i < 7; i++)
        length += put_record(room + length, (uint8_t)later[i][0], later[i][1]);
    return length;
}

/* That log in two pieces, cut inside the second midnight; then a record of no kind. */
static void check_log(void)
{
    const uint32_t fresh[7] = {0, 0, 0, 0, 0, 0, 0}, open[7] = {0, 0, 0, 1, 30, 30, 4};
    const uint32_t refused[7] = {0, 4, 2, 2, 30, 31, 0}, stopped[7] = {18, 4, 2, 2, 30, 31, 0};
    static uint8_t bytes[110];
    static struct replay r;
    uint64_t taken[1] = {9};
    const size_t length = put_log(bytes);
    agree("log_begin", egretfold_log_begin(r.log, r.marks, r.s.own, r.s.tallies, r.s.shared, 1), 0);
    check_log_status("log_status of a new replay", &r, fresh);
    r.log[0] = 77;
    agree("log_begin, edition 3", egretfold_log_begin(r.log, r.marks, r.s.own, r.s.tallies, r.s.shared, 3), 3);
    agree("log_begin, own numbers after a refusal", r.log[0], 77);
    agree("log_begin, edition 2", egretfold_log_begin(r.log, r.marks, r.s.own, r.s.tallies, r.s.shared, 2), 0);
    agree("log_begin, edition 1", egretfold_log_begin(r.log, r.marks, r.s.own, r.s.tallies, r.s.shared, 1), 0);
    check_part("log_part of a new replay", &r, 0, 0, 0);
    agree("log_feed, first piece", feed_log(&r, bytes, 94, taken), 0);
    agree("log_feed, bytes of the first piece", taken[0], 94);
    check_log_status("log_status inside a record", &r, open);
    agree("log_feed, a refused word", feed_log(&r, bytes + 94, length - 94, taken), 0);
    agree("log_feed, bytes of a refused word too", taken[0], 16);
    check_log_status("log_status after a refused word", &r, refused);
    check_part("log_part before the first midnight", &r, 0, 1, 1728);
    check_part("log_part of the first day", &r, 1, 1, 1728);
    check_part("log_part of the second day", &r, 2, 0, 0);
    check_part("log_part past the last day", &r, 3, 0, 0);
    check_status("session_status of a replay", &r.s, 18, 1, 0, 0, 0);
    put_record(bytes + 5, 3, 0);
    agree("log_feed, a wrong kind", feed_log(&r, bytes, 10, taken), 18);
    agree("log_feed, bytes before the wrong kind", taken[0], 5);
    check_log_status("log_status, stopped", &r, stopped);
    agree("log_feed, stopped", feed_log(&r, bytes, 5, taken), 18);
    agree("log_feed, bytes of a stopped replay", taken[0], 0);
    agree("log_feed, an empty piece", feed_log(&r, bytes, 0, taken), 0);
}

/* A day that isn't one more than the last: refused at its last byte. */
static void check_log_days(void)
{
    const uint32_t stopped[7] = {19, 0, 0, 1, 4294967295, 4294967295, 0};
    static struct replay r;
    uint8_t bytes[10];
    uint64_t taken[1] = {9};
    put_record(bytes, 2, 4294967295);
    put_record(bytes + 5, 2, 0);
    agree("log_begin", egretfold_log_begin(r.log, r.marks, r.s.own, r.s.tallies, r.s.shared, 1), 0);
    agree("log_feed, a wrong day", feed_log(&r, bytes, 10, taken), 19);
    agree("log_feed, bytes before a wrong day's last", taken[0], 9);
    check_log_status("log_status after a wrong day", &r, stopped);
    agree("log_begin, again", egretfold_log_begin(r.log, r.marks, r.s.own, r.s.tallies, r.s.shared, 1), 0);
    for (unsigned i = 0; i < 10; i++)
        agree("log_byte", egretfold_log_byte(r.log, r.marks, r.s.own, r.s.tallies, r.s.shared, bytes[i]), i < 9 ? 0 : 19);
    check_log_status("log_status after a wrong day, byte by byte", &r, stopped);
}

static void check_lease_lines(void)
{
    agree("score_lease, 1 day that owes nothing", egretfold_score_lease(1, 0, 1, 0), 0);
    agree("score_lease, 31 days of 100,000,000", egretfold_score_lease(1, 0, 31, 100000000), 0);
    agree("score_lease, up to the last number", egretfold_score_lease(1, 4294967265, 31, 1), 0);
    agree("score_lease, 0 days", egretfold_score_lease(1, 30, 0, 1), 21);
    agree("score_lease, 32 days", egretfold_score_lease(1, 30, 32, 1), 21);
    agree("score_lease, 100,000,001 owed", egretfold_score_lease(1, 30, 1, 100000001), 21);
    agree("score_lease, past the last number", egretfold_score_lease(1, 4294967266, 31, 1), 21);
    agree("score_lease, edition 2", egretfold_score_lease(2, 30, 1, 1), 0);
    agree("score_lease, 0 days under edition 2", egretfold_score_lease(2, 30, 0, 1), 21);
    agree("score_lease, edition 0", egretfold_score_lease(0, 30, 1, 1), 3);
    agree("score_lease, edition 3 before 0 days", egretfold_score_lease(3, 30, 0, 1), 3);
}

static uint64_t claimed[EGRETFOLD_DAYS], served[EGRETFOLD_DAYS], month[3];

/* All rooms of a score, the first numbers of each as given and the others 0. */
static void check_month(const char *call, const uint64_t claims[3], const uint64_t serves[3], const uint64_t sums[3])
{
    for (unsigned i = 0; i < EGRETFOLD_DAYS; i++) {
        agree(call, claimed[i], i < 3 ? claims[i] : 0);
        agree(call, served[i], i < 3 ? serves[i] : 0);
    }
    for (unsigned i = 0; i < 3; i++)
        agree(call, month[i], sums[i]);
}

static uint32_t score(const struct replay *r, uint32_t first_day, uint32_t days, uint32_t owed)
{
    return egretfold_score_month(r->log, r->marks, r->s.tallies, first_day, days, owed, claimed, served, month);
}

/* The log of check_log: 1,728 elements on day 30, none on day 31 for its refused word. */
static void check_scores(void)
{
    const uint64_t claims[3] = {0, 1728, 0}, serves[3] = {0, 1000, 0}, shorts[3] = {1000, 3000, 1};
    const uint64_t one[3] = {1728, 0, 0}, fulls[3] = {1728, 1728, 0}, none[3] = {0, 0, 0}, nothings[3] = {0, 0, 2};
    static uint8_t bytes[110];
    static struct replay r;
    uint64_t taken[1] = {9};
    const size_t length = put_log(bytes);
    agree("log_begin", egretfold_log_begin(r.log, r.marks, r.s.own, r.s.tallies, r.s.shared, 1), 0);
    agree("log_feed, the log", feed_log(&r, bytes, length, taken), 0);
    agree("score_month, short", score(&r, 29, 3, 1000), 0);
    check_month("score_month, short", claims, serves, shorts);
    agree("score_month, full", score(&r, 30, 1, 1728), 0);
    check_month("score_month, full", one, one, fulls);
    agree("score_month, nothing owed", score(&r, 30, 1, 0), 0);
    check_month("score_month, nothing owed", one, none, nothings);
    bytes[0] = 3;
    agree("log_feed, a wrong kind", feed_log(&r, bytes, 1, taken), 18);
    agree("score_month, 21 comes first", score(&r, 30, 32, 1000), 21);
    agree("score_month, stopped", score(&r, 29, 3, 1000), 18);
    check_month("score_month, rooms after a refusal", one, none, nothings);
}

/* Two stations of the log of check_log, which serves 1,728 elements on day 30 alone: 1,728 of 1,728, and 1,000 of 3,000. */
static void check_fleet(void)
{
    static uint8_t logs[220];
    uint64_t numbers[8] = {110, 30, 1, 1728, 110, 29, 3, 1000}, room[5] = {9, 9, 9, 9, 9};
    const uint64_t report[4] = {2728, 4728, 2, 1}, none[4] = {0, 0, 0, 64};
    put_log(logs);
    put_log(logs + 110);
    agree("fleet_report, edition 3", egretfold_fleet_report(3, logs, 220, numbers, 7, room, 5), 3);
    agree("fleet_report, not in fours", egretfold_fleet_report(1, logs, 220, numbers, 7, room, 4), 11);
    agree("fleet_report, room of five", egretfold_fleet_report(1, logs, 220, numbers, 8, room, 5), 11);
    agree("fleet_report, a byte too many", egretfold_fleet_report(1, logs, 219, numbers, 8, room, 4), 11);
    agree("fleet_report, room after a refusal", room[0] == 9 && room[3] == 9 && room[4] == 9, 1);
    agree("fleet_report", egretfold_fleet_report(1, logs, 220, numbers, 8, room, 4), 0);
    for (unsigned i = 0; i < 4; i++)
        agree("fleet_report", room[i], report[i]);
    agree("fleet_report, room past its four", room[4], 9);
    agree("fleet_report, no logs", egretfold_fleet_report(2, logs, 0, numbers, 0, room, 4), 0);
    for (unsigned i = 0; i < 4; i++)
        agree("fleet_report, no logs", room[i], none[i]);
    numbers[0] = numbers[4] = UINT64_C(1) << 63;
    agree("fleet_report, lengths of 2^63 twice", egretfold_fleet_report(1, logs, 0, numbers, 8, room, 4), 11);
    numbers[0] = numbers[4] = 110;
    numbers[5] = UINT64_C(1) << 32;
    agree("fleet_report, a day over 32 bits", egretfold_fleet_report(1, logs, 220, numbers, 8, room, 4), 21);
    {
        static uint64_t many[65 * 4];
        agree("fleet_report, 65 stations", egretfold_fleet_report(1, logs, 0, many, 65 * 4, room, 4), 22);
        agree("fleet_report, 64 stations of 0 days", egretfold_fleet_report(1, logs, 0, many, 64 * 4, room, 4), 21);
    }
}

static void check_commands(void)
{
    const uint32_t output[4] = {0, 0x800, 0x2010064, 0x12};
    const uint32_t bad[4] = {4, 0x800, 0x2010064, 0x12};
    uint32_t count[1] = {9}, written[1] = {9};
    uint32_t room[6] = {7, 7, 7, 7, 7, 7};
    const uint32_t filled[6] = {7, 7, 7, 7, 7, 7};
    agree("command_parameters, unknown", egretfold_command_parameters(0xC0008100, count), 2);
    agree("command_parameters, room after a refusal", count[0], 9);
    agree("command_parameters", egretfold_command_parameters(0xC0020D00, count), 0);
    agree("command_parameters", count[0], 3);
    agree("command_write, unknown", egretfold_command_write(0xC0038000, output, room, 6, written), 2);
    agree("command_write, output 4", egretfold_command_write(0xC0030C00, bad, room, 6, written), 4);
    agree("command_write, short room", egretfold_command_write(0xC0030C00, output, room, 4, written), 11);
    agree_words("command_write, room after a refusal", room, filled, 6);
    agree("command_write, count after a refusal", written[0], 9);
    agree("command_write", egretfold_command_write(0xC0030C00, output, room, 6, written), 0);
    agree("command_write", written[0], 5);
    agree_words("command_write", room, stream + 3, 5);
    agree("command_write, room past the words", room[5], 7);
}

/* Document 01's C1 and C2: linear, four bytes, base 2048, pitch 100, height 3. */
static void check_addresses(void)
{
    const uint32_t expected_window[2] = {96, 1152}, expected_pair[3] = {5, 2, 3};
    uint32_t window[2] = {9, 9}, address[2] = {9, 9}, pair[3] = {9, 9, 9};
    agree("layout, pitch 98", egretfold_layout(2048, 98, 3, 4, false, window), 3);
    agree("layout, height 0", egretfold_layout(2048, 100, 0, 4, false, window), 6);
    agree("layout, room after a refusal", window[0], 9);
    agree("layout", egretfold_layout(2048, 100, 3, 4, false, window), 0);
    agree_words("layout", window, expected_window, 2);
    agree("translate (96, 0)", egretfold_translate(2048, 100, 3, 4, false, 96, 0, address), 10);
    agree("translate, room after a refusal", address[0], 9);
    agree("translate, the run's room after a refusal", address[1], 9);
    agree("translate (5, 2)", egretfold_translate(2048, 100, 3, 4, false, 5, 2, address), 0);
    agree("translate (5, 2)", address[0], 2836);
    agree("translate (5, 2), its run", address[1], 91);
    agree("translate, tiled", egretfold_translate(0, 100, 20, 4, true, 37, 18, address), 0);
    agree("translate, tiled", address[0], 9828);
    agree("translate, tiled, its run", address[1], 3);
    agree("locate 3200", egretfold_locate(2048, 100, 3, 4, false, 3200, pair), 12);
    agree("locate, room after a refusal", pair[0], 9);
    agree("locate 2839", egretfold_locate(2048, 100, 3, 4, false, 2839, pair), 0);
    agree_words("locate 2839", pair, expected_pair, 3);
}

/* The element of C1 in twelve bytes of memory from 2832 on. */
static void check_elements(void)
{
    uint8_t memory[12] = {0, 1, 2, 3, 4, 5, 6, 7, 8, 9, 10, 11};
    const uint8_t data[4] = {104, 105, 106, 107};
    const uint8_t read[16] = {4, 5, 6, 7}, stored[12] = {0, 1, 2, 3, 104, 105, 106, 107, 8, 9, 10, 11};
    uint8_t bytes[16];
    memset(bytes, 9, sizeof bytes);
    agree("element_read, memory too short",
          egretfold_element_read(2048, 100, 3, 4, false, 5, 2, memory, 7, 2832, bytes), 11);
    agree("element_read, room after a refusal", bytes[0], 9);
    agree("element_read", egretfold_element_read(2048, 100, 3, 4, false, 5, 2, memory, 8, 2832, bytes), 0);
    agree_bytes("element_read", bytes, read, 16);
    agree("element_write, three bytes",
          egretfold_element_write(2048, 100, 3, 4, false, 5, 2, memory, 12, 2832, data, 3), 11);
    agree_bytes("element_write, memory after a refusal", memory + 4, read, 4);
    agree("element_write", egretfold_element_write(2048, 100, 3, 4, false, 5, 2, memory, 12, 2832, data, 4), 0);
    agree_bytes("element_write", memory, stored, 12);
}

/* A linear window of 8 by 2 elements of four bytes: a row is 32 bytes. */
static void check_superfine(void)
{
    const uint8_t expected[16] = {4, 5, 6, 7, 32, 33, 34, 35, 36, 37, 38, 39, 0, 1, 2, 3};
    uint8_t memory[64], bytes[16];
    uint32_t count[1] = {9};
    for (unsigned i = 0; i < 64; i++)
        memory[i] = (uint8_t)i;
    memset(bytes, 9, sizeof bytes);
    agree("element_superfine, not superfine",
          egretfold_element_superfine(2048, 0x2000008, 2, 0, 0, memory, 64, 2048, bytes, count), 3);
    agree("element_superfine (7, 0)",
          egretfold_element_superfine(2048, 0x2020008, 2, 7, 0, memory, 64, 2048, bytes, count), 10);
    agree("element_superfine, room after a refusal", bytes[0], 9);
    agree("element_superfine, count after a refusal", count[0], 9);
    agree("element_superfine",
          egretfold_element_superfine(2048, 0x2020008, 2, 0, 0, memory, 64, 2048, bytes, count), 0);
    agree_bytes("element_superfine", bytes, expected, 16);
    agree("element_superfine, count", count[0], 16);
}

/* A conditional buffer of 16 by 4 numbers from 2048 on, in which (x, y) holds 256 y + x; the test is "less or equal". The session is
 * stopped by then, which changes nothing. */
static void check_conditional(void)
{
    const uint32_t words[7] = {0xC0020D00, 2048, 16, 4, 0xC0001B00, 2, 0};
    const uint8_t wanted[6] = {0, 0, 1, 1, 1, 1};
    uint8_t memory[128], room[6];
    uint32_t passed[1] = {9};
    uint64_t fed[2];
    struct session s;
    for (unsigned i = 0; i < 64; i++)
        memory[2 * i] = (uint8_t)(i % 16), memory[2 * i + 1] = (uint8_t)(i / 16);
    memset(room, 9, sizeof room);
    begin(&s);
    agree("conditional_test, nothing set", egretfold_conditional_test(s.shared, 0, 0, 0, memory, 128, 2048, passed), 7);
    agree("session_feed, buffer and test, then no header", feed(&s, words, 7, fed), 2);
    agree("conditional_test (16, 0)", egretfold_conditional_test(s.shared, 0, 16, 0, memory, 0, 0, passed), 10);
    agree("conditional_test, memory too short", egretfold_conditional_test(s.shared, 0, 15, 3, memory, 127, 2048, passed), 11);
    agree("conditional_test, room after a refusal", passed[0], 9);
    agree("conditional_test, 258 <= 258", egretfold_conditional_test(s.shared, 258, 2, 1, memory, 128, 2048, passed), 0);
    agree("conditional_test, 258 <= 258", passed[0], 1);
    agree("conditional_test, 258 <= 257", egretfold_conditional_test(s.shared, 258, 1, 1, memory, 128, 2048, passed), 0);
    agree("conditional_test, 258 <= 257", passed[0], 0);
    passed[0] = 9;
    agree("conditional_survey, crossed",
          egretfold_conditional_survey(s.shared, 258, 3, 0, 2, 9, memory, 0, 0, room, 0, passed), 5);
    agree("conditional_survey, a pair outside",
          egretfold_conditional_survey(s.shared, 258, 0, 3, 2, 4, memory, 128, 2048, room, 6, passed), 10);
    agree("conditional_survey, room too short",
          egretfold_conditional_survey(s.shared, 258, 0, 1, 2, 2, memory, 128, 2048, room, 5, passed), 11);
    agree("conditional_survey, count after a refusal", passed[0], 9);
    agree("conditional_survey, room after a refusal", room[0], 9);
    agree("conditional_survey", egretfold_conditional_survey(s.shared, 258, 0, 1, 2, 2, memory, 128, 2048, room, 6, passed), 0);
    agree("conditional_survey, how many", passed[0], 4);
    agree_bytes("conditional_survey", room, wanted, 6);
}

/* A linear window of 8 by 3 elements of four bytes from 2048 on: 96 bytes, of which (1, 1) to (2, 2) are moved. */
static void check_pictures(void)
{
    const uint8_t wanted[16] = {36, 37, 38, 39, 40, 41, 42, 43, 68, 69, 70, 71, 72, 73, 74, 75};
    const uint32_t row_wanted[3] = {2080 + 4, 2080 + 8, 2080 + 12};
    uint8_t memory[96], before[96], room[16];
    uint32_t row[3] = {9, 9, 9}, address[2];
    for (unsigned i = 0; i < 96; i++)
        memory[i] = before[i] = (uint8_t)i;
    memset(room, 200, sizeof room);
    agree("picture_copy_out, size 3",
          egretfold_picture_copy_out(2048, 8, 3, 3, false, 1, 1, 9, 2, memory, 95, 2048, room, 1), 3);
    agree("picture_copy_out, height 0",
          egretfold_picture_copy_out(2048, 8, 0, 4, false, 1, 1, 9, 2, memory, 95, 2048, room, 1), 6);
    agree("picture_copy_out, a pair outside",
          egretfold_picture_copy_out(2048, 8, 3, 4, false, 1, 1, 8, 2, memory, 95, 2048, room, 1), 10);
    agree("picture_copy_out, memory that ends before the span",
          egretfold_picture_copy_out(2048, 8, 3, 4, false, 1, 1, 2, 2, memory, 95, 2048, room, 16), 11);
    agree("picture_copy_out, room too short",
          egretfold_picture_copy_out(2048, 8, 3, 4, false, 1, 1, 2, 2, memory, 96, 2048, room, 15), 11);
    agree("picture_paint, a pair outside",
          egretfold_picture_paint(2048, 8, 3, 4, false, 1, 1, 2, 3, memory, 96, 2048, room, 16), 10);
    agree("picture_paint, room too long",
          egretfold_picture_paint(2048, 8, 3, 4, false, 1, 1, 2, 1, memory, 96, 2048, room, 16), 11);
    agree("pictures, room after refusals", room[0], 200);
    agree_bytes("pictures, memory after refusals", memory, before, 96);
    agree("picture_paint, no pairs",
          egretfold_picture_paint(2048, 8, 3, 4, false, 99, 99, 0, 2, memory, 96, 2048, room, 0), 0);
    agree_bytes("picture_paint, memory after no pairs", memory, before, 96);
    agree("picture_copy_out",
          egretfold_picture_copy_out(2048, 8, 3, 4, false, 1, 1, 2, 2, memory, 96, 2048, room, 16), 0);
    agree_bytes("picture_copy_out", room, wanted, 16);
    for (unsigned i = 0; i < 16; i++)
        room[i] = (uint8_t)(100 + i);
    memcpy(before + 36, room, 8), memcpy(before + 68, room + 8, 8);
    agree("picture_paint",
          egretfold_picture_paint(2048, 8, 3, 4, false, 1, 1, 2, 2, memory, 96, 2048, room, 16), 0);
    agree_bytes("picture_paint", memory, before, 96);
    agree("picture_row, a pair outside", egretfold_picture_row(2048, 8, 3, 4, false, 6, 1, row, 3), 10);
    agree("picture_row, room after a refusal", row[0], 9);
    agree("picture_row", egretfold_picture_row(2048, 8, 3, 4, false, 1, 1, row, 3), 0);
    agree_words("picture_row", row, row_wanted, 3);
    agree("picture_row, tiled", egretfold_picture_row(0, 100, 20, 4, true, 37, 18, row, 1), 0);
    agree("translate, tiled", egretfold_translate(0, 100, 20, 4, true, 37, 18, address), 0);
    agree("picture_row, tiled", row[0], address[0]);
}

static uint32_t firsts[EGRETFOLD_SLOTS], seconds[EGRETFOLD_SLOTS], slots[1];

/* An empty list of integer words: a pointer that isn't null, and 0. */
static const uint32_t none[1] = {0};

/* The words of document 01's C9, C11 and C12, and the plain slot. */
static const uint32_t program[8] = {0x02000F00, 0, 0x00000010, 0, 0x01010020, 0, 0x00000020, 0};

static void check_program(void)
{
    firsts[0] = 9;
    agree("program_load, odd", egretfold_program_load(program, 3, firsts, seconds, slots), 15);
    agree("program_load, store after a refusal", firsts[0], 9);
    agree("program_load", egretfold_program_load(program, 8, firsts, seconds, slots), 0);
    agree("program_load, slots", slots[0], 4);
    agree("program_load, first word", firsts[0], 0x02000F00);
    agree("program_load, a slot past the program", firsts[511], 0x00000020);
    agree("program_load, its second word", seconds[511], 0);
}

static void check_group(uint32_t cells[EGRETFOLD_CELLS])
{
    const uint32_t fresh[20] = {15, 15}, partial[20] = {15, 15, [12] = 1};
    cells[0] = 9;
    agree("group_begin, 33", egretfold_group_begin(33, 0, cells), 13);
    agree("group_begin, mode 2", egretfold_group_begin(4, 2, cells), 13);
    agree("group_begin, room after a refusal", cells[0], 9);
    agree("group_begin, partial mode", egretfold_group_begin(4, 1, cells), 0);
    agree_words("group_begin, partial mode", cells, partial, 20);
    agree("group_begin", egretfold_group_begin(4, 0, cells), 0);
    agree_words("group_begin", cells, fresh, 20);
}

/* C9, C11, C12 and the plain slot: the program's end. */
static void check_steps(void)
{
    const uint32_t active[4] = {3, 12, 15, 15};
    uint32_t cells[EGRETFOLD_CELLS], taken[2] = {9, 9};
    check_group(cells);
    for (uint32_t i = 0; i < 4; i++) {
        uint32_t alu = i == 0 ? 3 : 0;
        agree("group_step", egretfold_group_step(firsts, seconds, slots[0], cells, alu, 0, 0, none, 0, taken), 0);
        agree("group_step, a stay", taken[0], 0);
        agree("group_step, next position", taken[1], i + 1);
        agree("group_step, position", cells[7], i + 1);
        agree("group_step, active", cells[1], active[i]);
    }
    taken[0] = 9;
    agree("group_step, ended", egretfold_group_step(firsts, seconds, slots[0], cells, 0, 0, 0, none, 0, taken), 16);
    agree("group_step, room after a refusal", taken[0], 9);
    agree("group_step, position after a refusal", cells[7], 4);
}

/* The same steps as one run, with masks left over. */
static void check_run(void)
{
    const uint32_t masks[11] = {3, 0, 0, 0, 0, 0, 0, 0, 1, 1, 1};
    uint32_t cells[EGRETFOLD_CELLS];
    uint64_t report[3] = {9, 9, 9};
    check_group(cells);
    agree("group_run, one step",
          egretfold_group_run(firsts, seconds, slots[0], cells, masks, 3, 0, none, 0, report), 0);
    agree("group_run, one step made", report[0], 1);
    agree("group_run, first active", report[1], 0);
    agree("group_run, two active", report[2], 2);
    agree("group_run, the rest",
          egretfold_group_run(firsts, seconds, slots[0], cells, masks + 2, 9, 0, none, 0, report), 0);
    agree("group_run, three steps made", report[0], 3);
    agree("group_run, four active", report[2], 4);
    agree("group_run, position", cells[7], 4);
    report[0] = 9;
    agree("group_run, ended",
          egretfold_group_run(firsts, seconds, slots[0], cells, masks, 0, 0, none, 0, report), 16);
    agree("group_run, room after a refusal", report[0], 9);
}

/* LOOP by integer word 1 around REP by word 0: three turns of one and two of the other, aL from 10 on by -4. A close of the outer
 * loop jumps to slot 1, one of the inner to 2; the openings jump to the end. */
static const uint32_t looping[8] = {1, 0x00040100, 3, 0x00040000, 4, 0x00020000, 2, 0x00010000};
static const uint32_t integers[2] = {2, 0x00FC0A03};

static void check_loops(void)
{
    const uint32_t nested[13] = {10, 3, 2, 0, 1, 3, 10}, turned[13] = {6, 1, 2, 6}, closed[13] = {0};
    const uint32_t two_loops[4] = {2, 0x01FC0A03, 0, 0}, masks[32] = {0};
    uint32_t cells[EGRETFOLD_CELLS], before[EGRETFOLD_CELLS], taken[2] = {9, 9}, told[13];
    uint64_t report[3] = {9, 9, 9};
    agree("program_load, loops", egretfold_program_load(looping, 8, firsts, seconds, slots), 0);
    check_group(cells);
    memcpy(before, cells, sizeof cells);
    agree("group_step, no such integer word",
          egretfold_group_step(firsts, seconds, slots[0], cells, 0, 0, 0, integers, 1, taken), 13);
    agree("group_step, room after a refused loop", taken[0], 9);
    agree_words("group_step, group after a refused loop", cells, before, EGRETFOLD_CELLS);
    memset(told, 9, sizeof told);
    egretfold_group_loops(cells, told);
    agree_words("group_loops, none open", told, closed, 13);
    for (uint32_t i = 0; i < 2; i++) {
        agree("group_step, opening",
              egretfold_group_step(firsts, seconds, slots[0], cells, 0, 0, 0, integers, 2, taken), 0);
        agree("group_step, an opening stays", taken[0], 0);
        agree("group_step, next position in a loop", taken[1], i + 1);
    }
    agree_words("group_step, cells of two loops", cells + 14, two_loops, 4);
    egretfold_group_loops(cells, told);
    agree_words("group_loops, two open", told, nested, 13);
    /* Both closes of the REP, then the LOOP's first. */
    agree("group_run, to the second turn",
          egretfold_group_run(firsts, seconds, slots[0], cells, masks, 6, 0, integers, 2, report), 0);
    agree("group_run, steps in loops", report[0], 3);
    agree("group_run, back at the inner loop", cells[7], 1);
    egretfold_group_loops(cells, told);
    agree_words("group_loops, the second turn", told, turned, 13);
    agree("group_run, to the end",
          egretfold_group_run(firsts, seconds, slots[0], cells, masks, 32, 0, integers, 2, report), 0);
    agree("group_run, the other turns", report[0], 8);
    agree("group_run, ended after the loops", cells[7], 4);
    egretfold_group_loops(cells, told);
    agree_words("group_loops, all closed", told, closed, 13);
}

/* The float of bits, whatever they are. */
static float float_of(uint32_t bits)
{
    float f;
    memcpy(&f, &bits, sizeof f);
    return f;
}

/* C9, then a kill: processors 0 and 1 are active, 0 has minus infinity in channel 2, 1 minus zero and a NaN with its sign set, and
 * the idle ones -1. B_ELSE then wakes the idle ones, and not the killed one. */
static void check_kill(void)
{
    float registers[16] = {0};
    uint32_t cells[EGRETFOLD_CELLS], before[EGRETFOLD_CELLS], taken[2], killed[1] = {9};
    agree("program_load, for a kill", egretfold_program_load(program, 8, firsts, seconds, slots), 0);
    check_group(cells);
    agree("group_step, before a kill",
          egretfold_group_step(firsts, seconds, slots[0], cells, 3, 0, 0, none, 0, taken), 0);
    registers[2] = float_of(0xFF800000);
    registers[4] = float_of(0x80000000);
    registers[5] = float_of(0xFFC00000);
    registers[8] = registers[12] = -1;
    memcpy(before, cells, sizeof cells);
    agree("group_kill, ended", egretfold_group_kill(1, cells, 16, registers, 15, killed), 16);
    agree("group_kill, a mask over 15", egretfold_group_kill(slots[0], cells, 16, registers, 15, killed), 13);
    agree("group_kill, too few floats", egretfold_group_kill(slots[0], cells, 15, registers, 15, killed), 11);
    agree("group_kill, room after a refusal", killed[0], 9);
    agree_words("group_kill, group after a refusal", cells, before, EGRETFOLD_CELLS);
    agree("group_kill, channel 2 not asked", egretfold_group_kill(slots[0], cells, 11, registers, 16, killed), 0);
    agree("group_kill, nobody", killed[0], 0);
    agree_words("group_kill, group with nobody killed", cells, before, EGRETFOLD_CELLS);
    agree("group_kill", egretfold_group_kill(slots[0], cells, 15, registers, 16, killed), 0);
    agree("group_kill, processor 0", killed[0], 1);
    before[0] = 14, before[1] = 2, before[13] = 1;
    agree_words("group_kill, group after it", cells, before, EGRETFOLD_CELLS);
    agree("group_step, B_ELSE after a kill",
          egretfold_group_step(firsts, seconds, slots[0], cells, 0, 0, 0, none, 0, taken), 0);
    agree("group_step, active after a kill", cells[1], 12);
    agree("group_kill, the starting group's length", egretfold_group_kill(slots[0], cells, 1, registers, 16, killed), 0);
    agree("group_kill, the idle ones now", killed[0], 12);
    agree("group_kill, all killed so far", cells[13], 13);
}

/* Zeros of either sign, numbers, and NaNs quiet and signalling, whose bits come back as they are. */
static void check_registers(void)
{
    const uint32_t bits[2][4] = {{0, 0x40000000, 0x7FC12345, 0xC0000000}, {0x80000000, 0x3F800000, 0x3F800000, 0xFF812345}};
    const uint32_t thirds[4] = {0x80000000, 0x7FC00000, 0, 0x80000001};
    const uint32_t larger[4] = {0x80000000, 0x40000000, 0x3F800000, 0xFF812345};
    const uint32_t chosen[4] = {0, 0x3F800000, 0x7FC12345, 0xFF812345};
    uint32_t room[4];
    egretfold_register_maximum(bits[0], bits[1], room);
    agree_words("register_maximum", room, larger, EGRETFOLD_CHANNELS);
    egretfold_register_choice(bits[0], bits[1], thirds, room);
    agree_words("register_choice", room, chosen, EGRETFOLD_CHANNELS);
}

static bool is_pair(const struct pair *p)
{
    return egretfold_pair_check(p->zero.own, p->zero.tallies, p->own1, p->tallies1, p->zero.shared);
}

static bool is_replay(const struct replay *r)
{
    return egretfold_log_check(r->log, r->marks, r->s.own, r->s.tallies, r->s.shared);
}

/* States as they begin, and each with something that no state has. */
static void check_states(void)
{
    struct pair p;
    struct replay r;
    uint32_t cells[EGRETFOLD_CELLS];
    begin(&p.zero);
    agree("session_check", egretfold_session_check(p.zero.own, p.zero.tallies, p.zero.shared), true);
    p.zero.own[0] = 2;
    agree("session_check, a stop of 2", egretfold_session_check(p.zero.own, p.zero.tallies, p.zero.shared), false);
    agree("pair_begin", begin_pair(&p, 0, 2, 1), 0);
    agree("pair_check", is_pair(&p), true);
    memcpy(p.own1, p.zero.own, sizeof p.own1);
    agree("pair_check, both own the same", is_pair(&p), false);
    agree("log_begin", egretfold_log_begin(r.log, r.marks, r.s.own, r.s.tallies, r.s.shared, 1), 0);
    agree("log_check", is_replay(&r), true);
    r.marks[0] = 1;
    agree("log_check, a mark of no midnight", is_replay(&r), false);
    agree("group_begin", egretfold_group_begin(8, 0, cells), 0);
    agree("group_check", egretfold_group_check(cells), true);
    memset(cells, 0, sizeof cells);
    agree("group_check, all zeros", egretfold_group_check(cells), false);
}

int main(void)
{
    struct session s;
    check_feed(&s);
    check_settings(&s);
    check_formats(&s);
    check_words(&s);
    check_refused_piece();
    check_silent();
    check_editions();
    check_pair();
    check_log();
    check_log_days();
    check_lease_lines();
    check_scores();
    check_fleet();
    check_commands();
    check_addresses();
    check_elements();
    check_superfine();
    check_conditional();
    check_pictures();
    check_program();
    check_steps();
    check_run();
    check_loops();
    check_kill();
    check_registers();
    check_states();
    if (differed != 0) {
        printf("calls: %u agreed, %u differed\n", agreed, differed);
        return 1;
    }
    printf("calls: %u agreed\n", agreed);
    return 0;
}
