/* States that were kept and came back damaged: every single bit of many of them is flipped. Where the library's own check takes the
 * damaged state, it is fed on, in arrays of which each ends where a page begins that nobody may touch: a call that reads or writes past
 * one ends this program. A flip in a number that counts or says where something stands is fed a million words, one in the settings
 * 20,000, one in a replay's marks, which are 51,200 bits, 500, and one in a group's cells 100,000 steps. What the calls leave must be
 * taken again. With an argument, any, each is fed a million, which takes some minutes. Prints a line a kind with what was refused and what
 * was taken; ends with 1 where a check is wrong. */
#define _DEFAULT_SOURCE
#include <egretfold.h>

#include <stdio.h>
#include <stdlib.h>
#include <string.h>
#include <sys/mman.h>
#include <unistd.h>

enum { MILLION = 1000000, FOR_SETTINGS = 20000, FOR_MARKS = 500, STEPS = 100000, RECORD = 5 };

static unsigned wrong;

/* How much a damaged state is fed: as much as is said for its place, or a million whatever its place. */
static bool at_length;

static size_t amount(size_t for_its_place)
{
    return at_length ? MILLION : for_its_place;
}

static void demand(bool holds, const char *what, size_t bit)
{
    if (!holds && wrong++ < 20)
        printf("%s, bit %zu\n", what, bit);
}

/* So many bytes that end where the next page can't be touched; nor can the page before their first one. */
static void *fenced(size_t bytes)
{
    size_t page = (size_t)sysconf(_SC_PAGESIZE), pages = (bytes + page - 1) / page;
    uint8_t *room = mmap(NULL, (pages + 2) * page, PROT_READ | PROT_WRITE, MAP_PRIVATE | MAP_ANONYMOUS, -1, 0);
    if (room == MAP_FAILED || mprotect(room, page, PROT_NONE) || mprotect(room + (pages + 1) * page, page, PROT_NONE)) {
        perror("no fenced room");
        exit(2);
    }
    return room + (pages + 1) * page - bytes;
}

/* Numbers that only look random: the same on every machine. */
static uint64_t seed = 31;

static uint32_t any(void)
{
    seed = seed * 6364136223846793005u + 1;
    return (uint32_t)(seed >> 32);
}

/* A state: up to five arrays, one behind the other as far as bits are counted, each fenced. */
struct part {
    uint8_t *bytes;
    size_t length;
};

struct state {
    struct part parts[5];
    size_t count;
};

static size_t bits(const struct state *s)
{
    size_t sum = 0;
    for (size_t i = 0; i < s->count; i++)
        sum += 8 * s->parts[i].length;
    return sum;
}

/* Flips a bit and tells which array it is in. */
static size_t flip(struct state *s, size_t bit)
{
    size_t i = 0;
    for (; bit >= 8 * s->parts[i].length; i++)
        bit -= 8 * s->parts[i].length;
    s->parts[i].bytes[bit / 8] ^= (uint8_t)(1u << bit % 8);
    return i;
}

static void keep(const struct state *s, uint8_t *kept)
{
    for (size_t i = 0; i < s->count; kept += s->parts[i++].length)
        memcpy(kept, s->parts[i].bytes, s->parts[i].length);
}

static void put_back(struct state *s, const uint8_t *kept)
{
    for (size_t i = 0; i < s->count; kept += s->parts[i++].length)
        memcpy(s->parts[i].bytes, kept, s->parts[i].length);
}

/* A kind of state: how it is checked, and fed so many words or steps. */
struct kind {
    const char *name;
    bool (*check)(void);
    void (*feed)(size_t count);
    struct state state;
    /* By the array that the flip is in. */
    size_t fed[5];
    size_t states, refused, taken;
};

/* All flips of the state as it stands. */
static void all_flips(struct kind *k)
{
    struct state *s = &k->state;
    uint8_t *kept = malloc(bits(s) / 8);
    keep(s, kept);
    demand(k->check(), k->name, 0);
    for (size_t bit = 0; bit < bits(s); bit++) {
        size_t array = flip(s, bit);
        if (k->check()) {
            k->taken++;
            k->feed(k->fed[array]);
            demand(k->check(), k->name, bit);
            put_back(s, kept);
        } else {
            k->refused++;
            flip(s, bit);
        }
    }
    k->states++;
    /* All zeros are no state. */
    for (size_t i = 0; i < s->count; i++)
        memset(s->parts[i].bytes, 0, s->parts[i].length);
    demand(!k->check(), "all zeros", 0);
    put_back(s, kept);
    free(kept);
}

static void tell(const struct kind *k)
{
    printf("%s: %zu states, %zu flips refused, %zu taken and fed\n", k->name, k->states, k->refused, k->taken);
}

/* ---- what they are fed ---- */

/* Words that pass whatever was set before: all kinds of settings, starts, and commands without effect. */
static const uint32_t settings[] = {
    EGRETFOLD_HEADER_SET_INST_FMT, 0x1000, 0x4000010,
    EGRETFOLD_HEADER_SET_CONSTF_FMT, 0x2000, 0x4000010,
    EGRETFOLD_HEADER_SET_CONSTI_FMT, 0x2800, 0x2000010,
    EGRETFOLD_HEADER_SET_CONSTB_FMT, 0x3000, 0x2000010,
    EGRETFOLD_HEADER_SET_COND_OUT_FMT, 0x8000, 0x10040, 24,
    EGRETFOLD_HEADER_SET_COND_OUT_MASK, 1,
    EGRETFOLD_HEADER_SET_COND_TEST, 4,
    EGRETFOLD_HEADER_SET_OUT_MASK, 0xFF7F,
    EGRETFOLD_HEADER_SET_OUT_FMT, 0, 0x100000, 0x2010064, 18,
    EGRETFOLD_HEADER_SET_OUT_FMT, 1, 0x200000, 0x1010280, 480,
    EGRETFOLD_HEADER_SET_OUT_FMT, 2, 0x400000, 0x3000060, 18,
    EGRETFOLD_HEADER_SET_OUT_FMT, 3, 0x500000, 0x60, 4096,
    EGRETFOLD_HEADER_SET_INP_FMT, 0, 0x600000, 0x2010064, 18,
    EGRETFOLD_HEADER_SET_INP_FMT, 7, 0x700000, 0x1010280, 480,
    EGRETFOLD_HEADER_SET_INP_FMT, 15, 0x800000, 0x4000060, 1,
    EGRETFOLD_HEADER_SET_DOMAIN, 0, 0, 95, 17,
    EGRETFOLD_HEADER_START_PROGRAM, 0,
    EGRETFOLD_HEADER_WAIT_FOR_IDLE, 0,
    EGRETFOLD_HEADER_INV_INP_CACHE, 0,
    EGRETFOLD_HEADER_SET_DOMAIN, 3, 2, 90, 11,
    EGRETFOLD_HEADER_START_PROGRAM, 0,
};

enum { SETTINGS = sizeof settings / sizeof *settings };

/* So many of these words end inside a command: of an output, of an input, of a domain, of a start. */
enum { INSIDE_OUTPUT = 35, INSIDE_INPUT = 50, INSIDE_DOMAIN = 71, INSIDE_START = 63 };

enum { NOISE = 64 };

/* A million words of these settings; the same as records, a million; and noise, which soon stops a session. */
static uint32_t stream[MILLION], noise[NOISE];
static uint8_t records[MILLION * RECORD];

static void record(uint8_t *room, uint8_t kind, uint32_t number)
{
    room[0] = kind;
    for (int i = 0; i < 4; i++)
        room[1 + i] = (uint8_t)(number >> 8 * i);
}

static void make_streams(void)
{
    for (size_t i = 0; i < MILLION; i++) {
        stream[i] = settings[i % SETTINGS];
        record(records + RECORD * i, 1, stream[i]);
    }
    for (size_t i = 0; i < NOISE; i++)
        noise[i] = any();
}

/* The arrays of all states, and rooms for answers, each fenced. */
static uint32_t *own, *own1, *shared, *status, *cells, *pair_room;
static uint64_t *tallies, *tallies1, *marks, *fed, *months;
static uint32_t *log_cells;

static void make_rooms(void)
{
    own = fenced(EGRETFOLD_OWN * sizeof *own);
    own1 = fenced(EGRETFOLD_OWN * sizeof *own1);
    shared = fenced(EGRETFOLD_SHARED * sizeof *shared);
    tallies = fenced(EGRETFOLD_TALLIES * sizeof *tallies);
    tallies1 = fenced(EGRETFOLD_TALLIES * sizeof *tallies1);
    log_cells = fenced(EGRETFOLD_LOG * sizeof *log_cells);
    marks = fenced(EGRETFOLD_MARKS * sizeof *marks);
    cells = fenced(EGRETFOLD_CELLS * sizeof *cells);
    status = fenced(7 * sizeof *status);
    pair_room = fenced(6 * sizeof *pair_room);
    fed = fenced(6 * sizeof *fed);
    months = fenced(EGRETFOLD_DAYS * sizeof *months);
}

#define PART(array, count) (struct part){(uint8_t *)(array), (count) * sizeof *(array)}

/* ---- sessions ---- */

static bool check_session(void)
{
    return egretfold_session_check(own, tallies, shared);
}

/* Ends a party's open command, with the parameters that the settings have for its header. */
static void close_command(uint32_t *party, uint64_t *its_tallies)
{
    uint32_t count[1];
    egretfold_session_status(party, status);
    if (!status[2] || egretfold_command_parameters(status[2], count) || status[3] > count[0])
        return;
    for (size_t i = 0; i < SETTINGS; i++)
        if (settings[i] == status[2]) {
            egretfold_session_feed(party, its_tallies, shared, settings + i + 1 + status[3], count[0] - status[3], fed);
            return;
        }
}

/* All that can be asked of a party. */
static void ask(const uint32_t *party, const uint64_t *its_tallies)
{
    static uint8_t memory[256];
    egretfold_session_status(party, status);
    egretfold_session_tallies(its_tallies, fed);
    egretfold_session_domain(party, status);
    egretfold_session_masks(shared, status);
    for (uint32_t i = 0; i < SETTINGS; i++)
        for (uint32_t number = 0; number < 17; number += 4)
            egretfold_session_format(party, shared, settings[i], number, status);
    for (uint32_t y = 0; y < 30; y++) {
        egretfold_conditional_test(shared, 7, y, y, memory, sizeof memory, 0x8000, status);
        egretfold_conditional_survey(shared, 7, 0, y, 1, y, memory, sizeof memory, 0x8000, memory + 250, 2, status);
    }
}

static void feed_session(size_t words)
{
    ask(own, tallies);
    close_command(own, tallies);
    for (size_t i = 0; i < SETTINGS; i++)
        egretfold_session_word(own, tallies, shared, settings[i], pair_room);
    egretfold_session_feed(own, tallies, shared, stream, words, fed);
    ask(own, tallies);
    egretfold_session_feed(own, tallies, shared, noise, NOISE, fed);
}

/* A session under an edition that was fed so many of the settings. */
static void session_of(uint32_t edition, size_t words)
{
    demand(egretfold_session_begin(own, tallies, shared, edition) == 0, "a session begins", 0);
    demand(egretfold_session_feed(own, tallies, shared, settings, words, fed) == 0, "the settings pass", words);
}

static void sessions(void)
{
    struct kind k = {"sessions", check_session, feed_session, {{PART(own, EGRETFOLD_OWN), PART(tallies, EGRETFOLD_TALLIES),
                     PART(shared, EGRETFOLD_SHARED)}, 3}, {MILLION, MILLION, amount(FOR_SETTINGS)}, 0, 0, 0};
    const size_t words[] = {0, SETTINGS, INSIDE_OUTPUT, INSIDE_INPUT, INSIDE_DOMAIN, INSIDE_START};
    for (uint32_t i = 0; i < 6; i++) {
        session_of(1 + i % 2, words[i]);
        all_flips(&k);
    }
    /* Stopped by a start before anything is set, and by a word of no line after all is. */
    session_of(1, 0);
    egretfold_session_feed(own, tallies, shared, settings + INSIDE_START - 1, 2, fed);
    all_flips(&k);
    session_of(2, SETTINGS);
    egretfold_session_word(own, tallies, shared, 7, pair_room);
    all_flips(&k);
    tell(&k);
}

/* ---- sessions of two parties ---- */

/* Party 1 has inputs 7 and 15 and outputs 1 and 3. */
enum { INPUTS = 0x8080, OUTPUTS = 0xA };

/* The settings that each party may send, one party after the other, and whose each word is; as many as a million words have room for. */
static uint32_t mixed[MILLION], parties[MILLION / 32];
static size_t mixed_length;

/* Whether a party may send the command that begins here. */
static bool is_of(uint32_t party, const uint32_t *command)
{
    switch (command[0]) {
    case EGRETFOLD_HEADER_SET_INP_FMT:
        return (INPUTS >> command[1] & 1) == party;
    case EGRETFOLD_HEADER_SET_OUT_FMT:
        return (OUTPUTS >> command[1] & 1) == party;
    case EGRETFOLD_HEADER_SET_CONSTF_FMT:
    case EGRETFOLD_HEADER_SET_CONSTI_FMT:
    case EGRETFOLD_HEADER_SET_CONSTB_FMT:
    case EGRETFOLD_HEADER_SET_COND_OUT_FMT:
    case EGRETFOLD_HEADER_SET_COND_OUT_MASK:
    case EGRETFOLD_HEADER_SET_COND_TEST:
        return party == 0;
    default:
        return true;
    }
}

static void make_mixed(void)
{
    for (uint32_t party = 0; mixed_length + SETTINGS <= MILLION; party ^= 1)
        for (size_t i = 0, length; i < SETTINGS; i += length) {
            uint32_t count[1];
            egretfold_command_parameters(settings[i], count);
            length = 1 + count[0];
            for (size_t j = 0; j < length && is_of(party, settings + i); j++, mixed_length++) {
                mixed[mixed_length] = settings[i + j];
                parties[mixed_length / 32] |= party << mixed_length % 32;
            }
        }
}

static bool check_pair(void)
{
    return egretfold_pair_check(own, tallies, own1, tallies1, shared);
}

static void feed_pair(size_t words)
{
    if (words > mixed_length)
        words = mixed_length;
    ask(own, tallies);
    ask(own1, tallies1);
    close_command(own, tallies);
    close_command(own1, tallies1);
    egretfold_pair_feed(own, tallies, own1, tallies1, shared, mixed, words, parties, (words + 31) / 32, fed);
    ask(own, tallies);
    ask(own1, tallies1);
    egretfold_pair_feed(own, tallies, own1, tallies1, shared, noise, NOISE, noise, NOISE / 32, fed);
}

static void pair_of(uint32_t edition, size_t words)
{
    uint32_t begun = egretfold_pair_begin(own, tallies, own1, tallies1, shared, INPUTS, OUTPUTS, edition);
    demand(begun == 0, "a pair begins", 0);
    egretfold_pair_feed(own, tallies, own1, tallies1, shared, mixed, words, parties, (words + 31) / 32, fed);
    demand(fed[2] == 0 && fed[5] == 0, "the mixed settings pass", words);
}

static void pairs(void)
{
    struct kind k = {"pairs", check_pair, feed_pair, {{PART(own, EGRETFOLD_OWN), PART(tallies, EGRETFOLD_TALLIES),
                     PART(own1, EGRETFOLD_OWN), PART(tallies1, EGRETFOLD_TALLIES), PART(shared, EGRETFOLD_SHARED)}, 5},
                     {MILLION, MILLION, MILLION, MILLION, amount(FOR_SETTINGS)}, 0, 0, 0};
    pair_of(1, 0);
    all_flips(&k);
    /* Inside an output of party 1; and one stopped, which sent what is party 0's. */
    pair_of(2, 70);
    all_flips(&k);
    pair_of(1, 110);
    egretfold_session_word(own1, tallies1, shared, EGRETFOLD_HEADER_SET_CONSTF_FMT, pair_room);
    all_flips(&k);
    tell(&k);
}

/* ---- replays ---- */

/* What is fed first: the rest of an open record. */
static uint8_t rest[RECORD];
static size_t rest_length;

static uint32_t feed_bytes(const uint8_t *bytes, size_t length)
{
    return egretfold_log_feed(log_cells, marks, own, tallies, shared, bytes, length, fed);
}

static bool check_replay(void)
{
    return egretfold_log_check(log_cells, marks, own, tallies, shared);
}

static void report(void)
{
    egretfold_log_status(log_cells, status);
    uint32_t first = status[4], last = status[5];
    for (uint32_t k = 0; k < 402; k++)
        egretfold_log_part(log_cells, marks, tallies, k, fed);
    for (uint32_t day = first; day <= last && day - first < 400 && day < 0xFFFFFF00; day += 31) {
        uint64_t served[EGRETFOLD_DAYS];
        egretfold_score_month(log_cells, marks, tallies, day, 31, 1000, months, served, fed);
    }
}

static void feed_replay(size_t words)
{
    uint8_t midnight[RECORD];
    report();
    for (size_t i = 0; i < rest_length; i++)
        egretfold_log_byte(log_cells, marks, own, tallies, shared, rest[i]);
    close_command(own, tallies);
    feed_bytes(records, RECORD * (words / 2));
    egretfold_log_status(log_cells, status);
    if (status[3] < 400) {
        record(midnight, 2, status[5] + 1);
        feed_bytes(midnight, RECORD);
    }
    feed_bytes(records, RECORD * (words / 2));
    report();
    feed_bytes((const uint8_t *)noise, NOISE);
}

/* A replay of so many midnights from this day on, with all settings before them and a start on each day. */
static void replay_of(uint32_t edition, uint32_t midnights, uint32_t first, size_t words)
{
    uint8_t bytes[3 * RECORD];
    demand(egretfold_log_begin(log_cells, marks, own, tallies, shared, edition) == 0, "a replay begins", 0);
    demand(feed_bytes(records, RECORD * SETTINGS * (midnights > 0)) == 0, "the settings pass", 0);
    record(bytes + RECORD, 1, EGRETFOLD_HEADER_START_PROGRAM);
    record(bytes + 2 * RECORD, 1, 0);
    for (uint32_t k = 0; k < midnights; k++) {
        record(bytes, 2, first + k);
        demand(feed_bytes(bytes, sizeof bytes) == 0, "a day passes", k);
    }
    demand(feed_bytes(records, RECORD * words) == 0, "a part of the settings passes", words);
    rest_length = 0;
}

static void replays(void)
{
    struct kind k = {"replays", check_replay, feed_replay, {{PART(log_cells, EGRETFOLD_LOG), PART(marks, EGRETFOLD_MARKS),
                     PART(own, EGRETFOLD_OWN), PART(tallies, EGRETFOLD_TALLIES), PART(shared, EGRETFOLD_SHARED)}, 5},
                     {MILLION, amount(FOR_MARKS), MILLION, MILLION, amount(FOR_SETTINGS)}, 0, 0, 0};
    replay_of(1, 0, 0, 0);
    all_flips(&k);
    /* Inside a command, and inside a record of it. */
    replay_of(2, 31, 70, INSIDE_OUTPUT);
    record(rest, 1, settings[INSIDE_OUTPUT]);
    feed_bytes(rest, 3);
    memmove(rest, rest + 3, 2);
    rest_length = 2;
    all_flips(&k);
    /* Marks as many as there can be, up to the last number of a day. */
    replay_of(1, 400, 0xFFFFFFFF - 399, 0);
    all_flips(&k);
    /* Stopped: by a kind, and by a midnight; and with a refused word. */
    replay_of(2, 3, 0, 0);
    demand(feed_bytes((const uint8_t *)"\0", 1) == 18, "a kind is refused", 0);
    all_flips(&k);
    replay_of(1, 2, 0, 0);
    record(rest, 2, 9);
    demand(feed_bytes(rest, RECORD) == 19, "a midnight is refused", 0);
    all_flips(&k);
    replay_of(1, 3, 5, 0);
    record(rest, 1, 9);
    feed_bytes(rest, RECORD);
    record(rest, 2, 8);
    demand(feed_bytes(rest, RECORD) == 0, "the days go on", 0);
    all_flips(&k);
    tell(&k);
}

/* ---- groups ---- */

enum { PROGRAMS = 8, INTEGERS = 4 };

static uint32_t firsts[PROGRAMS][EGRETFOLD_SLOTS], seconds[PROGRAMS][EGRETFOLD_SLOTS];
static uint32_t slots[PROGRAMS], integers[INTEGERS];

/* A slot of any kind: plain, a branch, its other side, its end, a jump, a call, a return, or a loop's begin or end. */
static void any_slot(uint32_t words[2], bool loops)
{
    const uint32_t first[] = {0x20, 0x200F000, 0x10, 0x1010020, 0xFF00, 0xFF80, 0xFF40, 1, 2, 3, 4};
    uint32_t kind = any() % (loops ? 11 : 5), address = any() % EGRETFOLD_SLOTS;
    words[0] = first[kind];
    words[1] = kind == 0 || kind == 3 || kind == 6 ? 0 : address << 16;
    if (kind == 7 || kind == 9)
        words[1] |= any() % INTEGERS << 8;
}

static void make_programs(void)
{
    uint32_t words[2 * EGRETFOLD_SLOTS];
    for (size_t i = 0; i < INTEGERS; i++)
        integers[i] = any() & 0x00FFFFFF;
    for (size_t p = 0; p < PROGRAMS; p++) {
        for (size_t i = 0; i < EGRETFOLD_SLOTS; i++)
            any_slot(words + 2 * i, p % 2);
        uint32_t loaded = egretfold_program_load(words, 2 * EGRETFOLD_SLOTS, firsts[p], seconds[p], &slots[p]);
        demand(loaded == 0, "a program is loaded", p);
    }
}

static bool check_group(void)
{
    return egretfold_group_check(cells);
}

static uint32_t step(size_t program)
{
    return egretfold_group_step(firsts[program], seconds[program], slots[program], cells, any(), any(), any(), integers, INTEGERS,
                                pair_room);
}

static void feed_group(size_t steps)
{
    static float registers[4 * 32];
    uint32_t loops[13], killed[1];
    uint64_t report[3];
    for (size_t i = 0; i < steps; i++)
        step(any() % PROGRAMS);
    egretfold_group_run(firsts[0], seconds[0], slots[0], cells, noise, NOISE, 0, integers, INTEGERS, report);
    egretfold_group_loops(cells, loops);
    registers[any() % 128] = -1.0f;
    for (size_t floats = 4; floats <= 128; floats += 4)
        egretfold_group_kill(EGRETFOLD_SLOTS, cells, any() % 16, registers, floats, killed);
    registers[any() % 128] = 0.0f;
}

static void groups(void)
{
    struct kind k = {"groups", check_group, feed_group, {{PART(cells, EGRETFOLD_CELLS)}, 1}, {amount(STEPS)}, 0, 0, 0};
    const uint32_t sizes[] = {1, 8, 31, 32};
    for (uint32_t i = 0; i < 8; i++) {
        demand(egretfold_group_begin(sizes[i % 4], i / 4, cells) == 0, "a group begins", i);
        all_flips(&k);
        /* Somewhere on its way, with branches, returns and loops open as it came. */
        for (size_t n = 0; n < 2000; n++)
            step(i / 4 ? 2 * (any() % (PROGRAMS / 2)) : any() % PROGRAMS);
        all_flips(&k);
    }
    tell(&k);
}

int main(int count, char **arguments)
{
    (void)arguments;
    at_length = count > 1;
    make_streams();
    make_rooms();
    make_mixed();
    make_programs();
    sessions();
    pairs();
    replays();
    groups();
    return wrong > 0;
}
