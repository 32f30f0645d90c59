/* Egretfold: CTM command streams, logs of them over midnight, their monthly score, tile addresses, elements in lent memory,
 * conditional output tests, and flow words for one group.
 *
 * Every function returns 0, or the number of a refusal of document 01 (egretfold_group_loops and the two functions on
 * registers return nothing, since they refuse nothing, and those that check a state return a bool); a refusal touches no room
 * and no state except where its function says so. Nothing is allocated and nothing is kept between calls: all state lies in
 * arrays that the caller lends. Arguments may be any numbers. Arrays have just the lengths shown, except where a length is an
 * argument of its own.
 *
 *      1  the session is stopped
 *      2  a header word stands in no line of the command table
 *      3  a reserved bit or code is set, a layout argument is malformed, or an edition is neither 1 nor 2; a conditional test on
 *         another format than UINT16_1
 *      4  input number over 15, output number over 3
 *      5  i0 > i1 or j0 > j1
 *      6  window rule broken
 *      7  start without a domain, an instruction format or any output set; a conditional test without its buffer or its test set
 *      8  the domain is not inside every set output's window; silent outputs are passed over
 *      9  spans of two set outputs share a byte; silent outputs are passed over
 *     10  a pair is outside its window
 *     11  room, element data, memory or registers of a wrong length or place
 *     12  no pair of the window owns the address
 *     13  flow word field, group size, mode or write mask not allowed; no such integer word, or one with reserved bits; in
 *         partial mode an op other than 0 or an A_OP
 *     14  branch counter, return stack, open loops or aL at their limit, or a close that fits no open loop
 *     15  a jump past the program's end, or a program of a wrong length
 *     16  the program has already ended
 *     17  the session has taken 1,000,000,000 words
 *     18  the kind byte of a log's record is neither 1 nor 2
 *     19  a midnight's day isn't one more than the last, or it is the 401st midnight
 *     20  a party's word names an input or output, or sets something of party 0's, that the party doesn't own
 *     21  a lease line out of its bounds
 *     22  a report over more than 64 logs
 *
 * What the caller owes: pointers to arrays of the lengths shown, no two of them overlapping where one is written (a session's
 * three arrays, a pair's five, a replay's five, rooms and memory are apart), and states as these functions left them: a
 * session's arrays from egretfold_session_begin on, a pair's from an egretfold_pair_begin that returned 0 on, a replay's from
 * egretfold_log_begin on, a group's cells from an egretfold_group_begin that returned 0 on, a growing report's numbers from an
 * egretfold_fleet_begin that returned 0 on. A state may be copied and kept (on disk, say) as it is; where it comes back from
 * elsewhere, egretfold_session_check, egretfold_pair_check, egretfold_log_check, egretfold_group_check and egretfold_fleet_check
 * tell whether it is one. A pointer that comes with a length of 0 is not read, but is not null. */
#ifndef EGRETFOLD_H
#define EGRETFOLD_H

#include <stdbool.h>
#include <stddef.h>
#include <stdint.h>

#ifdef __cplusplus
extern "C" {
#endif

/* A session's state: its own numbers, its tallies, and the settings. */
enum { EGRETFOLD_OWN = 33, EGRETFOLD_TALLIES = 2, EGRETFOLD_SHARED = 101 };

/* A replay's state besides its session's arrays: its own numbers, and what the tallies were at each midnight. */
enum { EGRETFOLD_LOG = 10, EGRETFOLD_MARKS = 800 };

/* A program's store, and a group's cells:
 *   0        the processors in the group, bit i for processor i
 *   1        the active ones
 *   2 to 6   the branch counters of the inactive ones: bit i of cell 2 + k is bit k of processor i's counter
 *   7        the position
 *   8 to 11  the stored returns, the last one first, 0 where there is none
 *   12       the mode, 0 full or 1 partial
 *   13       the processors that were killed, who are in neither of the first two cells
 *   14 to 17 the open loops, the innermost first, 0 where there is none: a LOOP as its count in bits 7:0, its aL in 15:8, its
 *            step in 23:16 and bit 24 set; a REP as its count
 *   the rest zeros */
enum { EGRETFOLD_SLOTS = 512, EGRETFOLD_CELLS = 20 };

/* The channels of a register. */
enum { EGRETFOLD_CHANNELS = 4 };

/* The most days of a lease line. */
enum { EGRETFOLD_DAYS = 31 };

/* A growing fleet report's numbers:
 *   0  the edition
 *   1  how many stations were added
 *   2  what was served in all
 *   3  what was owed in all
 *   4  the silent days
 *   5  the station with the smallest served part, 64 where none owes anything
 *   6  what that station was served, 0 where there is none
 *   7  what that station owed, 0 where there is none */
enum { EGRETFOLD_SUMS = 8 };

/* The refusals of the table above, by name. */
enum {
    EGRETFOLD_REFUSAL_STOPPED = 1,
    EGRETFOLD_REFUSAL_UNKNOWN_HEADER = 2,
    EGRETFOLD_REFUSAL_MALFORMED = 3,
    EGRETFOLD_REFUSAL_NUMBER_TOO_HIGH = 4,
    EGRETFOLD_REFUSAL_DOMAIN_CROSSED = 5,
    EGRETFOLD_REFUSAL_WINDOW_RULE = 6,
    EGRETFOLD_REFUSAL_START_UNSET = 7,
    EGRETFOLD_REFUSAL_DOMAIN_OUTSIDE = 8,
    EGRETFOLD_REFUSAL_SPANS_SHARED = 9,
    EGRETFOLD_REFUSAL_PAIR_OUTSIDE = 10,
    EGRETFOLD_REFUSAL_WRONG_LENGTH = 11,
    EGRETFOLD_REFUSAL_UNOWNED = 12,
    EGRETFOLD_REFUSAL_FLOW_FIELD = 13,
    EGRETFOLD_REFUSAL_AT_LIMIT = 14,
    EGRETFOLD_REFUSAL_PAST_END = 15,
    EGRETFOLD_REFUSAL_ENDED = 16,
    EGRETFOLD_REFUSAL_WORD_LIMIT = 17,
    EGRETFOLD_REFUSAL_RECORD_KIND = 18,
    EGRETFOLD_REFUSAL_MIDNIGHT_DAY = 19,
    EGRETFOLD_REFUSAL_NOT_OWNED = 20,
    EGRETFOLD_REFUSAL_LEASE_LINE = 21,
    EGRETFOLD_REFUSAL_TOO_MANY_LOGS = 22
};

/* What a month is called: egretfold_score_month's last number. */
enum { EGRETFOLD_VERDICT_FULL = 0, EGRETFOLD_VERDICT_SHORT = 1, EGRETFOLD_VERDICT_NOTHING_OWED = 2 };

/* The modes that egretfold_group_begin takes. */
enum { EGRETFOLD_MODE_FULL = 0, EGRETFOLD_MODE_PARTIAL = 1 };

/* The commands' header words, which are above what an enum of C99 can have. */
#define EGRETFOLD_HEADER_SET_DOMAIN           UINT32_C(0xC0030700)
#define EGRETFOLD_HEADER_START_PROGRAM        UINT32_C(0xC0000800)
#define EGRETFOLD_HEADER_WAIT_FOR_IDLE        UINT32_C(0xC0000900)
#define EGRETFOLD_HEADER_SET_INST_FMT         UINT32_C(0xC0010A00)
#define EGRETFOLD_HEADER_SET_INP_FMT          UINT32_C(0xC0030B00)
#define EGRETFOLD_HEADER_SET_OUT_FMT          UINT32_C(0xC0030C00)
#define EGRETFOLD_HEADER_SET_COND_OUT_FMT     UINT32_C(0xC0020D00)
#define EGRETFOLD_HEADER_SET_CONSTF_FMT       UINT32_C(0xC0010E00)
#define EGRETFOLD_HEADER_SET_CONSTI_FMT       UINT32_C(0xC0010F00)
#define EGRETFOLD_HEADER_SET_CONSTB_FMT       UINT32_C(0xC0011000)
#define EGRETFOLD_HEADER_INV_INST_CACHE       UINT32_C(0xC0001100)
#define EGRETFOLD_HEADER_INV_CONSTF_CACHE     UINT32_C(0xC0001200)
#define EGRETFOLD_HEADER_INV_CONSTI_CACHE     UINT32_C(0xC0001300)
#define EGRETFOLD_HEADER_INV_CONSTB_CACHE     UINT32_C(0xC0001400)
#define EGRETFOLD_HEADER_INV_COND_OUT_CACHE   UINT32_C(0xC0001500)
#define EGRETFOLD_HEADER_INV_INP_CACHE        UINT32_C(0xC0001600)
#define EGRETFOLD_HEADER_FLUSH_OUT_CACHE      UINT32_C(0xC0001700)
#define EGRETFOLD_HEADER_FLUSH_COND_OUT_CACHE UINT32_C(0xC0001800)
#define EGRETFOLD_HEADER_SET_OUT_MASK         UINT32_C(0xC0001900)
#define EGRETFOLD_HEADER_SET_COND_OUT_MASK    UINT32_C(0xC0001A00)
#define EGRETFOLD_HEADER_SET_COND_TEST        UINT32_C(0xC0001B00)

/* ---- Sessions ---- */

/* A new session: nothing set, mask 65535. Its edition of the lease rule, 1 or 2, is fixed now and only changes what a start
 * claims (egretfold_session_tallies). 3 for another edition. */
uint32_t egretfold_session_begin(uint32_t own[EGRETFOLD_OWN], uint64_t tallies[EGRETFOLD_TALLIES],
                                 uint32_t shared[EGRETFOLD_SHARED], uint32_t edition);

/* One word. command: 0 where a command is still open, else 1; then the completed command's header and its four parameters,
 * 0 past its last (and all 0 where a command is open). 1 to 9 or 17, and 20 where the
 * session is a party's of a pair; all but 1 stop the session and drop the open command. */
uint32_t egretfold_session_word(uint32_t own[EGRETFOLD_OWN], uint64_t tallies[EGRETFOLD_TALLIES],
                                uint32_t shared[EGRETFOLD_SHARED], uint32_t word, uint32_t command[6]);

/* A piece of words, one after another up to the first refused one. Returns that word's refusal, or 0. fed, written in any
 * case: the words taken (where a word is refused, its place in the piece) and the commands that they completed. */
uint32_t egretfold_session_feed(uint32_t own[EGRETFOLD_OWN], uint64_t tallies[EGRETFOLD_TALLIES],
                                uint32_t shared[EGRETFOLD_SHARED], const uint32_t *words, size_t length, uint64_t fed[2]);

/* status: the words taken since the session began; 1 if it is stopped, else 0; the open command's header, 0 if none is open;
 * how many of its parameters were taken; what the settings alone give a start, 0, 7, 8 or 9, which the session keeps: a
 * stop, the words taken and the open command don't change it; and the edition. Returns 0. */
uint32_t egretfold_session_status(const uint32_t own[EGRETFOLD_OWN], uint32_t status[6]);

/* counts: runs (starts that passed) and the elements that they claimed: the pairs of the domain, times the set outputs that
 * are not silent at the start by edition 1, times their unmasked channels by edition 2. A channel is unmasked when its mask bit is
 * set, bit 4n + c for output n, channel c; codes 0 to 4 have one, four, one, two and four channels, and bits of others don't
 * count. An output is silent when none of its channels is unmasked. Returns 0. */
uint32_t egretfold_session_tallies(const uint64_t tallies[EGRETFOLD_TALLIES], uint64_t counts[2]);

/* domain: 1 if it is set, else 0; then i0, j0, i1, j1, both ends included. Returns 0. */
uint32_t egretfold_session_domain(const uint32_t own[EGRETFOLD_OWN], uint32_t domain[5]);

/* The format that the command with this header set (set_inst_fmt, set_inp_fmt, set_out_fmt, set_cond_out_fmt,
 * set_constf_fmt, set_consti_fmt or set_constb_fmt; for inputs and outputs the one with this number, else the number is not
 * looked at). format: 1 if it is set, else 0; then base, format word and height. 2 for any other header; 4. */
uint32_t egretfold_session_format(const uint32_t own[EGRETFOLD_OWN], const uint32_t shared[EGRETFOLD_SHARED],
                                  uint32_t header, uint32_t number, uint32_t format[4]);

/* masks: the output mask; 1 if the conditional mask is set, else 0, and the mask; 1 if the test is set, else 0, and the
 * test. Returns 0. */
uint32_t egretfold_session_masks(const uint32_t shared[EGRETFOLD_SHARED], uint32_t masks[5]);

/* ---- Two parties on one card ----
 *
 * Each party has its own numbers and tallies (own0 and tallies0, own1 and tallies1); the settings are shared. egretfold_session_word
 * and egretfold_session_feed take a party's words by that party's own and tallies with the shared settings, and the functions above
 * that change nothing tell of a party by its own and tallies. Constants' formats and the conditional output's format, mask and test
 * are party 0's. A party is refused with 20 at a header that sets what isn't its own, and at the number of an input or output that
 * isn't; like 2 to 9 it drops the open command and stops that party alone. A mask changes the bits of one's own outputs only; 7 to
 * 9, the elements that a start claims and what is kept of readiness look at one's own outputs only. The word limit is each party's
 * own. A session from egretfold_session_begin, and a replay's, is one party that owns every number. */

/* A new session of two parties: nothing set, mask 65535. Bit n of inputs (16 bits) and of outputs (4 bits) is set where input or
 * output n is party 1's, and not where it is party 0's. 3 where the edition is neither 1 nor 2, then where a bit above these is set. */
uint32_t egretfold_pair_begin(uint32_t own0[EGRETFOLD_OWN], uint64_t tallies0[EGRETFOLD_TALLIES], uint32_t own1[EGRETFOLD_OWN],
                              uint64_t tallies1[EGRETFOLD_TALLIES], uint32_t shared[EGRETFOLD_SHARED], uint32_t inputs,
                              uint32_t outputs, uint32_t edition);

/* A piece of both parties' words, one after another to its end: it runs on past a refused word. Bit k of parties[i] is the party of
 * word 32 i + k; bits past the last word are not looked at. fed: of party 0 the words taken, the commands that they completed, and
 * its first refusal in this piece, 0 for none; then the same of party 1. Returns 0, or 11 where groups is not (length + 31) / 32. */
uint32_t egretfold_pair_feed(uint32_t own0[EGRETFOLD_OWN], uint64_t tallies0[EGRETFOLD_TALLIES], uint32_t own1[EGRETFOLD_OWN],
                             uint64_t tallies1[EGRETFOLD_TALLIES], uint32_t shared[EGRETFOLD_SHARED], const uint32_t *words,
                             size_t length, const uint32_t *parties, size_t groups, uint64_t fed[6]);

/* ---- A station's log over midnight: records of five bytes, one of kind and four of a number, low byte first ----
 *
 * Kind 1 is a command word, kind 2 a midnight with the number of the day that begins. The words go to one session across all
 * midnights, which lies in own, tallies and shared: the functions above that change nothing may be asked about it. */

/* A new replay, with a new session of an edition. 3 for another edition than 1 and 2. */
uint32_t egretfold_log_begin(uint32_t log[EGRETFOLD_LOG], uint64_t marks[EGRETFOLD_MARKS], uint32_t own[EGRETFOLD_OWN],
                             uint64_t tallies[EGRETFOLD_TALLIES], uint32_t shared[EGRETFOLD_SHARED], uint32_t edition);

/* A piece of bytes, one after another up to the first refused one; it may be cut inside a record. Returns that byte's
 * refusal, or 0. taken, written in any case: the bytes taken (where a byte is refused, its place in the piece). 18 for a
 * record's first byte, 19 for a midnight's last one; both stop the replay and drop the open record, and every later byte
 * gets the same number. What came before stands. The bytes of a word that the session refuses are taken. */
uint32_t egretfold_log_feed(uint32_t log[EGRETFOLD_LOG], uint64_t marks[EGRETFOLD_MARKS], uint32_t own[EGRETFOLD_OWN],
                            uint64_t tallies[EGRETFOLD_TALLIES], uint32_t shared[EGRETFOLD_SHARED], const uint8_t *bytes,
                            size_t length, uint64_t taken[1]);

/* The same for one byte, and faster than a piece of one. Returns its refusal, or 0 where it was taken. */
uint32_t egretfold_log_byte(uint32_t log[EGRETFOLD_LOG], uint64_t marks[EGRETFOLD_MARKS], uint32_t own[EGRETFOLD_OWN],
                            uint64_t tallies[EGRETFOLD_TALLIES], uint32_t shared[EGRETFOLD_SHARED], uint8_t byte);

/* status: 18 or 19 if it stopped the replay, else 0; the first refused word's refusal, 0 if none was refused; how many
 * midnights came before that word; how many midnights came; the first day and the last one (0 before the first midnight);
 * and how many bytes of an unfinished record stand, 0 to 4. Returns 0.
 * The first refused word stands in the record whose number, counted from 0, is the words that the session has taken plus
 * the midnights before that word, plus those that egretfold_log_trim has forgotten. */
uint32_t egretfold_log_status(const uint32_t log[EGRETFOLD_LOG], uint32_t status[7]);

/* counts: runs and claimed elements of a part of the log. Part 0 is what ended before the first midnight, part k the k-th
 * day; 0 and 0 past the last day. Returns 0. */
uint32_t egretfold_log_part(const uint32_t log[EGRETFOLD_LOG], const uint64_t marks[EGRETFOLD_MARKS],
                            const uint64_t tallies[EGRETFOLD_TALLIES], uint32_t part, uint64_t counts[2]);

/* Forgets all midnights but the last one, the kept day's, so that 399 more may come: a replay that is trimmed each month goes on for
 * years. Kept: the kept day's number and what the tallies were when it began, the session, an unfinished record, what stopped the
 * replay, and the first refused word. All from the kept day on is then answered as if nothing were forgotten: bytes and their refusals,
 * parts, scores; only the 401st midnight is counted anew. Part 0 is now what ended before the kept day, part 1 the kept day. Without a
 * midnight nothing changes. It may be called at any time, also inside a record; what a 401st midnight has stopped stays stopped.
 * What the caller owes:
 * - Ask egretfold_log_status, and for the days that are still wanted egretfold_log_part or egretfold_score_month, before.
 * - A lease line that begins before the kept day isn't refused, but finds its forgotten days at 0. Don't score it: the kept day is the
 *   first day that egretfold_log_status tells.
 * - The first refused word's midnights are counted from the kept day on: 1 on that day, 0 before it. Keep count of the forgotten midnights
 *   (at each call those that had come, less 1). The word's record number is then the words taken, plus the midnights before, plus the
 *   forgotten ones; 0 midnights before with some forgotten say that the number can no longer be told.
 * Returns 0. */
uint32_t egretfold_log_trim(uint32_t log[EGRETFOLD_LOG], uint64_t marks[EGRETFOLD_MARKS]);

/* ---- A station's monthly score, by its lease line and the replay of its log ----
 *
 * A lease line is the number of its first day, its days, and the elements owed on each of them. A score has no state of its own:
 * the log is fed by egretfold_log_begin and egretfold_log_feed, and may be scored at any time. */

/* Judges an edition, 1 or 2, and a lease line: 1 to 31 days, at most 100,000,000 elements owed a day, and first_day + days - 1
 * below 2^32. 3 for the edition, then 21. */
uint32_t egretfold_score_lease(uint32_t edition, uint32_t first_day, uint32_t days, uint32_t owed);

/* claimed and served: a number for each day of the lease, 0 past its last day. claimed[k] is what was claimed on the day numbered
 * first_day + k, 0 where the log has no midnight of that number; what ended before the first midnight is of no day, and the
 * last day goes on to the log's end. served[k] is the same, capped at the owed number. month: served and owed in all, and the
 * verdict: 0 full (every day owes more than 0 and is served in full), 1 short, 2 nothing owed. 21 for the lease line, then 18
 * or 19 where it stopped the replay. Refused words and an unfinished record refuse nothing. */
uint32_t egretfold_score_month(const uint32_t log[EGRETFOLD_LOG], const uint64_t marks[EGRETFOLD_MARKS],
                               const uint64_t tallies[EGRETFOLD_TALLIES], uint32_t first_day, uint32_t days, uint32_t owed,
                               uint64_t claimed[EGRETFOLD_DAYS], uint64_t served[EGRETFOLD_DAYS], uint64_t month[3]);

/* ---- A fleet's report, over the logs and lease lines of up to 64 stations ---- */

/* logs: the stations' logs, one behind the other. numbers: four for each station, in the same order: its log's length, first day, days and
 * the elements owed a day. Each log is replayed and scored by itself, by the edition. room, of 4 numbers: what was served and
 * owed in all; the silent days, which owe more than 0 and are served 0; and the station with the smallest served part, counted from 0,
 * the lower one where two are the same, 64 where none owes anything. 3 for the edition; 11 where count isn't a multiple of 4,
 * room_length isn't 4 or the logs' lengths don't add up to length; 22 for more than 64 stations; then the first station's 21, 18 or 19. */
uint32_t egretfold_fleet_report(uint32_t edition, const uint8_t *logs, size_t length, const uint64_t *numbers, size_t count,
                                uint64_t *room, size_t room_length);

/* ---- A fleet's report that grows, over any number of stations ----
 *
 * Stations are added one after another and numbered from 0 in that order, or another report's stations are put behind them. The sums
 * are exact: a station owes at most 31 * 100,000,000 elements, and 2^32 stations together less than 2^64. No log is kept, so that a
 * report is eight numbers whatever its stations are. Of up to 64 stations it tells what egretfold_fleet_report tells of their logs. */

/* A report of no station, of edition 1 or 2. 3 for another. */
uint32_t egretfold_fleet_begin(uint64_t sums[EGRETFOLD_SUMS], uint32_t edition);

/* Adds a station's month: the replay of its log, and its lease line. 3 where the replay isn't of the report's edition, 22 for more
 * than 2^32 stations, then 21 for the lease line, then 18 or 19 where it stopped the replay. */
uint32_t egretfold_fleet_add(uint64_t sums[EGRETFOLD_SUMS], const uint32_t log[EGRETFOLD_LOG], const uint64_t marks[EGRETFOLD_MARKS],
                             const uint32_t own[EGRETFOLD_OWN], const uint64_t tallies[EGRETFOLD_TALLIES], uint32_t first_day,
                             uint32_t days, uint32_t owed);

/* Adds a station's month by its numbers, of the report's edition: what was served and owed in all, as egretfold_score_month left them
 * in month, and the silent days, which owe more than 0 and are served 0. 22 for more than 2^32 stations, then 21 where no month has
 * such numbers: owed above 3,100,000,000, served above owed, or silent above 31. */
uint32_t egretfold_fleet_add_month(uint64_t sums[EGRETFOLD_SUMS], uint64_t served, uint64_t owed, uint64_t silent);

/* Puts the other report's stations behind these, numbered on from them; the other isn't changed. 3 where it is of another edition, 22
 * for more than 2^32 stations together. Groups of a fleet that are joined in their order come to what their stations come to when
 * they are added one by one. */
uint32_t egretfold_fleet_join(uint64_t sums[EGRETFOLD_SUMS], const uint64_t other[EGRETFOLD_SUMS]);

/* room: the four numbers of egretfold_fleet_report, and 1 where a station is named, 0 where none owes anything: the fourth number is 64
 * then, and where the fifth is 1 it is station 64. Returns 0. */
uint32_t egretfold_fleet_tell(const uint64_t sums[EGRETFOLD_SUMS], uint64_t room[5]);

/* Whether the numbers are a growing report's, such as the functions above leave them: a true is just what they require of sums. */
bool egretfold_fleet_check(const uint64_t sums[EGRETFOLD_SUMS]);

/* ---- Commands by themselves ---- */

/* count: how many parameters a header announces, 1 to 4. 2. */
uint32_t egretfold_command_parameters(uint32_t header, uint32_t count[1]);

/* The words of the command with this header and these fields, in document 01's order, to the front of the room, which has
 * room for `length` words; what stands behind them isn't touched. Fields past the command's last are not looked at, nor is
 * the reserved parameter of wait_for_idle, the invalidations, the flushes and start_program, which is written as 0.
 * written: the number of words. 2; then 3, 4, 5, 6, and 11 where the room is too short. */
uint32_t egretfold_command_write(uint32_t header, const uint32_t fields[4], uint32_t *room, size_t length,
                                 uint32_t written[1]);

/* ---- Layouts and addresses ---- */

/* window: the row step in elements and the span in bytes. 3 or 6. */
uint32_t egretfold_layout(uint32_t base, uint32_t pitch, uint32_t height, uint32_t size, bool tiled, uint32_t window[2]);

/* address: where the element at (x, y) begins, and its run: how many elements of the row, from this one on, lie at consecutive
 * addresses, so that one copy of run * size bytes takes them all. At least 1. 3, 6 or 10. */
uint32_t egretfold_translate(uint32_t base, uint32_t pitch, uint32_t height, uint32_t size, bool tiled, uint32_t x,
                             uint32_t y, uint32_t address[2]);

/* pair: x and y of the pair that owns the byte at the address, and the byte's place in its element. 3, 6 or 12. */
uint32_t egretfold_locate(uint32_t base, uint32_t pitch, uint32_t height, uint32_t size, bool tiled, uint32_t address,
                          uint32_t pair[3]);

/* ---- Elements in lent memory: `length` bytes, the first of which stands at address `first` ---- */

/* bytes: the bytes of the element at (x, y), then zeros. 3, 6, 10 or 11. */
uint32_t egretfold_element_read(uint32_t base, uint32_t pitch, uint32_t height, uint32_t size, bool tiled, uint32_t x,
                                uint32_t y, const uint8_t *memory, size_t length, uint32_t first, uint8_t bytes[16]);

/* Stores `data` as the element at (x, y) and touches no other byte of memory. 3, 6, 10 or 11. */
uint32_t egretfold_element_write(uint32_t base, uint32_t pitch, uint32_t height, uint32_t size, bool tiled, uint32_t x,
                                 uint32_t y, uint8_t *memory, size_t length, uint32_t first, const uint8_t *data,
                                 size_t data_length);

/* The elements at (x + 1, y), (x, y + 1), (x + 1, y + 1) and (x, y), one after the other, of the window that base, format word
 * and height describe. bytes: theirs, then zeros; count: how many are theirs. 3, 6, 10 or 11. */
uint32_t egretfold_element_superfine(uint32_t base, uint32_t format, uint32_t height, uint32_t x, uint32_t y,
                                     const uint8_t *memory, size_t length, uint32_t first, uint8_t bytes[16],
                                     uint32_t count[1]);

/* ---- Conditional output tests: a value held against the conditional buffer of a session's settings, in lent memory ----
 *
 * The settings are those of a session, stopped or not, and are only read; a refusal stops nothing. The test is `value op b`, where op is
 * the test that is set: 0 never, 1 less, 2 less or equal, 3 equal, 4 at least, 5 greater, 6 not equal, 7 always; and b is the 16-bit
 * number of the conditional buffer at the pair, low byte first. Asked in this order: 7 where no conditional buffer or no test is set, 3
 * where the buffer's format isn't UINT16_1, 5 for a domain whose ends are crossed, 10 where a pair is outside the buffer's window, and
 * 11 for memory that is longer than 65536 bytes, ends above 2^32 or doesn't hold every element asked for, or a room of another length.
 * 10 and 11 come with the tests 0 and 7 too. */

/* passed: 1 if the test passes at (x, y), else 0. 7, 3, 10 or 11. */
uint32_t egretfold_conditional_test(const uint32_t shared[EGRETFOLD_SHARED], uint32_t value, uint32_t x, uint32_t y,
                                    const uint8_t *memory, size_t length, uint32_t first, uint32_t passed[1]);

/* The tests of all pairs from (i0, j0) to (i1, j1), both ends included. room, whose length is the number of these pairs: a byte 1 or 0
 * for each, row by row. passed: how many pass. 7, 3, 5, 10 or 11. */
uint32_t egretfold_conditional_survey(const uint32_t shared[EGRETFOLD_SHARED], uint32_t value, uint32_t i0, uint32_t j0,
                                      uint32_t i1, uint32_t j1, const uint8_t *memory, size_t length, uint32_t first,
                                      uint8_t *room, size_t room_length, uint32_t passed[1]);

/* ---- Whole rectangles: the pairs of `columns` columns and `rows` rows from (x, y) on ----
 *
 * The room has the elements of the rectangle, row by row, and just their columns * rows * size bytes. Memory covers the window's
 * whole span and may have any length, as long as it ends at 2^32 or below. A rectangle of no pairs is inside every window and moves nothing.
 * Each of the first two functions returns 3, 6, 10 where any pair is outside, or 11, in this order, and then touches nothing. */

/* Stores the elements of the room at their pairs, and touches no other byte of memory. 3, 6, 10 or 11. */
uint32_t egretfold_picture_paint(uint32_t base, uint32_t pitch, uint32_t height, uint32_t size, bool tiled, uint32_t x,
                                 uint32_t y, uint32_t columns, uint32_t rows, uint8_t *memory, size_t length,
                                 uint32_t first, const uint8_t *room, size_t room_length);

/* Copies the elements of the pairs into the room. 3, 6, 10 or 11. */
uint32_t egretfold_picture_copy_out(uint32_t base, uint32_t pitch, uint32_t height, uint32_t size, bool tiled, uint32_t x,
                                    uint32_t y, uint32_t columns, uint32_t rows, const uint8_t *memory, size_t length,
                                    uint32_t first, uint8_t *room, size_t room_length);

/* addresses: where the elements of `columns` pairs from (x, y) on, in the same row, begin. 3, 6, or 10 where any of these pairs is
 * outside. */
uint32_t egretfold_picture_row(uint32_t base, uint32_t pitch, uint32_t height, uint32_t size, bool tiled, uint32_t x,
                               uint32_t y, uint32_t *addresses, size_t columns);

/* ---- Flow words for one group ---- */

/* Loads a program, two words a slot, into a store of 512 slots. slots: how many of them run. 15. */
uint32_t egretfold_program_load(const uint32_t *words, size_t length, uint32_t firsts[EGRETFOLD_SLOTS],
                                uint32_t seconds[EGRETFOLD_SLOTS], uint32_t slots[1]);

/* A fresh group of 1 to 32 processors in a mode, which it keeps: 0 full, or 1 partial, for programs without loops and
 * subroutines and with branches nested at most 6 deep: there ops 1 to 4 and A_OP other than 0 get 13, and branch counters run to 5
 * instead of 31. What partial mode accepts, full mode answers identically. 13. */
uint32_t egretfold_group_begin(uint32_t size, uint32_t mode, uint32_t cells[EGRETFOLD_CELLS]);

/* One step under a program of `slots` running slots, with `numbers` integer words, of which LOOP and REP take theirs by its
 * number. taken: 1 for a jump, 0 for a stay; and the next position. 13 to 16. */
uint32_t egretfold_group_step(const uint32_t firsts[EGRETFOLD_SLOTS], const uint32_t seconds[EGRETFOLD_SLOTS],
                              uint32_t slots, uint32_t cells[EGRETFOLD_CELLS], uint32_t alu, uint32_t predicate,
                              uint32_t booleans, const uint32_t *integers, size_t numbers, uint32_t taken[2]);

/* Steps up to the end of the list of masks (alu, then predicate, for each step) or of the program. report: the steps made,
 * the first active processor (32 if none), and how many are active. 13 to 16; a refused step leaves the group as it was
 * before the run. */
uint32_t egretfold_group_run(const uint32_t firsts[EGRETFOLD_SLOTS], const uint32_t seconds[EGRETFOLD_SLOTS],
                             uint32_t slots, uint32_t cells[EGRETFOLD_CELLS], const uint32_t *masks, size_t length,
                             uint32_t booleans, const uint32_t *integers, size_t numbers, uint64_t report[3]);

/* loops: the aL shown, which is the innermost open LOOP's, 0 if none is open; then three numbers for each of four loops, the
 * innermost first: its kind (0 none, 1 LOOP, 3 REP), its count, which is that of the turns left with the present one among
 * them, and its aL (0 for a REP). Returns nothing. */
void egretfold_group_loops(const uint32_t cells[EGRETFOLD_CELLS], uint32_t loops[13]);

/* Whether the cells, kept on disk say, are a group's: true just where the functions above and egretfold_group_kill may have them. */
bool egretfold_group_check(const uint32_t cells[EGRETFOLD_CELLS]);

/* ---- Registers of four float channels ---- */

/* Kills every active processor that has a channel under the write mask (bit c for channel c) less than zero: minus zero and a NaN
 * aren't, minus infinity is. registers: four floats for each processor of the group as it began, processor 0 first, `floats` of them
 * in all. `slots` are those of the program that run, which is asked only whether it has ended. killed: those who were killed now, bit
 * i for processor i; cell 13 has all so far. They are in the group no longer. 16, 13 for a mask over 15, or 11 for another
 * number of floats, in that order. */
uint32_t egretfold_group_kill(uint32_t slots, uint32_t cells[EGRETFOLD_CELLS], uint32_t mask, const float *registers,
                              size_t floats, uint32_t killed[1]);

/* The maximum of two registers, channel by channel: a's where b's is less than a's, otherwise b's. A channel is the bits of its float
 * (memcpy makes one of the other), and the answer's are one operand's as they are, a NaN's payload too. Returns nothing. */
void egretfold_register_maximum(const uint32_t a[EGRETFOLD_CHANNELS], const uint32_t b[EGRETFOLD_CHANNELS],
                                uint32_t maximum[EGRETFOLD_CHANNELS]);

/* The choice between two registers by a third one, channel by channel: a's where the third's is at least zero, as minus zero is and a
 * NaN isn't, otherwise b's. Channels are bits here too. Returns nothing. */
void egretfold_register_choice(const uint32_t a[EGRETFOLD_CHANNELS], const uint32_t b[EGRETFOLD_CHANNELS],
                               const uint32_t third[EGRETFOLD_CHANNELS], uint32_t choice[EGRETFOLD_CHANNELS]);

/* ---- States that were kept elsewhere ----
 * Each returns true just where the arrays, wherever they come from and whatever numbers they have, are such as the functions above may
 * have, so that they may be handed to them; all that these functions leave is such. Nothing is written. Damage that makes one such
 * state of another isn't seen. */

/* A session; what one party of two has, with the settings, is one too. */
bool egretfold_session_check(const uint32_t own[EGRETFOLD_OWN], const uint64_t tallies[EGRETFOLD_TALLIES],
                             const uint32_t shared[EGRETFOLD_SHARED]);

/* A session of two parties. */
bool egretfold_pair_check(const uint32_t own0[EGRETFOLD_OWN], const uint64_t tallies0[EGRETFOLD_TALLIES],
                          const uint32_t own1[EGRETFOLD_OWN], const uint64_t tallies1[EGRETFOLD_TALLIES],
                          const uint32_t shared[EGRETFOLD_SHARED]);

/* The replay of a station's log. */
bool egretfold_log_check(const uint32_t log[EGRETFOLD_LOG], const uint64_t marks[EGRETFOLD_MARKS], const uint32_t own[EGRETFOLD_OWN],
                         const uint64_t tallies[EGRETFOLD_TALLIES], const uint32_t shared[EGRETFOLD_SHARED]);

#ifdef __cplusplus
}
#endif

#endif
