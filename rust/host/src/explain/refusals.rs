//! Document 01's refusals, and those that document 02's requests added to its
//! table: each number's cause, the sentences that spell it out, and who gives it.

pub struct Refusal {
    pub number: u32,
    /// The table's words.
    pub cause: &'static str,
    /// Sentences of document 01, word for word.
    pub says: &'static [&'static str],
    /// Sentences of document 02's requests that added or changed it.
    pub requests: &'static [&'static str],
    /// The words and calls that can get this number.
    pub given: &'static str,
}

const STOPS: &[u32] = &[2, 3, 4, 5, 6, 7, 8, 9, 17, 20];

/// Whether a session that gives this number to a word is stopped by it.
pub fn stops(number: u32) -> bool {
    STOPS.contains(&number)
}

/// Whether a replay that gives this number to a byte is stopped by it.
pub fn stops_replay(number: u32) -> bool {
    number == 18 || number == 19
}

/// Whether it refuses a lease line, or a fleet of them.
pub fn is_of_a_lease(number: u32) -> bool {
    matches!(number, 21 | 22)
}

/// Whether it refuses a word of one of two parties.
pub fn is_of_a_party(number: u32) -> bool {
    number == 20
}

pub fn refusal(number: u32) -> Option<&'static Refusal> {
    ALL.iter().find(|refusal| refusal.number == number)
}

/// The table's words for a number, also for one that it doesn't have.
pub fn cause(number: u32) -> &'static str {
    refusal(number).map_or("a number that document 01 doesn't have", |r| r.cause)
}

/// Request 11's sentence on a kill's refusals.
const KILL_ORDER: &str = "An ended program gets 16, a write mask over 15 gets 13, a register list not of the starting group's length 11, in that order.";

/// Request 12's sentence on the order of a test's refusals.
const TEST_ORDER: &str = "With no conditional buffer or test set, 7; then 3, 5 for a bad domain, 10 at any pair, and 11.";

/// Request 12's sentence on who is asked and what stops.
const TEST_STOPS_NOTHING: &str =
    "The unit only reads the session's settings, stopped or not, and its refusals stop nothing.";

/// Request 13's sentence on what is painted into what.
const PAINTED: &str =
    "Take one accepted output window, a domain inside it and lent memory covering its span.";

const fn entry(
    number: u32,
    cause: &'static str,
    given: &'static str,
    says: &'static [&'static str],
) -> Refusal {
    Refusal {
        number,
        cause,
        says,
        requests: &[],
        given,
    }
}

/// A refusal that a request added.
const fn added(
    number: u32,
    cause: &'static str,
    given: &'static str,
    requests: &'static [&'static str],
) -> Refusal {
    entry(number, cause, given, &[]).changed_by(requests)
}

impl Refusal {
    const fn changed_by(self, requests: &'static [&'static str]) -> Refusal {
        Refusal { requests, ..self }
    }
}

const MASK: &str = "set_out_mask (bits 15:0, bit 4n+c for output n, channel c, house)";

/// Requests 2 and 12.
const MISSING: &[&str] = &[
    SILENCE[0],
    SILENCE[1],
    SILENCE[2],
    TEST_ORDER,
    TEST_STOPS_NOTHING,
];

/// Request 2.
const SILENCE: &[&str] = &[
    "An output is silent when no mask bit is set for a channel its format has.",
    "At a start, silent outputs are passed over in refusals 8 and 9 and claim nothing; 7 is as before, so a start with every output silent is a run of no elements.",
    "The channels are one, four, one, two and four for codes 0 to 4.",
];

pub const ALL: [Refusal; 22] = [
    entry(
        1,
        "the session is stopped",
        "any word after the one that stopped the session",
        &["In a session, refusals 2 to 9 and 17 also drop the open command and stop the session for good."],
    ),
    entry(
        2,
        "a header word stands in no line of the command table",
        "a header word",
        &["A header is 3 in bits 31:30, parameters minus one in 29:16, operation in 15:8, zero in 7:0. Only these are known"],
    ),
    entry(
        3,
        "a reserved bit or code is set, or a layout argument is malformed",
        "any parameter but an input's or output's number; the writer; calls that take a layout; the begin of a session, a replay or a score, for its edition; a conditional test or survey, for the buffer's format",
        &[
            "All bits not named are reserved; an input or output number is the whole word.",
            "Codes: 0 UINT16_1, 2 bytes; 1 UINT8_4, 4; 2 FLOAT32_1, 4; 3 FLOAT32_2, 8; 4 FLOAT32_4, 16; 5 to 7 refused.",
            "Superfine on an input with several channels (codes 1, 3, 4) gets 3; elsewhere it is kept and ignored.",
            "Base is a multiple of 2,048, pitch a multiple of 4 up to 8,188, else 3.",
            "Refusals 3 and 4 come with the word at fault",
        ],
    )
    .changed_by(&[
        "A session's edition (1 or 2, else 3 before all else) is fixed at its birth, also for replay and score; all answers but claimed totals, and what is reckoned from those, agree.",
        "Build the unit that compares an unsigned 32-bit v with b read from the conditional buffer at the pair: result v op b, for UINT16_1 only (other formats get 3 here), low byte first, from lent memory.",
        TEST_ORDER,
        TEST_STOPS_NOTHING,
    ]),
    entry(
        4,
        "input number over 15, output number over 3",
        "the first parameter of set_inp_fmt and set_out_fmt; the writer",
        &[
            "an input or output number is the whole word.",
            "Refusals 3 and 4 come with the word at fault",
        ],
    ),
    entry(
        5,
        "i0 > i1 or j0 > j1",
        "the last parameter of set_domain; the writer; a survey's domain",
        &["set_domain: i0, j0, i1, j1, each bits 11:0."],
    )
    .changed_by(&[TEST_ORDER, TEST_STOPS_NOTHING]),
    entry(
        6,
        "window rule broken",
        "the last parameter of a command that sets a format; the writer; calls that take a layout",
        &[
            "Window rule: E from 1 to 4,096, height H from 1 to 4,096, base plus span at most 2^32.",
            "The row step E is the pitch cut down to a multiple of 32/s (linear) or of the tile's width (tiled).",
            "Tiles hold 2,048 bytes: 64x32, 32x32, 32x16, 16x16, 16x8 for the five sizes, width first.",
            "Span is H·E·s (linear) or tile rows needed · E/width · 2,048 (tiled).",
            "Instruction and constant formats have height 1.",
            "C7 tiled, s 4, base 0, pitch 28, H 1: 6. C8 linear, s 4, pitch 8, base 4294965248: H 64 accepted, H 65 gets 6.",
        ],
    ),
    entry(
        7,
        "start without a domain, an instruction format or any output set",
        "the parameter of start_program; a conditional test or survey, for its buffer and its test",
        &["A new session has nothing set and mask 65535."],
    )
    .changed_by(MISSING),
    entry(
        8,
        "the domain is not inside every set output's window",
        "the parameter of start_program",
        &["A pair is inside when x < E and y < H.", MASK],
    )
    .changed_by(SILENCE),
    entry(
        9,
        "spans of two set outputs share a byte",
        "the parameter of start_program",
        &[
            "Span is H·E·s (linear) or tile rows needed · E/width · 2,048 (tiled).",
            MASK,
        ],
    )
    .changed_by(SILENCE),
    entry(
        10,
        "a pair is outside its window",
        "a pair's address; elements read and written; a conditional test or survey, for any of its pairs; a whole picture, for any pair of its rectangle",
        &[
            "A pair is inside when x < E and y < H.",
            "C2 (95,0) inside; (96,0) gets 10.",
        ],
    )
    .changed_by(&[TEST_ORDER, PAINTED]),
    entry(
        11,
        "a writer's room is shorter than its words; element data isn't s bytes; memory is over 65,536 bytes or ends above 2^32; memory doesn't hold the whole element",
        "the writer; elements read and written; a kill, for the number of its registers; a conditional test or survey, for its memory and its room; a whole picture, for memory that doesn't cover the window's span, and for its room",
        &["Lent memory is up to 65,536 bytes standing at a given first address."],
    )
    .changed_by(&[
        KILL_ORDER,
        TEST_ORDER,
        "A survey with one v over a given domain reports how many pairs pass, and writes a byte 1 or 0 a pair, row by row, into lent room whose length is the number of pairs, else 11.",
        PAINTED,
    ]),
    entry(
        12,
        "no pair of the window owns the address",
        "an address on its way back to its pair",
        &[
            "The way back takes any byte address and gives the pair and the byte's place in its element.",
            "A pair's element is the s bytes from its address on, places 0 to s - 1; a pair inside owns those bytes.",
        ],
    ),
    entry(
        13,
        "flow word field or group size not allowed",
        "a fresh group; a step or a run, for the slot that it comes to or the integer word that the slot names; a kill, for its write mask",
        &[
            "A group has 1 to 32 processors (else 13)",
            "Other bits and codes: 13.",
            "Flow words are judged when stepped.",
        ],
    )
    .changed_by(&[
        "Add ops 1 LOOP, 2 ENDLOOP, 3 REP, 4 ENDREP, with the integer number in second-word bits 12:8 of ops 1 and 3, from a lent list of integer words (no such word: 13): count in bits 7:0, start of aL in 15:8, step in 23:16 as -128 to 127, the rest 0, else 13.",
        "Add it as a mode chosen at the start: ops 1 to 4 and A_OP other than 0 get 13, and inactive counters run 0 to 5 (from 5, increment gets 14).",
        KILL_ORDER,
    ]),
    entry(
        14,
        "branch counter or return stack at its limit",
        "a step or a run, for branch counters, stored returns, open loops or aL",
        &[
            "Increment: each inactive counter gains 1 (from 31: 14)",
            "On a jump: push stores position + 1 (full: 14); pop goes to the stored place (empty: 14).",
            "empty stack of at most 4 returns",
        ],
    )
    .changed_by(&[
        "At most 4 open loops; a fifth push, or a close with none open or of the other kind, gets 14.",
        "LOOP's close also adds the step to its aL on a jump; aL outside 0 to 255 gets 14.",
        "Add it as a mode chosen at the start: ops 1 to 4 and A_OP other than 0 get 13, and inactive counters run 0 to 5 (from 5, increment gets 14).",
    ]),
    entry(
        15,
        "a jump past the program's end, or a program of 0 or over 512 slots or of an odd number of words",
        "loading a program; a step or a run",
        &["The next position may equal N, which ends the program; above N is 15."],
    ),
    entry(
        16,
        "the program has already ended",
        "a step, a run or a kill",
        &["A program has ended when the position is N or above (calls that ask this are given the program); it then gets 16, whatever the list."],
    )
    .changed_by(&[KILL_ORDER]),
    entry(
        17,
        "the session has taken 1,000,000,000 words",
        "any word after the 1,000,000,000th",
        &["Order: 1, then 17, then the rest in table order among those that the present word can cause."],
    ),
    added(
        18,
        "the kind byte of a log's record is neither 1 nor 2",
        "the first byte of a log's record, and every byte after it",
        &[
            "Stations will send a log of records: one byte of kind, then 4 bytes, low byte first. Kind 1 is a command word, kind 2 midnight, the number of the day that begins.",
            "another kind byte is 18. Both stop the replay and drop the open record. What came before stands; later bytes get that number again.",
        ],
    ),
    added(
        19,
        "a midnight's day isn't one more than the last, or it is the 401st midnight",
        "the last byte of a midnight's record, and every byte after it",
        &[
            "The first midnight may name any day; each later one is one more than the last, and at most 400 come in all, else refusal 19 at its last byte",
            "Both stop the replay and drop the open record. What came before stands; later bytes get that number again.",
        ],
    ),
    added(
        20,
        "a party's word sets what it doesn't own",
        "of two parties on one card, party 1's header that sets what is party 0's; the first parameter of set_inp_fmt and set_out_fmt",
        &[
            "Each number is owned by party 0 or 1, fixed when the session begins; masks go with their outputs.",
            "Constant formats and the conditional buffer, mask and test belong to party 0; party 1's header setting them gets 20.",
            "A number one doesn't own gets 20 at its word, after 4. Like 2 to 9, 20 drops the open command and stops.",
            "a stop stops only its party",
        ],
    ),
    added(
        21,
        "a lease line is out of its bounds",
        "a lease line, before its log is read",
        &[
            "a station's log and lease line (first day, days from 1 to 31, elements owed a day, one number for all its days, from 0 to 100,000,000, last day below 2^32, else 21; then 18 or 19 from the log)",
        ],
    ),
    added(
        22,
        "a report is asked for over more than 64 logs",
        "the report of a fleet; the command's `fleet` asks for 64 stations at a time and joins the reports",
        &[
            "Over up to 64 logs with lease lines, and one edition, report totals served and owed as exact sums",
            "Order: 3 for the edition, 11 if the numbers aren't in fours, the room isn't four or the lengths don't add up to the slice, 22 for more than 64 logs, then the refusal of the first station whose log or lease line is refused.",
        ],
    ),
];
