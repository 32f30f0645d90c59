//! Words fed to a session: a mixed stream in pieces of several lengths and word by word, and streams of one command.

use crate::inputs::{domain, instructions, mixed_stream, output, settings, Random};
use crate::table::Table;
use bench::fast::command::{write_command, Command, Format};
use bench::fast::lessees;
use bench::fast::session as fast;
use egretfold::headers::{
    SET_COND_OUT_FMT, SET_CONSTB_FMT, SET_CONSTF_FMT, SET_CONSTI_FMT, SET_INP_FMT, SET_INST_FMT,
    SET_OUT_FMT, START_PROGRAM, WAIT_FOR_IDLE,
};
use egretfold::{Edition, Pair, Party, View};

/// The mixed stream is about this long, a stream of one command about half.
const WORDS: usize = 1 << 16;
/// A mixed stream that is too long to be learnt by the processor's branch prediction.
const LONG: usize = 1 << 20;
/// Every header that sets a format, with how many of its formats there are.
const FORMATS: [(u32, u32); 7] = [
    (SET_INST_FMT, 1),
    (SET_INP_FMT, 16),
    (SET_OUT_FMT, 4),
    (SET_COND_OUT_FMT, 1),
    (SET_CONSTF_FMT, 1),
    (SET_CONSTI_FMT, 1),
    (SET_CONSTB_FMT, 1),
];

pub fn add(table: &mut Table) {
    mixed(table);
    let mut random = Random::new(3);
    let many = WORDS / 2;
    let outputs = |random: &mut Random| {
        let number = random.below(4);
        output(random, number).to_vec()
    };
    single(
        table,
        "only set_out_fmt",
        0,
        &repeated(many, || outputs(&mut random)),
    );
    let domains = repeated(many, || domain(&mut random).to_vec());
    single(table, "only set_domain", 0, &domains);
    let starts = repeated(many, || vec![START_PROGRAM, 0]);
    single(table, "only start_program, 1 output", 1, &starts);
    single(table, "only start_program, 4 outputs", 4, &starts);
    let waits = repeated(many, || vec![WAIT_FOR_IDLE, 0]);
    single(table, "only wait_for_idle", 0, &waits);
    let formats = repeated(many, || instructions(&mut random).to_vec());
    single(table, "only set_inst_fmt", 0, &formats);
}

fn repeated(words: usize, mut command: impl FnMut() -> Vec<u32>) -> Vec<u32> {
    let mut stream = Vec::new();
    while stream.len() < words {
        stream.extend(command());
    }
    stream
}

fn mixed(table: &mut Table) {
    let stream = mixed_stream(WORDS);
    for (name, length) in [
        ("one piece", stream.len()),
        ("pieces of 64", 64),
        ("pieces of 1", 1),
    ] {
        let name = format!("feed, mixed stream, {name}, a word");
        pieces(table, &name, new(), &stream, length);
    }
    let second = (
        egretfold::Session::new(Edition::Second),
        fast::Session::new_in(fast::Edition::Second),
    );
    let name = "feed, mixed stream under edition 2, one piece, a word";
    pieces(table, name, second, &stream, stream.len());
    let name = "feed, mixed stream of 2^20 words, one piece, a word";
    if table.wants_long(name) {
        let long = mixed_stream(LONG);
        line(table, name, new(), &long, long.len());
    }
    let name = "word by word, mixed stream, a word";
    if !table.wants(name) {
        return;
    }
    check_words(&stream);
    table.line(
        name,
        stream.len(),
        || {
            let mut session = egretfold::Session::new(Edition::First);
            stream
                .iter()
                .map(|&word| product_word(&mut session, word))
                .sum()
        },
        || {
            let mut session = fast::Session::new();
            stream
                .iter()
                .map(|&word| rust_word(&mut session, word))
                .sum()
        },
    );
}

#[inline(always)]
fn product_word(session: &mut egretfold::Session, word: u32) -> u64 {
    match session.word(word) {
        Ok(egretfold::Reply::Open) => 0,
        Ok(egretfold::Reply::Done(_)) => 1,
        Err(refusal) => u64::from(refusal) << 32,
    }
}

#[inline(always)]
fn rust_word(session: &mut fast::Session, word: u32) -> u64 {
    match session.word(word) {
        Ok(fast::Reply::Open) => 0,
        Ok(fast::Reply::Done(_)) => 1,
        Err(number) => u64::from(number) << 32,
    }
}

/// A line for a stream of one command, to sessions with this many outputs ready to start (0: new ones).
fn single(table: &mut Table, name: &str, outputs: u32, stream: &[u32]) {
    let name = format!("feed, {name}, one piece, a word");
    let (mut product, mut rust) = new();
    if outputs > 0 {
        product.feed(&settings(outputs));
        rust.feed(&settings(outputs));
    }
    pieces(table, &name, (product, rust), stream, stream.len());
}

/// A session of each side.
type Sessions = (egretfold::Session, fast::Session);

/// New ones, under edition 1.
fn new() -> Sessions {
    (
        egretfold::Session::new(Edition::First),
        fast::Session::new(),
    )
}

/// A line for a stream fed in pieces of one length, to such sessions.
fn pieces(table: &mut Table, name: &str, sessions: Sessions, stream: &[u32], length: usize) {
    if table.wants(name) {
        line(table, name, sessions, stream, length);
    }
}

fn line(
    table: &mut Table,
    name: &str,
    (product_ready, rust_ready): Sessions,
    stream: &[u32],
    length: usize,
) {
    check_pieces(&product_ready, &rust_ready, stream, length);
    table.line(
        name,
        stream.len(),
        || {
            let mut session = product_ready.clone();
            let fed = stream.chunks(length).map(|piece| session.feed(piece));
            fed.map(|fed| fed.taken + fed.commands).sum()
        },
        || {
            let mut session = rust_ready.clone();
            let fed = stream.chunks(length).map(|piece| session.feed(piece));
            fed.map(|fed| fed.taken + fed.commands).sum()
        },
    );
}

/// Feeds the pieces to both sides: equal answers, nothing refused, and equal sessions after each.
fn check_pieces(product: &egretfold::Session, rust: &fast::Session, stream: &[u32], length: usize) {
    let (mut product, mut rust) = (product.clone(), rust.clone());
    for piece in stream.chunks(length) {
        let (by_product, by_rust) = (product.feed(piece), rust.feed(piece));
        let refusal = by_product.refusal.map(u32::from);
        let by_product = (by_product.taken, by_product.commands, refusal);
        let by_rust = (by_rust.taken, by_rust.commands, by_rust.refusal);
        assert_eq!(by_product, by_rust, "feed of {piece:X?}");
        assert_eq!(by_rust.2, None, "the benchmark's streams are good");
        if length > 1 {
            check_sessions(&product, &rust);
        }
    }
    check_sessions(&product, &rust);
}

fn check_words(stream: &[u32]) {
    let mut product = egretfold::Session::new(Edition::First);
    let mut rust = fast::Session::new();
    for &word in stream {
        let by_rust = rust.word(word).map(|reply| match reply {
            fast::Reply::Open => egretfold::Reply::Open,
            fast::Reply::Done(command) => egretfold::Reply::Done(lent_command(&command)),
        });
        assert_eq!(
            product.word(word).map_err(u32::from),
            by_rust,
            "word {word:X}"
        );
    }
    check_sessions(&product, &rust);
}

/// A command as the product shows it: its words, and zeros behind them.
pub fn lent_command(command: &Command) -> egretfold::Command {
    let mut room = [0; 5];
    write_command(command, &mut room).expect("an accepted command can be written");
    let [header, p0, p1, p2, p3] = room;
    egretfold::Command {
        header,
        fields: [p0, p1, p2, p3],
    }
}

/// Tallies, settings and standing of both sessions.
pub fn check_sessions(product: &egretfold::Session, rust: &fast::Session) {
    check_party(product.view(), rust);
    assert_eq!(product.output_mask(), rust.output_mask(), "mask");
}

/// The same of two parties, each with what it owns, and the mask of both.
pub fn check_parties(product: &Pair, rust: &lessees::Pair) {
    for party in Party::BOTH {
        check_party(product.view(party), rust.party(party.number() as usize));
    }
    let mask = product.view(Party::Zero).output_mask();
    assert_eq!(mask, rust.output_mask(), "mask");
}

fn check_party(product: View, rust: &fast::Session) {
    let owned = product.owned();
    let status = product.status();
    assert_eq!(status.taken as usize, rust.taken(), "words taken");
    assert_eq!(status.stopped, rust.stopped(), "stopped");
    assert_eq!(status.open, rust.open(), "open command");
    assert_eq!(product.runs(), rust.runs(), "runs");
    assert_eq!(product.claims(), rust.claims(), "claimed elements");
    let domain = rust.domain().map(|set| [set.i0, set.j0, set.i1, set.j1]);
    assert_eq!(product.domain(), domain, "domain");
    for (header, count) in FORMATS {
        let own = |number: &u32| match header {
            SET_INST_FMT => true,
            SET_INP_FMT => owned.input(*number),
            SET_OUT_FMT => owned.output(*number),
            _ => owned.common,
        };
        for number in (0..count).filter(own) {
            let by_product = product.format(header, number).expect("a format's header");
            let by_product = by_product.map(|set| Format {
                base: set.base,
                word: set.format,
                height: set.height,
            });
            let by_rust = rust.format(header, number as usize);
            assert_eq!(by_product, by_rust, "format {header:X} {number}");
        }
    }
    if owned.common {
        assert_eq!(product.conditional_mask(), rust.conditional_mask());
        assert_eq!(product.test(), rust.test(), "test");
    }
    assert_eq!(status.readiness, rust.readiness(), "readiness");
}
