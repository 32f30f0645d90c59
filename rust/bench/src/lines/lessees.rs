//! Pieces of two parties' words, in runs of several lengths.

use super::feed::check_parties;
use crate::inputs::mixed_stream;
use crate::table::Table;
use bench::fast::lessees as fast;
use bench::fast::session::Edition as FastEdition;
use egretfold::headers::{
    SET_COND_OUT_FMT, SET_COND_OUT_MASK, SET_COND_TEST, SET_CONSTB_FMT, SET_CONSTF_FMT,
    SET_CONSTI_FMT, SET_INP_FMT, SET_OUT_FMT,
};
use egretfold::{Edition, Owners, Pair, Party};

/// Each party has a mixed stream of about this many words.
const WORDS: usize = 1 << 15;

/// The upper half of the inputs and of the outputs is party 1's.
const OWNERS: Owners = Owners {
    inputs: 0xFF00,
    outputs: 0xC,
};

/// What is party 0's alone.
const COMMON: [u32; 6] = [
    SET_CONSTF_FMT,
    SET_CONSTI_FMT,
    SET_CONSTB_FMT,
    SET_COND_OUT_FMT,
    SET_COND_OUT_MASK,
    SET_COND_TEST,
];

pub fn add(table: &mut Table) {
    for run in [1, 4, 64] {
        let name = format!("two parties, mixed piece, runs of {run}, a word");
        if table.wants(&name) {
            let (words, parties) = mixed(run);
            check(&words, &parties);
            line(table, &name, &words, &parties);
        }
    }
}

fn line(table: &mut Table, name: &str, words: &[u32], parties: &[u32]) {
    let sum = |taken: u64, commands: u64| taken + commands;
    table.line(
        name,
        words.len(),
        || {
            let mut pair = product();
            let fed = pair.feed_both(words, parties).expect("a group for each 32");
            fed.iter().map(|fed| sum(fed.taken, fed.commands)).sum()
        },
        || {
            let mut pair = rust();
            let fed = pair.feed_both(words, parties).expect("a group for each 32");
            fed.iter().map(|fed| sum(fed.taken, fed.commands)).sum()
        },
    );
}

fn product() -> Pair {
    Pair::new(Edition::First, OWNERS).expect("owners of what there is")
}

fn rust() -> fast::Pair {
    let Owners { inputs, outputs } = OWNERS;
    fast::Pair::new(FastEdition::First, inputs, outputs).expect("owners of what there is")
}

/// The mixed stream for a party: the numbers that it names are its own, and party 1 leaves alone what is party 0's.
fn stream(party: Party) -> Vec<u32> {
    let (mut stream, all) = (Vec::new(), mixed_stream(WORDS));
    let mut at = 0;
    while at < all.len() {
        let after = at + 2 + (all[at] >> 16 & 3) as usize;
        let mut command = all[at..after].to_vec();
        let upper = party.number();
        match command[0] {
            SET_INP_FMT => command[1] = command[1] & 7 | upper << 3,
            SET_OUT_FMT => command[1] = command[1] & 1 | upper << 1,
            _ => {}
        }
        if party == Party::Zero || !COMMON.contains(&command[0]) {
            stream.extend(command);
        }
        at = after;
    }
    stream
}

/// Both parties' words in runs of this length, and whose they are.
fn mixed(run: usize) -> (Vec<u32>, Vec<u32>) {
    let streams = Party::BOTH.map(stream);
    let (mut words, mut parties) = (Vec::new(), Vec::new());
    for (zero, one) in streams[0].chunks(run).zip(streams[1].chunks(run)) {
        for (party, run) in [(Party::Zero, zero), (Party::One, one)] {
            words.extend(run);
            parties.extend(vec![party; run.len()]);
        }
    }
    (words, Party::packed(parties))
}

/// Equal answers, nothing refused, and equal parties.
fn check(words: &[u32], parties: &[u32]) {
    let (mut product, mut rust) = (product(), rust());
    let by_product = product
        .feed_both(words, parties)
        .expect("a group for each 32");
    let by_rust = rust.feed_both(words, parties).expect("a group for each 32");
    for (party, (product, rust)) in by_product.iter().zip(by_rust).enumerate() {
        let refusal = product.refusal.map(u32::from);
        let told = (product.taken, product.commands, refusal);
        assert_eq!(
            told,
            (rust.taken, rust.commands, rust.refusal),
            "party {party}"
        );
        assert_eq!(rust.refusal, None, "the benchmark's streams are good");
    }
    check_parties(&product, &rust);
}
