//! Cases of the third kind: a stream of command words is given to both programs
//! word by word, and answers, settings and tallies are compared; then to fresh
//! sessions in random pieces and uncut, which must come to the same; and under the
//! other edition, which must come to the same but for the claimed elements.

use crate::case::{Agreed, Agreement, Case};
use crate::commands;
use crate::editions;
use crate::settings::{of_product, of_second, Both, Seen};
use crate::starts;
use crate::words;
use crate::writer::for_product;
use egretfold::headers::START_PROGRAM;
use egretfold::{lent, Edition};
use second::command::{write, Command};
use second::session::{Fed, Reply};

pub fn run(case: &mut Case) -> Agreement {
    let edition = editions::any(case);
    let words = words::any(&mut case.random);
    case.tally.add("words", words.len() as u64);
    let by_words = word_by_word(case, Both::new(edition), &words)?;
    let (uncut, whole) = fed_uncut(case, edition, &words)?;
    let in_pieces = fed_in_pieces(case, edition, &words, whole)?;
    let seen = of_product(&by_words.product);
    for (way, both) in [("uncut", &uncut), ("in pieces", &in_pieces)] {
        let asked = || format!("settings after {words:X?} fed {way}");
        case.agree(asked, &of_product(&both.product), &seen)?;
        case.agree(asked, &of_second(&both.second), &seen)?;
    }
    under_the_other_edition(case, edition, &words, whole, &seen)?;
    let kept = by_words.product.status().edition;
    case.agree(|| format!("edition after {words:X?}"), &kept, &edition)?;
    editions::refuse_session(case, &by_words.product, edition)?;
    case.tally.add("starts passed", seen.runs);
    if seen.claims > u64::from(u32::MAX) {
        case.tally.mark("streams that claim 2^32 elements or more");
    }
    case.tally.mark(if seen.stopped {
        "streams refused"
    } else {
        "streams accepted"
    });
    Ok(())
}

/// Gives the words one by one to these sessions, up to the stream's end or some
/// words past the first refusal, and compares every answer.
pub fn word_by_word(case: &mut Case, mut both: Both, words: &[u32]) -> Agreed<Both> {
    let mut header_at = 0;
    let mut patience = case.random.one_of(&[1, 2, 8, 64]);
    for (place, word) in words.iter().enumerate() {
        let asked = || format!("word {place} of {words:X?}");
        let before = both.product.clone();
        let product = both.product.word(*word).map(reply_of_product);
        let expected = both.second.word(*word);
        case.agree_answer(asked, &product, &expected)?;
        match expected {
            Ok(Reply::Open) => {}
            Ok(Reply::Done(command)) => {
                case.tally.mark("commands completed");
                case.tally.mark(commands::name(command.header));
                if command.header == START_PROGRAM {
                    starts::count(case.tally, &both.second);
                }
                written_back(case, &command, &words[header_at..=place])?;
                header_at = place + 1;
            }
            Err(_) => {
                room_untouched(case, before, *word, &both.product)?;
                patience -= 1;
            }
        }
        if !matches!(expected, Ok(Reply::Open)) {
            ready_alike(case, &both, asked)?;
        }
        if case.random.once_in(64) {
            both.agree(case, asked)?;
        }
        if patience == 0 {
            break;
        }
    }
    both.agree(case, || format!("all of {words:X?}"))?;
    Ok(both)
}

pub fn reply_of_product(reply: egretfold::Reply) -> Reply {
    match reply {
        egretfold::Reply::Open => Reply::Open,
        egretfold::Reply::Done(command) => Reply::Done(Command {
            header: command.header,
            fields: command.fields,
        }),
    }
}

/// A completed command gives back the words that it came from, by both writers.
fn written_back(case: &Case, command: &Command, words: &[u32]) -> Agreement {
    let asked = || format!("{command:X?} written back");
    let mut room = [0; 5];
    let product = egretfold::write_command(&for_product(command), &mut room);
    let product = product.map(|count| room[..count.min(5)].to_vec());
    let product = product.map_err(u32::from);
    case.agree(asked, &product, &Ok(words.to_vec()))?;
    case.agree(asked, &product, &write(command, words.len()))
}

/// The refused word once more, to the session before it, with a filled room.
fn room_untouched(
    case: &mut Case,
    mut before: egretfold::Session,
    word: u32,
    after: &egretfold::Session,
) -> Agreement {
    let asked = || format!("refused word {word:#X}");
    let filled = [case.random.word(); 6];
    let mut room = filled;
    lent::session_word(&mut before, word, &mut room);
    case.untouched(asked, &room, &filled)?;
    case.agree(asked, &before, after)
}

/// The stream under the other edition: the same answers and settings, and under edition 2 no fewer claimed elements than
/// under edition 1, and at most four times as many.
fn under_the_other_edition(
    case: &mut Case,
    edition: Edition,
    words: &[u32],
    whole: Fed,
    seen: &Seen,
) -> Agreement {
    let (both, fed) = fed_uncut(case, editions::other(edition), words)?;
    let asked = || format!("{words:X?} under the other edition");
    case.agree(asked, &fed, &whole)?;
    let mut other = of_product(&both.product);
    let (first, second) = match edition {
        Edition::First => (seen.claims, other.claims),
        Edition::Second => (other.claims, seen.claims),
    };
    let bounded = first <= second && second <= 4 * first;
    case.agree(asked, &(first, second, bounded), &(first, second, true))?;
    if first < second {
        case.tally
            .mark("streams whose claims the editions tell apart");
    }
    if second == 4 * first && first > 0 {
        case.tally
            .mark("streams that claim four times as much under edition 2");
    }
    other.claims = seen.claims;
    case.agree(asked, &other, seen)
}

/// The stream as one piece, and what was answered to it.
fn fed_uncut(case: &mut Case, edition: Edition, words: &[u32]) -> Agreed<(Both, Fed)> {
    let mut both = Both::new(edition);
    let fed = fed_piece(case, &mut both, words, words)?;
    Ok((both, fed))
}

/// The stream in pieces, some of them empty. Their sums must be the whole's.
fn fed_in_pieces(case: &mut Case, edition: Edition, words: &[u32], whole: Fed) -> Agreed<Both> {
    let mut both = Both::new(edition);
    let mut sum = Fed {
        taken: 0,
        commands: 0,
        refusal: None,
    };
    let mut left = words;
    while !left.is_empty() {
        let most = (left.len() as u32).min(case.random.one_of(&[1, 4, 16, 64]));
        let (piece, rest) = left.split_at(case.random.between(0, most) as usize);
        let fed = fed_piece(case, &mut both, piece, words)?;
        sum.taken += fed.taken;
        sum.commands += fed.commands;
        // Later pieces get 1, which is no part of the whole's answer.
        sum.refusal = sum.refusal.or(fed.refusal);
        left = rest;
    }
    case.agree(|| format!("pieces of {words:X?}"), &sum, &whole)?;
    Ok(both)
}

fn fed_piece(case: &mut Case, both: &mut Both, piece: &[u32], words: &[u32]) -> Agreed<Fed> {
    let asked = || format!("piece {piece:X?} of {words:X?}");
    let product = both.product.feed(piece);
    let product = Fed {
        taken: product.taken,
        commands: product.commands,
        refusal: product.refusal.map(u32::from),
    };
    let expected = both.second.feed(piece);
    case.agree(asked, &product, &expected)?;
    case.tally.mark("pieces fed");
    ready_alike(case, both, asked)?;
    Ok(expected)
}

/// The stored number against the one that the second program works out from the settings.
fn ready_alike(case: &mut Case, both: &Both, asked: impl Fn() -> String) -> Agreement {
    let asked = || format!("what a start would get after {}", asked());
    let worked_out = both.second.readiness();
    case.agree(asked, &both.product.status().readiness, &worked_out)?;
    case.tally.mark(match worked_out {
        0 => "starts that would pass",
        7 => "starts that would get 7",
        8 => "starts that would get 8",
        _ => "starts that would get 9",
    });
    Ok(())
}
