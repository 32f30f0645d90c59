//! A card's figures inside of it, for programs: the lines that `score --json` prints, in an element that no viewer shows. They
//! are those of the card as it is drawn, so that what is shown and what is read come from one place.

use crate::score::asked::{Card, Unscored};
use crate::score::checks::Check;
use crate::score::month::{Began, Score};
use crate::score::picture::file_name;
use crate::score::picture::unscored::without_folders;
use crate::score::rows;
use serde_json::{json, Value};

const BEGIN: &str = "<metadata data-by=\"egretfold\">\n";
const END: &str = "</metadata>\n";

/// A card as it is printed: files go by their names, without the folders that they are in.
pub fn printed(card: &Card) -> Card {
    match card {
        Card::Scored(score) => Card::Scored(printed_score(score)),
        Card::Unscored(unscored) => Card::Unscored(printed_unscored(unscored)),
    }
}

fn printed_score(score: &Score) -> Score {
    let inputs: Vec<String> = score.inputs.iter().map(|path| file_name(path)).collect();
    let state = score.began.iter().map(|began| began.state.clone());
    let paths: Vec<String> = score.inputs.iter().cloned().chain(state).collect();
    let began = score.began.as_ref().map(|began| Began {
        state: file_name(&began.state),
        sha256: began.sha256.clone(),
    });
    let check = |check: &Check| Check {
        text: without_folders(&check.text, &paths),
        ..check.clone()
    };
    Score {
        began,
        log: json!({ "inputs": inputs }),
        inputs,
        checks: score.checks.iter().map(check).collect(),
        ..score.clone()
    }
}

fn printed_unscored(unscored: &Unscored) -> Unscored {
    let paths = &unscored.inputs;
    let mut refusal = unscored.refusal.clone();
    if let Some(Value::String(input)) = refusal.get_mut("input") {
        *input = file_name(input);
    }
    Unscored {
        inputs: paths.iter().map(|path| file_name(path)).collect(),
        why: without_folders(&unscored.why, paths),
        refusal,
        log: Value::Null,
        ..unscored.clone()
    }
}

/// The block of a card that is printed so.
pub fn of(printed: &Card) -> String {
    let mut lines = Vec::new();
    // Writing to memory can't fail.
    let _ = rows::json(printed, &mut lines);
    let lines = String::from_utf8_lossy(&lines);
    format!("{BEGIN}{}{END}", escaped(&lines))
}

/// JSON that may stand in XML and in HTML: what means something there stands in texts alone, which may spell it otherwise.
fn escaped(json: &str) -> String {
    let mut escaped = String::with_capacity(json.len());
    for letter in json.chars() {
        match letter {
            '<' | '>' | '&' | '\u{FFFE}' | '\u{FFFF}' => {
                escaped.push_str(&format!("\\u{:04x}", letter as u32));
            }
            _ => escaped.push(letter),
        }
    }
    escaped
}

/// The card's text before its block, the lines of the block, and the text behind it; or why there is no such block.
pub fn parted(card: &str) -> Result<(&str, &str, &str), String> {
    let count = card.matches("<metadata").count();
    let begin = card.split_once(BEGIN).filter(|_| count == 1);
    let parts = begin.and_then(|(before, behind)| {
        let (lines, behind) = behind.split_once(END)?;
        Some((before, lines, behind))
    });
    parts.ok_or_else(|| match count {
        0 => "has no block of figures: an egretfold that writes none made it, or the block was taken out".to_string(),
        1 => "its block of figures is cut, or isn't one of ours".to_string(),
        count => format!("has {count} blocks of figures, where a card has one"),
    })
}

#[cfg(test)]
mod tests {
    use super::{escaped, parted, BEGIN, END};

    #[test]
    fn what_means_something_in_xml_is_spelled_otherwise() {
        let json = r#"{"a":"<b> & \u0001\uFFFE"}"#.replace("\\uFFFE", "\u{FFFE}");
        assert_eq!(
            escaped(&json),
            r#"{"a":"\u003cb\u003e \u0026 \u0001\ufffe"}"#
        );
    }

    #[test]
    fn a_card_has_one_block() {
        let block = format!("{BEGIN}lines\n{END}");
        assert_eq!(parted(&format!("a{block}b")), Ok(("a", "lines\n", "b")));
        for (card, told) in [
            ("a", "has no block"),
            (BEGIN, "is cut"),
            ("<metadata>x</metadata>\n", "isn't one of ours"),
            (&format!("{block}{block}"), "has 2 blocks"),
            (&format!("<metadata/>{block}"), "has 2 blocks"),
        ] {
            let is = parted(card).expect_err("no block");
            assert!(is.contains(told), "{card}: {is}");
        }
    }
}
