//! The options that describe a layout, for `address` and `locate`.

use crate::common::failure::{Failure, Outcome};
use crate::common::kinds::Address;
use crate::common::names::Kind;
use crate::common::text;
use crate::explain::cause;
use crate::input::numbers;
use clap::Args;
use egretfold::{headers, Command, Layout, Refusal};

#[derive(Args)]
pub struct LayoutOptions {
    /// The window's first byte, hex, a multiple of 800
    #[arg(long, value_name = "ADDRESS", default_value = "0")]
    base: String,
    /// Elements from row to row before the cut, a multiple of 4
    #[arg(long, value_name = "N", value_parser = numbers::count)]
    pitch: Option<u32>,
    /// Rows of the window
    #[arg(long, value_name = "N", value_parser = numbers::count)]
    height: Option<u32>,
    /// Bytes of an element: 1, 2, 4, 8 or 16
    #[arg(long, value_name = "N", value_parser = numbers::count)]
    size: Option<u32>,
    /// The window is tiled; linear without this
    #[arg(long)]
    tiled: bool,
    /// A format word, hex, in place of pitch, size and tiled
    #[arg(long, value_name = "WORD", value_parser = numbers::word,
          conflicts_with_all = ["pitch", "size", "tiled"])]
    format: Option<u32>,
    /// Base and addresses are given in decimal, not in hex
    #[arg(long)]
    decimal: bool,
}

impl LayoutOptions {
    pub fn layout(&self) -> Outcome<Layout> {
        let base = self
            .address(&self.base)
            .map_err(|text| Failure::Wrong(format!("--base: {text}")))?;
        match (self.format, self.pitch, self.size, self.height) {
            (Some(word), _, _, Some(height)) => {
                judge_format(word)?;
                Ok(text::layout(base, word, height))
            }
            (None, Some(pitch), Some(size), Some(height)) => Ok(Layout {
                base,
                pitch,
                height,
                size,
                tiled: self.tiled,
            }),
            _ => Err(Failure::wrong(
                "a layout needs --pitch, --size and --height, or --format and --height",
            )),
        }
    }

    /// What to try where a base, or an address, was refused that may be meant in
    /// decimal: it has decimal digits alone, and read so it is taken.
    pub fn hint(&self, layout: &Layout, address: Option<&str>) -> Option<String> {
        let base = decimal(&self.base)?;
        let meant = Layout { base, ..*layout };
        if self.decimal || egretfold::layout(&meant).is_err() {
            return None;
        }
        let (option, text, read) = match address {
            _ if egretfold::layout(layout).is_err() => ("--base ", &self.base[..], base),
            Some(text) => ("", text, decimal(text)?),
            None => return None,
        };
        if address.is_some() && option.is_empty() && egretfold::locate(&meant, read).is_err() {
            return None;
        }
        let read = Address(read);
        Some(format!(
            "{option}{text} is read as hex; with --decimal it is {read}"
        ))
    }

    /// An address as the user gives it.
    pub fn address(&self, text: &str) -> Result<u32, String> {
        if self.decimal {
            numbers::count(text)
        } else {
            numbers::word(text)
        }
    }
}

/// The number that decimal digits alone are.
fn decimal(text: &str) -> Option<u32> {
    let digits = text.bytes().all(|byte| byte.is_ascii_digit());
    text.parse().ok().filter(|_| digits)
}

/// Has the product judge a format word, in a command that takes any.
fn judge_format(word: u32) -> Outcome {
    let command = Command {
        header: headers::SET_COND_OUT_FMT,
        fields: [0, word, 1, 0],
    };
    match egretfold::write_command(&command, &mut [0; 5]) {
        Err(Refusal::Malformed) => {
            let cause = cause::reserved(Kind::Format, word);
            Err(Failure::Refused(format!(
                "--format {word:08X}: refused 3, {cause}"
            )))
        }
        // What else there is to say of the window, its own call says.
        _ => Ok(()),
    }
}
