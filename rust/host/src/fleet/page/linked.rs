//! The cards of a large fleet, which are files beside its page.

use crate::common::text;
use crate::fleet::cards;
use crate::fleet::page::escaped;
use std::fs;
use std::os::unix::ffi::OsStrExt;
use std::path::{Component, Path, PathBuf};

/// With more stations the page has no card in itself: each has some thirty thousand bytes.
pub const WHOLE: usize = 100;

/// Where the cards' files are, as the page leads to them.
pub struct Linked {
    folder: String,
}

/// The folder beside a page: of april.html it is april-cards.
pub fn beside(page: &Path) -> PathBuf {
    let mut name = page.file_stem().unwrap_or_default().to_os_string();
    name.push("-cards");
    page.with_file_name(name)
}

impl Linked {
    /// From this page to this folder, both of which are there or in folders that are.
    pub fn new(page: &Path, folder: &Path) -> Linked {
        let from = page.parent().filter(|parent| *parent != Path::new(""));
        let from = fs::canonicalize(from.unwrap_or_else(|| Path::new(".")));
        let to = fs::canonicalize(folder);
        let folder = match (from, to) {
            (Ok(from), Ok(to)) => relative(&from, &to),
            _ => folder.to_path_buf(),
        };
        Linked {
            folder: address(&folder),
        }
    }

    /// Where a station's card is.
    pub fn card(&self, station: &str) -> String {
        let name = address(Path::new(&cards::name_of(station)));
        format!("{}{name}", self.folder_with_slash())
    }

    fn folder_with_slash(&self) -> String {
        if self.folder.is_empty() {
            "./".to_string()
        } else {
            format!("{}/", self.folder)
        }
    }

    /// What the page says of them, in place of the cards.
    pub fn told(&self) -> String {
        let folder = escaped(&self.folder_with_slash());
        let most = text::count(WHOLE as u64, "station");
        format!(
            "<p class=\"pale\">Of more than {most} the cards are files beside this page, in {folder}: a station's name leads to its card.</p>\n"
        )
    }
}

/// The way from a folder to another, both absolute and without links.
fn relative(from: &Path, to: &Path) -> PathBuf {
    let same = from
        .components()
        .zip(to.components())
        .take_while(|(one, other)| one == other)
        .count();
    let up = from.components().skip(same).map(|_| Component::ParentDir);
    let down = to.components().skip(same);
    up.chain(down).collect()
}

/// A path as an address has it: bytes that may mean something else there stand as %2F does.
fn address(path: &Path) -> String {
    let plain = |byte: u8| byte.is_ascii_alphanumeric() || b"-._~/".contains(&byte);
    let bytes = path.as_os_str().as_bytes().iter();
    let letter = |byte: &u8| {
        if plain(*byte) {
            char::from(*byte).to_string()
        } else {
            format!("%{byte:02X}")
        }
    };
    bytes.map(letter).collect()
}

#[cfg(test)]
mod tests {
    use super::*;

    #[test]
    fn the_way_from_a_page_to_its_cards() {
        for (from, to, due) in [
            ("/a/b", "/a/b/cards", "cards"),
            ("/a/b", "/a/b", ""),
            ("/a/b", "/a/c/d", "../c/d"),
            ("/", "/x", "x"),
            ("/a/b/c", "/x", "../../../x"),
        ] {
            assert_eq!(relative(Path::new(from), Path::new(to)), Path::new(due));
        }
    }

    #[test]
    fn an_address_has_nothing_that_means_something_else() {
        assert_eq!(
            address(Path::new("a b/ü?#%&\"<.svg")),
            "a%20b/%C3%BC%3F%23%25%26%22%3C.svg"
        );
    }

    #[test]
    fn cards_stand_in_a_folder_that_is_called_as_the_page() {
        for (page, due) in [
            ("april.html", "april-cards"),
            ("out/april.html", "out/april-cards"),
            ("april", "april-cards"),
        ] {
            assert_eq!(beside(Path::new(page)), Path::new(due));
        }
    }
}
