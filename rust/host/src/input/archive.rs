//! Files of other programs that aren't read, known by their first bytes: no log, no stream of command words and no text begins
//! as they do.

#[derive(Clone, Copy, Debug, PartialEq, Eq)]
pub struct Archive {
    /// What it is.
    what: &'static str,
    /// What to do with it.
    instead: &'static str,
}

const fn archive(what: &'static str, instead: &'static str) -> Archive {
    Archive { what, instead }
}

const TAR: Archive = archive(
    "a tar archive",
    "take its files out by tar -x, and give those",
);
const ZIP: Archive = archive(
    "a zip archive",
    "take its files out by unzip, and give those",
);
const SHEET: Archive = archive(
    "a spreadsheet's own file (xlsx or ods)",
    "save it as CSV in UTF-8 in the spreadsheet, and give that",
);

/// By how they begin.
const BEGINS: [(&[u8], Archive); 5] = [
    (
        b"\xFD7zXZ\0",
        archive("packed by xz", "unpack it by xz -d, or pack it by gzip"),
    ),
    (
        b"BZh",
        archive(
            "packed by bzip2",
            "unpack it by bzip2 -d, or pack it by gzip",
        ),
    ),
    (
        b"\x28\xB5\x2F\xFD",
        archive("packed by zstd", "unpack it by zstd -d, or pack it by gzip"),
    ),
    (
        b"7z\xBC\xAF\x27\x1C",
        archive("a 7z archive", "take its files out by 7z x, and give those"),
    ),
    (b"PK\x03\x04", ZIP),
];

/// What begins with these bytes, where that isn't read.
pub fn named(begin: &[u8]) -> Option<Archive> {
    if is_tar(begin) {
        return Some(TAR);
    }
    let known = BEGINS.iter().find(|(magic, _)| begin.starts_with(magic));
    match known?.1 {
        ZIP if is_sheet(begin) => Some(SHEET),
        archive => Some(archive),
    }
}

impl Archive {
    /// What it is, behind gzip where that packed it, and on a line of its own what to do.
    pub fn told(&self, in_gzip: bool) -> String {
        let gzip = if in_gzip { ", packed by gzip" } else { "" };
        format!("is {}{gzip}\n  {}", self.what, self.instead)
    }
}

/// A zip archive whose first file is one that spreadsheets put there.
fn is_sheet(begin: &[u8]) -> bool {
    const NAME: usize = 30;
    let name = begin.get(NAME..).unwrap_or(&[]);
    let firsts: [&[u8]; 5] = [
        b"[Content_Types].xml",
        b"xl/",
        b"_rels/",
        b"docProps/",
        b"mimetypeapplication/vnd.oasis",
    ];
    firsts.iter().any(|first| name.starts_with(first))
}

/// A tar archive's first block has the sum of its own bytes in it, where those of the sum are blanks.
fn is_tar(begin: &[u8]) -> bool {
    const BLOCK: usize = 512;
    const SUM: std::ops::Range<usize> = 148..156;
    let block = match begin.get(..BLOCK) {
        Some(block) if block[257..].starts_with(b"ustar") => block,
        _ => return false,
    };
    let sum: u32 = block.iter().map(|byte| u32::from(*byte)).sum();
    let own: u32 = block[SUM].iter().map(|byte| u32::from(*byte)).sum();
    let blanks = u32::from(b' ') * SUM.len() as u32;
    let told = String::from_utf8_lossy(&block[SUM]);
    let told = told.trim_matches(|letter: char| letter == ' ' || letter == '\0');
    u32::from_str_radix(told, 8) == Ok(sum - own + blanks)
}
