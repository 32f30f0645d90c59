//! Pictures as files: PGM and PPM, in which people see them, and the elements' bytes
//! as they stand. What one of these writes it reads back byte for byte.
//!
//! PGM is grey, for elements of one byte or of two, which it has high byte first. PPM
//! has three bytes a pixel, for elements of four: its channels are 0, 1 and 2, and
//! channel 3 isn't in the picture; on the way back it stays as it stands in memory.

use std::fmt;

#[derive(Clone, Copy, Debug, PartialEq, Eq)]
pub enum Form {
    Pgm,
    Ppm,
    Raw,
}

impl Form {
    pub fn named(name: &str) -> Result<Form, String> {
        match name.to_ascii_lowercase().as_str() {
            "pgm" => Ok(Form::Pgm),
            "ppm" => Ok(Form::Ppm),
            "raw" => Ok(Form::Raw),
            _ => Err(format!("{name:?} is none of pgm, ppm and raw")),
        }
    }

    /// What a file's first bytes say it is.
    pub fn of_begin(bytes: &[u8]) -> Form {
        match bytes.get(..2) {
            Some(b"P5") => Form::Pgm,
            Some(b"P6") => Form::Ppm,
            _ => Form::Raw,
        }
    }

    /// The form that shows elements of this size.
    pub fn for_size(size: u32) -> Form {
        match size {
            1 | 2 => Form::Pgm,
            4 => Form::Ppm,
            _ => Form::Raw,
        }
    }

    /// Whether it holds elements of this size.
    pub fn takes(self, size: u32) -> bool {
        match self {
            Form::Pgm => matches!(size, 1 | 2),
            Form::Ppm => size == 4,
            Form::Raw => true,
        }
    }

    /// What it holds, in words.
    pub fn holds(self) -> &'static str {
        match self {
            Form::Pgm => "elements of 1 or 2 bytes",
            Form::Ppm => "elements of 4 bytes",
            Form::Raw => "elements of any size",
        }
    }

    /// Bytes of a pixel in the file.
    fn pixel(self, size: usize) -> usize {
        match self {
            Form::Ppm => 3,
            Form::Pgm | Form::Raw => size,
        }
    }
}

impl fmt::Display for Form {
    fn fmt(&self, f: &mut fmt::Formatter) -> fmt::Result {
        f.write_str(match self {
            Form::Pgm => "PGM",
            Form::Ppm => "PPM",
            Form::Raw => "raw",
        })
    }
}

/// The file of a picture so many columns wide and rows high: its elements, `size` bytes
/// each, row by row.
pub fn file(form: Form, (columns, rows): (u32, u32), size: u32, elements: &[u8]) -> Vec<u8> {
    let (letter, most) = match form {
        Form::Raw => return elements.to_vec(),
        Form::Pgm if size == 2 => ('5', 65_535),
        Form::Pgm => ('5', 255),
        Form::Ppm => ('6', 255),
    };
    let mut bytes = format!("P{letter}\n{columns} {rows}\n{most}\n").into_bytes();
    for element in elements.chunks_exact(size as usize) {
        match form {
            Form::Ppm => bytes.extend(&element[..3]),
            _ => bytes.extend(element.iter().rev()),
        }
    }
    bytes
}

/// Puts a file's pixels into the elements; what isn't in them stays. What is wrong
/// with the file is told with what was due.
pub fn elements_of(
    form: Form,
    sides: (u32, u32),
    size: u32,
    file: &[u8],
    elements: &mut Vec<u8>,
) -> Result<(), String> {
    if form == Form::Raw {
        // The product judges how long it is.
        *elements = file.to_vec();
        return Ok(());
    }
    let size = size as usize;
    let head = Head::read(form, file)?;
    if (head.columns, head.rows) != (u64::from(sides.0), u64::from(sides.1)) {
        let Head { columns, rows, .. } = head;
        return Err(format!(
            "the picture is {columns} x {rows}, and the rectangle {} x {}: give \
             --rectangle X,Y,{columns},{rows}, or another picture",
            sides.0, sides.1
        ));
    }
    let most = if form == Form::Pgm && size == 2 {
        65_535
    } else {
        255
    };
    if head.most != most {
        let given = head.most;
        return Err(format!(
            "its largest value is {given}, and {form} of these elements has {most}"
        ));
    }
    let pixels = &file[head.length..];
    let due = elements.len() / size * form.pixel(size);
    if pixels.len() != due {
        let given = pixels.len();
        return Err(format!("it has {given} bytes of pixels, and {due} are due"));
    }
    let pixels = pixels.chunks_exact(form.pixel(size));
    for (element, pixel) in elements.chunks_exact_mut(size).zip(pixels) {
        match form {
            Form::Ppm => element[..3].copy_from_slice(pixel),
            _ => {
                for (byte, pixel) in element.iter_mut().rev().zip(pixel) {
                    *byte = *pixel;
                }
            }
        }
    }
    Ok(())
}

/// A file's head, up to the one blank before its pixels.
struct Head {
    columns: u64,
    rows: u64,
    most: u64,
    length: usize,
}

impl Head {
    fn read(form: Form, file: &[u8]) -> Result<Head, String> {
        let begin: &[u8] = if form == Form::Pgm { b"P5" } else { b"P6" };
        if !file.starts_with(begin) {
            return Err(format!("it doesn't begin as {form} does"));
        }
        let mut at = begin.len();
        let mut number = |what: &str| {
            at = behind_gap(file, at).ok_or(format!("its head ends before the {what}"))?;
            let digits = file[at..].iter().take_while(|byte| byte.is_ascii_digit());
            let end = at + digits.count();
            let text = String::from_utf8_lossy(&file[at..end]).into_owned();
            at = end;
            text.parse::<u64>()
                .map_err(|_| format!("its head has no {what} where one is due"))
        };
        let (columns, rows) = (number("width")?, number("height")?);
        let most = number("largest value")?;
        match file.get(at) {
            Some(byte) if byte.is_ascii_whitespace() => Ok(Head {
                columns,
                rows,
                most,
                length: at + 1,
            }),
            _ => Err("its head doesn't end behind the largest value".to_string()),
        }
    }
}

/// Where the blanks and remarks from here on end; none where there are no blanks.
fn behind_gap(file: &[u8], from: usize) -> Option<usize> {
    let mut at = from;
    while let Some(byte) = file.get(at) {
        match byte {
            b'#' => at += file[at..].iter().take_while(|byte| **byte != b'\n').count(),
            byte if byte.is_ascii_whitespace() => at += 1,
            _ => break,
        }
    }
    (at > from && at < file.len()).then_some(at)
}

#[cfg(test)]
mod tests {
    use super::*;

    #[test]
    fn what_is_written_is_read_back() {
        for (form, size) in [
            (Form::Pgm, 1),
            (Form::Pgm, 2),
            (Form::Ppm, 4),
            (Form::Raw, 1),
            (Form::Raw, 8),
            (Form::Raw, 16),
        ] {
            let elements: Vec<u8> = (0..6 * size).map(|k| (k * 37 + 11) as u8).collect();
            let written = file(form, (3, 2), size, &elements);
            // The fourth channel comes from what stands there.
            let mut back = elements.clone();
            if form != Form::Ppm {
                back.fill(0);
            }
            assert_eq!(elements_of(form, (3, 2), size, &written, &mut back), Ok(()));
            assert_eq!(back, elements, "{form} of {size}");
            assert_eq!(file(form, (3, 2), size, &back), written);
        }
    }

    #[test]
    fn two_bytes_are_high_byte_first_in_pgm() {
        let written = file(Form::Pgm, (1, 1), 2, &[0x02, 0x01]);
        assert_eq!(written, b"P5\n1 1\n65535\n\x01\x02");
    }

    #[test]
    fn heads_may_have_remarks() {
        let written = b"P6 # made by hand\n 1\t2\r\n# more\n255\n\x01\x02\x03\x04\x05\x06";
        let mut elements = vec![9; 8];
        let read = elements_of(Form::Ppm, (1, 2), 4, written, &mut elements);
        assert_eq!((read, elements), (Ok(()), vec![1, 2, 3, 9, 4, 5, 6, 9]));
    }

    #[test]
    fn what_is_wrong_with_a_file_is_told() {
        for (written, told) in [
            (&b"P6\n1 1\n255\n\x01"[..], "doesn't begin as PGM"),
            (b"P5", "ends before the width"),
            (b"P5\n1 ", "ends before the height"),
            (b"P5\n1 x\n255\n", "no height"),
            (b"P51 1\n255\n\x01", "before the width"),
            (b"P5\n1 1\n255", "doesn't end behind"),
            (
                b"P5\n2 1\n255\n\x01\x02",
                "is 2 x 1, and the rectangle 1 x 1",
            ),
            (b"P5\n1 1\n15\n\x01", "largest value is 15"),
            (b"P5\n1 1\n255\n", "has 0 bytes of pixels, and 1 are due"),
            (b"P5\n1 1\n255\n\x01\x02", "has 2 bytes"),
            (b"P5\n99999999999999999999 1\n255\n\x01", "no width"),
        ] {
            let mut elements = vec![9];
            let read = elements_of(Form::Pgm, (1, 1), 1, written, &mut elements);
            let text = read.expect_err("it is refused");
            assert!(text.contains(told), "{text} for {told}");
            assert_eq!(elements, [9]);
        }
    }
}
