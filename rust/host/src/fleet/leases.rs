//! The lease file: a row a station, as a spreadsheet writes it. All that is wrong with it
//! is told at once.

use crate::common::failure::{Failure, Outcome};
use crate::common::sheet;
use crate::common::text;
use crate::common::visible;
use crate::fleet::spool::{Spool, Stored};
use crate::fleet::{cells, files, states};
use crate::input::source::Source;
use crate::score::asked::{Asked, LeaseLine};
use crate::score::civil::Date;
use crate::score::issue::Issue;
use csv::{ByteRecord, ReaderBuilder};
use egretfold::{Edition, Lease};
use std::collections::hash_map::DefaultHasher;
use std::collections::HashMap;
use std::hash::{Hash, Hasher};
use std::io;
use std::path::{Path, PathBuf};

/// More than any fleet's: this is no lease file.
const LONGEST: usize = 1 << 24;

/// How text of two bytes a letter begins.
const WIDE: [[u8; 2]; 2] = [[0xFF, 0xFE], [0xFE, 0xFF]];
const MARK: [u8; 3] = [0xEF, 0xBB, 0xBF];

/// A column: what it is called, and how else.
struct Column {
    names: &'static [&'static str],
    wanted: bool,
}

const fn column(names: &'static [&'static str], wanted: bool) -> Column {
    Column { names, wanted }
}

const STATION: usize = 0;
const LESSEE: usize = 1;
const LOG: usize = 2;
const FIRST_DAY: usize = 3;
const DAYS: usize = 4;
const OWED: usize = 5;
const FIRST_DATE: usize = 6;
const STATE: usize = 7;
const LEASE: usize = 8;
const ZONE: usize = 9;

const COLUMNS: [Column; 10] = [
    column(&["station"], true),
    column(&["lessee"], false),
    column(&["log", "logs", "log file", "log files"], true),
    column(&["first day"], true),
    column(&["days"], true),
    column(&["owed", "owed a day"], true),
    column(&["first date", "from"], false),
    column(&["state"], false),
    column(&["lease", "lease number"], false),
    column(&["time zone", "timezone"], false),
];

/// A station's row.
pub struct Row {
    /// Where it stands in the file, from 1 on.
    pub line: u64,
    pub asked: Asked,
    /// Where its state is saved.
    pub save: Option<PathBuf>,
    pub lease: Lease,
}

impl Row {
    pub fn station(&self) -> &str {
        self.asked.issue.station.as_deref().unwrap_or_default()
    }

    /// A date for each day of the lease, or none for all of them; that they can be had is
    /// judged as the row is read.
    pub fn dates(&self) -> Outcome<Vec<Option<Date>>> {
        self.asked.dates(&self.lease).map_err(Failure::Wrong)
    }
}

impl Stored for Row {
    fn store(&self, to: &mut Vec<u8>) {
        self.line.store(to);
        self.save.store(to);
        let asked = &self.asked;
        asked.edition.store(to);
        asked.line.store(to);
        asked.from.store(to);
        asked.resume.store(to);
        asked.saves.store(to);
        asked.repeats.store(to);
        asked.files.store(to);
        asked.issue.store(to);
    }

    fn take(from: &mut &[u8]) -> Option<Row> {
        let (line, save) = (u64::take(from)?, Stored::take(from)?);
        let asked = Asked {
            edition: Stored::take(from)?,
            line: Stored::take(from)?,
            from: Stored::take(from)?,
            resume: Stored::take(from)?,
            saves: Stored::take(from)?,
            repeats: Stored::take(from)?,
            files: Stored::take(from)?,
            // No row tells of it.
            called: None,
            issue: Stored::take(from)?,
        };
        Some(Row {
            line,
            save,
            lease: asked.lease().ok()?,
            asked,
        })
    }
}

/// The stations' rows, in their order.
pub struct Rows {
    spool: Spool,
    count: usize,
}

impl Rows {
    pub fn new() -> Rows {
        Rows {
            spool: Spool::new(),
            count: 0,
        }
    }

    /// Puts a row behind these and answers where it stands.
    pub fn push(&mut self, row: &Row) -> io::Result<u64> {
        self.count += 1;
        self.spool.put(row)
    }

    pub fn len(&self) -> usize {
        self.count
    }

    pub fn iter(&self) -> impl Iterator<Item = io::Result<Row>> + '_ {
        self.spool.all()
    }
}

/// What is wrong, and where.
pub struct Fault {
    line: u64,
    column: String,
    cause: String,
}

pub fn fault(line: u64, column: &str, cause: impl ToString) -> Fault {
    Fault {
        line,
        column: column.to_string(),
        cause: cause.to_string(),
    }
}

pub struct Leases {
    /// The file's name.
    name: String,
    pub rows: Rows,
    /// The stations' names, each by a number that two of them hardly share, and where its row stands.
    names: Vec<(u64, u64)>,
    faults: Vec<Fault>,
}

impl Leases {
    /// The rows, each completed with what isn't told in the file.
    pub fn read(file: &Path, by: (Edition, Date), complete: impl Fn(&mut Row)) -> Outcome<Leases> {
        let mut source = Source::open(Some(file))?;
        let bytes = source.all(LONGEST)?;
        if WIDE.iter().any(|begin| bytes.starts_with(begin)) {
            let hint = "has two bytes a letter; save it as CSV in UTF-8";
            return Err(source.wrong(hint.to_string()));
        }
        let mut leases = Leases {
            name: source.name.clone(),
            rows: Rows::new(),
            names: Vec::new(),
            faults: Vec::new(),
        };
        let folder = file.parent().unwrap_or_else(|| Path::new(""));
        let text = bytes.strip_prefix(&MARK).unwrap_or(&bytes);
        leases.read_rows(text, folder, by, complete)?;
        leases.told_twice()?;
        Ok(leases)
    }

    pub fn add_faults(&mut self, faults: Vec<Fault>) {
        self.faults.extend(faults);
    }

    /// The rows, or all that is wrong.
    pub fn rows(mut self) -> Outcome<Rows> {
        if self.faults.is_empty() {
            return Ok(self.rows);
        }
        self.faults.sort_by_key(|fault| fault.line);
        let count = text::count(self.faults.len() as u64, "fault");
        let mut text = format!("{}: {count}, so no log is read", self.name);
        for fault in &self.faults {
            let (line, column) = (fault.line, visible::line(&fault.column));
            let cause = visible::line(&fault.cause);
            let column = if column.is_empty() {
                String::new()
            } else {
                format!(", {column}")
            };
            text += &format!("\n  line {line}{column}: {cause}");
        }
        Err(Failure::Wrong(text))
    }

    fn read_rows(
        &mut self,
        text: &[u8],
        folder: &Path,
        by: (Edition, Date),
        complete: impl Fn(&mut Row),
    ) -> Outcome {
        let delimiter = delimiter(text);
        let mut reader = ReaderBuilder::new()
            .has_headers(false)
            .flexible(true)
            .delimiter(delimiter)
            .from_reader(text);
        let mut header: Option<Header> = None;
        let mut lines = LineCount::of(text);
        for record in reader.byte_records() {
            let record = match record {
                Ok(record) => record,
                Err(error) => {
                    self.faults.push(fault(0, "", error));
                    return Ok(());
                }
            };
            let line = record
                .position()
                .map_or(0, |position| lines.at(position.byte()));
            if record
                .iter()
                .all(|value| value.trim_ascii_blanks().is_empty())
            {
                continue;
            }
            match &header {
                None => header = self.header(line, &record),
                Some(header) => {
                    let reading = Reading {
                        line,
                        record: &record,
                        header,
                        delimiter,
                        faults: &mut self.faults,
                    };
                    if let Some(mut row) = reading.row(folder, by) {
                        complete(&mut row);
                        let at = self.rows.push(&row)?;
                        self.names.push((number_of(row.station()), at));
                    }
                }
            }
            // Without a header no row can be read.
            if header.is_none() {
                return Ok(());
            }
        }
        if header.is_none() {
            let due =
                "is empty; the first row names the columns station, log, first day, days and owed";
            self.faults.push(fault(1, "", due));
        } else if self.rows.len() == 0 && self.faults.is_empty() {
            self.faults
                .push(fault(1, "", "there is no row below the header"));
        }
        Ok(())
    }

    /// Which column stands where.
    fn header(&mut self, line: u64, record: &ByteRecord) -> Option<Header> {
        let before = self.faults.len();
        let mut places = [None; COLUMNS.len()];
        for (place, value) in record.iter().enumerate() {
            let name = spelled(&String::from_utf8_lossy(value));
            let known = COLUMNS
                .iter()
                .position(|column| column.names.contains(&&*name));
            match known {
                Some(known) if places[known].is_some() => {
                    self.faults.push(fault(line, &name, "stands there twice"));
                }
                Some(known) => places[known] = Some(place),
                None => {}
            }
        }
        for (column, place) in COLUMNS.iter().zip(places) {
            let name = column.names[0];
            let like = record
                .iter()
                .map(|value| spelled(&String::from_utf8_lossy(value)));
            let like = like
                .rev()
                .find(|other| !is_known(other) && likest(other) == Some(name));
            match (place, like) {
                (None, Some(like)) => {
                    let cause = format!("there is none; {like:?} may be it");
                    self.faults.push(fault(line, name, cause));
                }
                (None, None) if column.wanted => {
                    self.faults
                        .push(fault(line, name, "there is no such column"));
                }
                _ => {}
            }
        }
        (self.faults.len() == before).then(|| Header {
            places,
            width: record.len(),
        })
    }

    /// No station has two rows.
    fn told_twice(&mut self) -> io::Result<()> {
        let mut names = std::mem::take(&mut self.names);
        names.sort_unstable();
        // Those alone that share their number with another are looked at.
        let is_shared = |place: usize| {
            let beside = [place.wrapping_sub(1), place + 1].map(|place| names.get(place));
            let mut numbers = beside.iter().flatten().map(|(number, _)| *number);
            numbers.any(|number| number == names[place].0)
        };
        let shared = (0..names.len()).filter(|place| is_shared(*place));
        let shared = shared.map(|place| names[place].1);
        let mut lines: HashMap<String, u64> = HashMap::new();
        for at in shared {
            let (row, _) = self.rows.spool.get::<Row>(at)?;
            let first = *lines.entry(row.station().to_string()).or_insert(row.line);
            if first != row.line {
                let cause = format!("{:?} stands in line {first} too", row.station());
                self.faults.push(fault(row.line, "station", cause));
            }
        }
        Ok(())
    }
}

/// A number for a name.
fn number_of(name: &str) -> u64 {
    let mut hasher = DefaultHasher::new();
    name.hash(&mut hasher);
    hasher.finish()
}

/// What parts the values: what the first line has most of.
fn delimiter(text: &[u8]) -> u8 {
    let is_end = |byte: &u8| matches!(byte, b'\n' | b'\r');
    let line = text
        .split(is_end)
        .find(|line| !line.is_empty())
        .unwrap_or(&[]);
    let count = |delimiter: u8| line.iter().filter(|byte| **byte == delimiter).count();
    let most = [b',', b';', b'\t'].into_iter().rev();
    most.max_by_key(|delimiter| count(*delimiter))
        .unwrap_or(b',')
}

/// The lines of a text, counted as its places grow. A line ends as spreadsheets have it: with both bytes, or with one of them.
struct LineCount<'a> {
    text: &'a [u8],
    at: usize,
    line: u64,
}

impl LineCount<'_> {
    fn of(text: &[u8]) -> LineCount<'_> {
        LineCount {
            text,
            at: 0,
            line: 1,
        }
    }

    /// The line of a record. The library lets it begin among the line ends before it, where its own count of lines is too low.
    fn at(&mut self, byte: u64) -> u64 {
        let is_end = |byte: &u8| matches!(byte, b'\n' | b'\r');
        let begin = self.text.iter().skip(byte as usize);
        let begin = byte as usize + begin.take_while(|byte| is_end(byte)).count();
        for place in self.at..begin {
            let two = (self.text[place], self.text.get(place + 1));
            self.line += u64::from(is_end(&two.0) && two != (b'\r', Some(&b'\n')));
        }
        self.at = begin;
        self.line
    }
}

/// A column's name as it is compared: small letters, and one blank between words.
fn spelled(name: &str) -> String {
    let words = name.split(|letter: char| !letter.is_alphanumeric());
    let words: Vec<&str> = words.filter(|word| !word.is_empty()).collect();
    words.join(" ").to_lowercase()
}

fn is_known(name: &str) -> bool {
    COLUMNS.iter().any(|column| column.names.contains(&name))
}

/// The column that a name which none has may be meant for.
fn likest(name: &str) -> Option<&'static str> {
    const LIKE: f64 = 0.8;
    let columns = COLUMNS.iter().map(|column| column.names[0]);
    let columns = columns.map(|column| (strsim::jaro_winkler(name, column), column));
    let likest = columns.max_by(|one, other| one.0.total_cmp(&other.0));
    let likest = likest.filter(|(like, _)| !name.is_empty() && *like > LIKE);
    likest.map(|(_, column)| column)
}

struct Header {
    places: [Option<usize>; COLUMNS.len()],
    width: usize,
}

trait Blanks {
    fn trim_ascii_blanks(&self) -> &[u8];
}

impl Blanks for [u8] {
    fn trim_ascii_blanks(&self) -> &[u8] {
        let is_blank = |byte: &u8| byte.is_ascii_whitespace();
        let begin = self.iter().position(|byte| !is_blank(byte));
        let end = self.iter().rposition(|byte| !is_blank(byte));
        match (begin, end) {
            (Some(begin), Some(end)) => &self[begin..=end],
            _ => &[],
        }
    }
}

/// A row being read.
struct Reading<'a> {
    line: u64,
    record: &'a ByteRecord,
    header: &'a Header,
    delimiter: u8,
    faults: &'a mut Vec<Fault>,
}

impl Reading<'_> {
    fn wrong<T>(&mut self, column: usize, cause: impl ToString) -> Option<T> {
        let name = COLUMNS[column].names[0];
        self.faults.push(fault(self.line, name, cause));
        None
    }

    /// The value in a column, none where it is blank or there is no such column.
    fn value(&mut self, column: usize) -> Option<String> {
        let value = self.record.get(self.header.places[column]?)?;
        match std::str::from_utf8(value) {
            Ok(text) => Some(sheet::read(text.trim()).to_string()).filter(|text| !text.is_empty()),
            Err(_) => self.wrong(column, "isn't UTF-8; save the file as CSV in UTF-8"),
        }
    }

    /// The value in a column, which must be there.
    fn needed(&mut self, column: usize) -> Option<String> {
        let before = self.faults.len();
        match self.value(column) {
            None if self.faults.len() == before => self.wrong(column, "is blank"),
            value => value,
        }
    }

    fn number(&mut self, column: usize) -> Option<u32> {
        let text = self.needed(column)?;
        match cells::count(&text, self.delimiter) {
            Ok(number) => Some(number),
            Err(cause) => self.wrong(column, cause),
        }
    }

    fn row(mut self, folder: &Path, by: (Edition, Date)) -> Option<Row> {
        let before = self.faults.len();
        if self.record.len() != self.header.width {
            let (has, due) = (self.record.len(), self.header.width);
            let cause = format!("the row has {has} values and the header {due}");
            self.faults.push(fault(self.line, "", cause));
            return None;
        }
        let station = self.needed(STATION);
        let [lessee, number, zone] = [LESSEE, LEASE, ZONE].map(|column| self.value(column));
        let files = self.files(folder);
        let numbers = [FIRST_DAY, DAYS, OWED].map(|column| self.number(column));
        let from = self.date();
        // Each of them is told.
        let line = match numbers {
            [Some(first_day), Some(days), Some(owed)] => LeaseLine {
                first_day,
                days,
                owed,
            },
            _ => return None,
        };
        let (edition, issued) = by;
        let asked = Asked {
            edition: edition.number(),
            line,
            from,
            resume: self.state(folder, station.as_deref()),
            saves: false,
            repeats: false,
            files: files.unwrap_or_default(),
            called: None,
            issue: Issue::of([&station, &lessee, &number, &zone], issued),
        };
        let lease = self.lease(&asked)?;
        let line = self.line;
        (self.faults.len() == before).then_some(Row {
            line,
            asked,
            save: None,
            lease,
        })
    }

    fn files(&mut self, folder: &Path) -> Option<Vec<PathBuf>> {
        let text = self.needed(LOG)?;
        let named = match files::named(&text, folder) {
            Ok(named) => named,
            Err(cause) => return self.wrong(LOG, cause),
        };
        named.tell_passed();
        Some(named.files)
    }

    /// The state that it goes on from; none where that is blank.
    fn state(&mut self, folder: &Path, station: Option<&str>) -> Option<PathBuf> {
        let text = self.value(STATE)?;
        if text == "-" {
            self.wrong(STATE, "standard input is no state")
        } else {
            Some(states::named(
                folder.join(text),
                station.unwrap_or_default(),
            ))
        }
    }

    fn date(&mut self) -> Option<Date> {
        let text = self.value(FIRST_DATE)?;
        match Date::parse(&text) {
            Ok(date) => Some(date),
            Err(cause) => self.wrong(FIRST_DATE, cause),
        }
    }

    /// The lease line judged, with its dates.
    fn lease(&mut self, asked: &Asked) -> Option<Lease> {
        let lease = match asked.lease() {
            Ok(lease) => lease,
            Err(refused) => {
                self.faults.push(fault(self.line, "lease line", refused));
                return None;
            }
        };
        match asked.dates(&lease) {
            Ok(_) => Some(lease),
            Err(cause) => self.wrong(FIRST_DATE, cause),
        }
    }
}
