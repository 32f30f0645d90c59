//! Hostile inputs and lines, made from a case's number.

use crate::common::{root, sample};
use crate::states::sealed;
use compare::random::Random;
use serde_json::json;
use std::ffi::OsString;
use std::fs;
use std::os::unix::ffi::OsStringExt;

/// A line of arguments, what stands on standard input, and what is written where the
/// line names the files.
pub struct Case {
    pub arguments: Vec<OsString>,
    pub input: Vec<u8>,
    pub files: Vec<(OsString, Vec<u8>)>,
}

/// Stands in a line for a file of the case's own; the driver puts its folder before it.
pub const OWN: &str = "own/";

const SAMPLES: [&str; 15] = [
    "whole.ctm",
    "whole.hex",
    "several.ctm",
    "several.txt",
    "masked.ctm",
    "refused.hex",
    "station-14.log",
    "three-days.log",
    "refused.log",
    "branch.hex",
    "branch.masks",
    "loops.hex",
    "camera.ctm",
    "camera.mem",
    "camera.ppm",
];

const STREAMS: [&str; 4] = ["camera.ctm", "camera.ctm", "masked.ctm", "several.ctm"];

const MEMORY: [&str; 4] = ["camera.mem", "camera.mem", "camera.mem", "whole.ctm"];

const PICTURES: [&str; 3] = ["camera.ppm", "camera.ppm", "camera.mem"];

/// Domains and rectangles.
const FOURS: [&str; 10] = [
    "0,0,63,23",
    "0,0,64,32",
    "20,4,24,16",
    "1,1,0,0",
    "0,0,4294967295,4294967295",
    "4294967295,4294967295,4294967295,4294967295",
    "0,0,0,0",
    "5,0,4,4294967295",
    "1,2,3",
    "a,b,c,d",
];

const LOGS: [&str; 4] = [
    "station-14.log",
    "three-days.log",
    "refused.log",
    "damaged.log",
];

/// Numbers at bounds, numbers past them, and what is no number.
const NUMBERS: [&str; 34] = [
    "0",
    "1",
    "2",
    "3",
    "4",
    "8",
    "16",
    "20",
    "28",
    "30",
    "31",
    "32",
    "33",
    "95",
    "96",
    "100",
    "101",
    "102",
    "1024",
    "4096",
    "4097",
    "8188",
    "8192",
    "14000000",
    "100000000",
    "100000001",
    "4294967295",
    "4294967296",
    "0x10",
    "0xFFFFFFFF",
    "-1",
    "+4",
    "x",
    "99999999999999999999",
];

/// Good more often than not, so that lines come through.
const GOOD: [&str; 8] = ["1", "4", "8", "16", "30", "96", "100", "101"];

const DATES: [&str; 5] = [
    "2026-04-01",
    "2024-02-29",
    "2026-02-29",
    "9999-12-31",
    "April",
];

const PAIRS: [&str; 8] = [
    "0,0",
    "37,18",
    "95,11",
    "4095,4095",
    "4294967295,0",
    "1,2,3",
    "x,y",
    "5 2",
];

const WORDS: [&str; 10] = [
    "0",
    "800",
    "1000",
    "2010064",
    "4010010",
    "5000010",
    "FFFFF800",
    "FFFFFFFF",
    "123456789",
    "zz",
];

/// How a lease file begins.
const HEADERS: [&str; 4] = [
    "station,lessee,log,first day,days,owed,first date\n",
    "station,lessee,log,first day,days,owed,first date\n",
    "\u{feff}Station;Lessee;Log files;First_Day;Days;Owed;From\r\n",
    "station,lesee,log,first day,days\n",
];

/// Names that a shell, a terminal or a table could stumble over.
const NAMES: [&[u8]; 10] = [
    b"plain.log",
    b"with blank.log",
    b"\x1b[31mred\x1b[0m.log",
    b"new\nline.log",
    b"carriage\rreturn",
    b"-dash.log",
    b"\xff\xfe not utf-8",
    b"\xe2\x80\xae gol.",
    b"quote\"'&<>.log",
    b"comma,semi;colon",
];

/// Station 14's card, which tests hold as it is stored.
fn stored_card() -> Vec<u8> {
    let file = root().join("rust/host/tests/pictures/station-14.svg");
    fs::read(file).expect("the card is there")
}

pub fn case(random: &mut Random) -> Case {
    let mut made = Made {
        random,
        case: Case {
            arguments: Vec::new(),
            input: Vec::new(),
            files: Vec::new(),
        },
    };
    made.line();
    made.case
}

struct Made<'a> {
    random: &'a mut Random,
    case: Case,
}

impl Made<'_> {
    fn put(&mut self, argument: &str) {
        self.case.arguments.push(argument.into());
    }

    /// An option with a value, now and then.
    fn valued(&mut self, times: u32, option: &str, values: &[&str]) {
        if self.random.once_in(times) {
            self.put(option);
            let value = self.random.one_of(values);
            self.put(value);
        }
    }

    fn numbered(&mut self, times: u32, option: &str) {
        let bad = self.random.once_in(3);
        self.valued(times, option, if bad { &NUMBERS } else { &GOOD });
    }

    fn flag(&mut self, times: u32, flag: &str) {
        if self.random.once_in(times) {
            self.put(flag);
        }
    }

    fn line(&mut self) {
        match self.random.below(31) {
            27 | 28 => self.verify(),
            29 | 30 => self.history(),
            23 | 24 => self.survey(),
            25 | 26 => self.picture(),
            0..=5 => self.score(),
            6..=8 => self.replay(),
            9..=11 => self.decode(),
            12 | 13 => self.encode(),
            14 => self.address(),
            15 | 16 => self.locate(),
            17 => self.tile(),
            18 => self.flow(),
            19..=21 => self.fleet(),
            _ => self.other(),
        }
    }

    fn score(&mut self) {
        self.put("score");
        for (option, good) in [
            ("--first-day", "101"),
            ("--days", "30"),
            ("--owed", "14000000"),
        ] {
            self.put(option);
            let number = if self.random.once_in(6) {
                self.random.one_of(&NUMBERS)
            } else {
                good
            };
            self.put(number);
        }
        self.edition();
        self.valued(3, "--from", &DATES);
        self.valued(6, "--station", &["14", "\u{1b}[2J", "<&\">", ""]);
        self.valued(6, "--lessee", &["Harbour", "a\nb", "\u{202e}x"]);
        // Most often as a program would ask, so that the forms can be compared.
        for (times, flag) in [(4, "--json"), (6, "--csv"), (8, "--plain")] {
            self.flag(times, flag);
        }
        self.valued(8, "--svg", &["-"]);
        self.valued(10, "--html", &["-"]);
        self.state();
        self.logs();
    }

    /// A state to go on from, as it was or damaged, and then often with the digest that its bytes have, so that its
    /// numbers are looked at; and one to save.
    fn state(&mut self) {
        self.valued(
            8,
            "--save",
            &["own/saved.state", "own/saved.state", "-", "samples"],
        );
        if !self.random.once_in(4) {
            return self.valued(20, "--resume", &["samples/three-days.log", "-", "no-such"]);
        }
        let mut bytes = sample("station-14-march.state");
        match self.random.below(8) {
            0 => {}
            1 => self.damage(&mut bytes),
            _ => {
                for _ in 0..self.random.between(1, 3) {
                    // Of the head, of the replay's own numbers, or anywhere.
                    let end = self.random.one_of(&[128, 168, bytes.len() as u32 - 32]);
                    let at = self.random.between(20, end - 1) as usize;
                    bytes[at] ^= 1 << self.random.below(8);
                }
                bytes = sealed(bytes);
            }
        }
        self.put("--resume");
        self.put("own/kept.state");
        self.case.files.push(("kept.state".into(), bytes));
        if self.random.coin() {
            self.put("samples/station-14-april.log");
        }
    }

    fn two_parties(&mut self) {
        if !self.random.once_in(4) {
            return;
        }
        let parties = [
            "samples/lessees.parties",
            "samples/intruder.parties",
            "samples/whole.hex",
        ];
        let owners = [
            "0:2", "FF00:2", "0:0", "FFFF:F", "10000:0", "0:10", "2", ":", "0:-1",
        ];
        let (parties, owners) = (self.random.one_of(&parties), self.random.one_of(&owners));
        for argument in ["--parties", parties, "--owners", owners] {
            self.put(argument);
        }
    }

    fn edition(&mut self) {
        self.valued(
            4,
            "--edition",
            &["1", "2", "2", "2", "0", "3", "4294967295"],
        );
    }

    /// A lease file of the case's own, with logs that stand beside it.
    fn fleet(&mut self) {
        self.put("fleet");
        let mut text = String::from(self.random.one_of(&HEADERS));
        let parted = if text.contains(';') { ";" } else { "," };
        for _ in 0..self.random.below(5) {
            let row = self.row();
            text += &(row.join(parted) + self.random.one_of(&["\n", "\r\n"]));
        }
        let mut bytes = text.into_bytes();
        if self.random.once_in(4) {
            self.damage(&mut bytes);
        }
        let name = OsString::from_vec(b"leases.csv".to_vec());
        self.put("own/leases.csv");
        self.case.files.push((name, bytes));
        for (times, flag) in [
            (4, "--json"),
            (6, "--csv"),
            (8, "--plain"),
            (9, "--commands"),
        ] {
            self.flag(times, flag);
        }
        self.valued(
            5,
            "--sort",
            &["worst", "lease", "station", "lessee", "silent", "best"],
        );
        self.valued(7, "--html", &["-"]);
        self.valued(9, "--verify", &["own/", "samples", "no-such"]);
        self.valued(7, "--edition", &["1", "2", "2", "3"]);
        self.valued(
            9,
            "--from-scores",
            &["own/leases.csv", "/dev/null", "no-such"],
        );
        self.valued(9, "--lessee", &["Harbour", "Pier, north", "\u{202e}x", ""]);
        self.valued(9, "--only", &["short", "full", "unscored", "best"]);
        self.flag(12, "--csv-lessees");
    }

    /// Scores of the case's own: months of two stations in both forms, some of their fields changed, some of their bytes.
    fn history(&mut self) {
        self.put("history");
        for _ in 0..self.random.below(4) {
            let mut text = String::new();
            for _ in 0..self.random.below(4) {
                text += &self.score_lines();
            }
            let mut bytes = text.into_bytes();
            if self.random.once_in(5) {
                self.damage(&mut bytes);
            }
            let name = self.random.one_of(&NAMES);
            let number = self.case.files.len();
            let name = [format!("{number}").as_bytes(), name].concat();
            let argument = [OWN.as_bytes(), &name].concat();
            self.case.arguments.push(OsString::from_vec(argument));
            self.case.files.push((OsString::from_vec(name), bytes));
        }
        for (times, flag) in [(3, "--json"), (8, "--plain")] {
            self.flag(times, flag);
        }
        self.valued(5, "--html", &["-"]);
        self.valued(8, "--issued", &DATES);
        self.case.input = self.score_lines().into_bytes();
    }

    /// A month of three days by `score --json` or by `fleet --json`.
    fn score_lines(&mut self) -> String {
        let station = self
            .random
            .one_of(&["14", "14", "15", "\u{1b}[2J", "<&\">"]);
        let first = self.random.one_of(&[101, 104, 104, 102, u32::MAX - 2]);
        let from = self
            .random
            .one_of(&["2026-04-01", "2026-04-04", "9999-12-30", "April"]);
        let from = self.random.coin().then_some(from);
        let edition = self.random.one_of(&[1, 1, 1, 2, 3]);
        let lease = json!({"first_day": first, "days": 3, "owed": 10, "from": from});
        // One day in full, one in part, one dark.
        let part = self.random.between(1, 9);
        let mut value = json!({
            "station": station, "lessee": "Harbour", "edition": edition, "lease": lease, "sha256": null, "checks": [],
            "served": 10 + part, "owed": 30, "percent": "x", "dark_days": 1, "dark": [first.wrapping_add(2)],
            "full_days": 1, "part_days": 1, "verdict": "short", "explained": null, "schema": 1,
        });
        if self.random.once_in(3) {
            let keys: Vec<String> = value.as_object().expect("fields").keys().cloned().collect();
            let key = &keys[self.random.below(keys.len() as u32) as usize];
            let numbers = [
                json!(0),
                json!(u64::MAX),
                json!(-1),
                json!("\u{1b}[2J"),
                json!([]),
                json!(null),
            ];
            value[key] = numbers[self.random.below(numbers.len() as u32) as usize].clone();
        }
        if self.random.coin() {
            return format!("{value}\n");
        }
        let mut lines = String::new();
        for (place, claimed) in [(0, 10), (1, part), (2, 0)] {
            let date = (from == Some("2026-04-01")).then(|| format!("2026-04-{:02}", place + 1));
            let day = json!({"day": first.wrapping_add(place), "date": date, "claimed": claimed, "served": claimed, "owed": 10,
                "dark": claimed == 0, "in_log": true, "schema": 1});
            lines += &format!("{day}\n");
        }
        value["issued"] = json!("2026-05-02");
        value["version"] = json!("0.1.0");
        value["log"] = json!({"inputs": ["a.log"]});
        format!("{lines}{}\n", json!({ "summary": value }))
    }

    /// A stored card as it is or damaged, with its log or another one.
    fn verify(&mut self) {
        self.put("verify");
        self.flag(3, "--json");
        let mut card = stored_card();
        for _ in 0..self.random.below(3) {
            self.damage(&mut card);
        }
        self.put("own/card.svg");
        self.case.files.push(("card.svg".into(), card));
        if self.random.coin() {
            self.put("samples/station-14.log");
        } else {
            self.logs();
        }
        self.valued(
            12,
            "--resume",
            &["samples/station-14-march.state", "-", "no-such"],
        );
    }

    /// A station, its lessee, its log, first day, days, what it owes, first date.
    fn row(&mut self) -> [String; 7] {
        let quoted = |text: &str| format!("\"{}\"", text.replace('"', "\"\""));
        let station = self.random.one_of(&[
            "14",
            "15",
            "16",
            "Nord 3/a",
            "<&\">",
            "\u{1b}[2J",
            "a;b,c",
            "",
            "=1+1",
        ]);
        let lessee = self
            .random
            .one_of(&["Harbour", "", "Pier, north", "\u{202e}x"]);
        let number = self.case.files.len();
        let log = match self.random.below(8) {
            0 => "no-such.log".to_string(),
            1 => self
                .random
                .one_of(&[".", "*", "-", "..", "/dev/null", ""])
                .to_string(),
            _ => {
                let name = format!("{number}.log");
                let bytes = self.bytes(&LOGS);
                self.case.files.push((name.clone().into(), bytes));
                name
            }
        };
        let mut number = |good: &str| {
            if self.random.once_in(9) {
                self.random.one_of(&NUMBERS).to_string()
            } else {
                good.to_string()
            }
        };
        let numbers = [number("101"), number("30"), number("14,000,000")];
        let date = self
            .random
            .one_of(&["2026-04-01", "2026-04-01", "", "April"]);
        let [first_day, days, owed] = numbers;
        let texts = [station, lessee, &log, &first_day, &days, &owed, date];
        texts.map(quoted)
    }

    fn replay(&mut self) {
        self.put("replay");
        self.edition();
        for flag in ["--json", "--csv", "--plain"] {
            self.flag(5, flag);
        }
        self.state();
        self.logs();
    }

    fn decode(&mut self) {
        self.put("decode");
        self.edition();
        self.two_parties();
        for (times, flag) in [
            (3, "--hex"),
            (4, "--summary"),
            (5, "--terse"),
            (4, "--json"),
            (9, "--plain"),
        ] {
            self.flag(times, flag);
        }
        self.any_input();
    }

    fn encode(&mut self) {
        self.put("encode");
        self.flag(2, "--hex");
        self.any_input();
    }

    fn layout(&mut self) {
        self.valued(2, "--base", &WORDS);
        if self.random.once_in(4) {
            self.valued(1, "--format", &WORDS);
        } else {
            self.numbered(1, "--pitch");
            self.valued(1, "--size", &["1", "2", "4", "8", "16", "16", "3", "0x4"]);
            self.flag(2, "--tiled");
        }
        self.numbered(1, "--height");
        self.flag(8, "--decimal");
        self.flag(3, "--work");
        self.flag(3, "--json");
    }

    fn address(&mut self) {
        self.put("address");
        self.layout();
        for _ in 0..self.random.below(4) {
            let pair = self.random.one_of(&PAIRS);
            self.put(pair);
        }
        self.case.input = self.random.one_of(&PAIRS).into();
    }

    fn locate(&mut self) {
        self.put("locate");
        if self.random.coin() {
            self.layout();
        } else {
            self.put("--stream");
            self.file(&SAMPLES);
            self.flag(3, "--hex");
            self.numbered(5, "--words");
            self.flag(2, "--json");
        }
        for _ in 0..self.random.below(4) {
            let word = self.random.one_of(&WORDS);
            self.put(word);
        }
        self.case.input = self.random.one_of(&WORDS).into();
    }

    fn survey(&mut self) {
        self.put("survey");
        self.put("--stream");
        self.file(&STREAMS);
        self.put("--memory");
        if self.random.once_in(6) {
            self.put("-");
        } else {
            self.file(&MEMORY);
        }
        self.put("--at");
        let at = self.at();
        self.put(at);
        self.put("--value");
        let value = self
            .random
            .one_of(&["300", "300", "0", "65535", "65536", "-1", "x"]);
        self.put(value);
        self.valued(2, "--domain", &FOURS);
        self.flag(8, "--hex");
        self.numbered(8, "--words");
        self.flag(3, "--json");
        self.case.input = self.bytes(&MEMORY);
    }

    fn picture(&mut self) {
        self.put("picture");
        self.put("--memory");
        self.file(&MEMORY);
        self.put("--at");
        let at = self.at();
        self.put(at);
        match self.random.below(4) {
            0 => self.layout(),
            1 => {
                self.put("--stream");
                self.file(&STREAMS);
                let names = [
                    "output-0",
                    "conditional-output",
                    "instructions",
                    "\u{1b}[2J",
                ];
                self.valued(1, "--window", &names);
            }
            _ => {
                for (option, value) in [
                    ("--base", "800"),
                    ("--pitch", "64"),
                    ("--height", "32"),
                    ("--size", "4"),
                ] {
                    self.put(option);
                    self.put(value);
                }
                self.put("--tiled");
            }
        }
        self.valued(2, "--rectangle", &FOURS);
        self.valued(4, "--as", &["pgm", "ppm", "raw", "RAW", "gif"]);
        if self.random.coin() {
            self.valued(1, "--out", &["/dev/null", "/dev/null", "-", "samples"]);
        } else {
            self.put("--in");
            if self.random.once_in(4) {
                self.put("-");
            } else {
                self.file(&PICTURES);
            }
            self.valued(1, "--to", &["/dev/null", "/dev/null", "-", "samples"]);
        }
        self.flag(4, "--json");
        self.case.input = self.bytes(&PICTURES);
    }

    /// The address of a dump's first byte: the camera's mostly.
    fn at(&mut self) -> &'static str {
        if self.random.once_in(4) {
            self.random.one_of(&WORDS)
        } else {
            "800"
        }
    }

    fn tile(&mut self) {
        self.put("tile");
        self.valued(1, "--size", &["1", "2", "4", "8", "16", "16", "3", "0x4"]);
        self.numbered(3, "--column");
        self.numbered(3, "--row");
        self.valued(3, "--mark", &PAIRS);
        self.flag(3, "--json");
    }

    fn flow(&mut self) {
        self.put("flow");
        self.flag(2, "--hex");
        self.numbered(3, "--processors");
        self.valued(4, "--booleans", &WORDS);
        self.flag(3, "--json");
        self.any_input();
        if self.random.coin() {
            self.put("0,0");
            self.numbered(2, "--repeat");
        }
    }

    fn other(&mut self) {
        let name = self.random.one_of(&[
            "explain",
            "manual",
            "completions",
            "scor",
            "\u{1b}[31m",
            "",
            "help",
        ]);
        self.put(name);
        self.flag(3, "--json");
        let number = self.random.one_of(&NUMBERS);
        self.put(number);
    }

    /// One to three logs, or standard input.
    fn logs(&mut self) {
        for _ in 0..self.random.below(4) {
            let list: &[&str] = if self.random.once_in(8) {
                &SAMPLES
            } else {
                &LOGS
            };
            self.file(list);
        }
        self.case.input = self.bytes(&LOGS);
    }

    fn any_input(&mut self) {
        if self.random.coin() {
            self.file(&SAMPLES);
        } else {
            self.put("-");
        }
        self.case.input = self.bytes(&SAMPLES);
    }

    /// A file of the case's own with a hostile name, or one that isn't there.
    fn file(&mut self, samples: &[&str]) {
        if self.random.once_in(12) {
            let name = self
                .random
                .one_of(&["no-such.log", "samples", "/dev/null", ""]);
            return self.put(name);
        }
        let name = self.random.one_of(&NAMES);
        let number = self.case.files.len();
        let name = [format!("{number}").as_bytes(), name].concat();
        let bytes = self.bytes(samples);
        let argument = [OWN.as_bytes(), &name].concat();
        self.case.arguments.push(OsString::from_vec(argument));
        self.case.files.push((OsString::from_vec(name), bytes));
    }

    /// A sample with some damage, or none.
    fn bytes(&mut self, samples: &[&str]) -> Vec<u8> {
        let mut bytes = sample(self.random.one_of(samples));
        for _ in 0..self.random.below(4) {
            self.damage(&mut bytes);
        }
        bytes
    }

    fn damage(&mut self, bytes: &mut Vec<u8>) {
        if bytes.is_empty() {
            return;
        }
        let at = self.random.below(bytes.len() as u32) as usize;
        match self.random.below(7) {
            0 => bytes.truncate(at),
            1 => bytes[at] ^= self.random.bit() as u8,
            2 => bytes[at] = self.random.word() as u8,
            3 => bytes.insert(at, self.random.word() as u8),
            4 => drop(bytes.remove(at)),
            5 => {
                let end = (at + 40).min(bytes.len());
                let again = bytes[at..end].to_vec();
                bytes.extend(again);
            }
            _ => {
                let mut noise = [0; 12];
                self.random.fill(&mut noise);
                bytes.splice(at..at, noise);
            }
        }
    }
}
