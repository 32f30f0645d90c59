//! docs/schema.json held against what the command prints with --json: the stored outputs, lines of every kind, and by
//! the hostile driver whatever comes. The checker knows the keywords that the schema uses and no others.

use crate::common::{egretfold, root, told, with_input, Folder};
use serde_json::{json, Value};
use std::collections::BTreeSet;
use std::fs;
use std::process::Command;

/// What the checker understands; the last three say nothing of a value.
const KEYWORDS: [&str; 13] = [
    "$ref",
    "type",
    "const",
    "enum",
    "minimum",
    "properties",
    "required",
    "additionalProperties",
    "items",
    "oneOf",
    "anyOf",
    "description",
    "title",
];

pub struct Schema {
    whole: Value,
}

impl Schema {
    pub fn new() -> Schema {
        let text = include_str!("../../../../docs/schema.json");
        Schema {
            whole: serde_json::from_str(text).expect("JSON"),
        }
    }

    fn definition(&self, name: &str) -> &Value {
        let definition = self.whole["$defs"].get(name);
        definition.unwrap_or_else(|| panic!("docs/schema.json has no definition of {name}"))
    }

    /// What is wrong with a line of a subcommand, where anything is.
    pub fn fault(&self, command: &str, line: &Value) -> Option<String> {
        self.differs(self.definition(command), line, "")
    }

    fn differs(&self, schema: &Value, value: &Value, at: &str) -> Option<String> {
        if let Some(name) = schema["$ref"].as_str() {
            let name = name.strip_prefix("#/$defs/").expect("a definition");
            return self.differs(self.definition(name), value, at);
        }
        let wrong = |what: &str| Some(format!("{at}: {what}: {value}"));
        if schema.get("const").map_or(false, |due| due != value) {
            return wrong("another constant");
        }
        let listed = |list: &Value| list.as_array().map_or(false, |list| list.contains(value));
        if schema.get("enum").map_or(false, |list| !listed(list)) {
            return wrong("none of those that may stand there");
        }
        if schema
            .get("type")
            .map_or(false, |kinds| !is_of(kinds, value))
        {
            return wrong("another type");
        }
        let least = schema["minimum"].as_i64();
        if least.map_or(false, |least| value.as_i64().map_or(false, |is| is < least)) {
            return wrong("too small");
        }
        self.among(schema, value, at)
            .or_else(|| self.fields(schema, value, at))
            .or_else(|| self.items(schema, value, at))
    }

    /// Just one of several, or any of them.
    fn among(&self, schema: &Value, value: &Value, at: &str) -> Option<String> {
        for (key, most) in [("oneOf", 1), ("anyOf", usize::MAX)] {
            let kinds = match schema[key].as_array() {
                Some(kinds) => kinds,
                None => continue,
            };
            let faults: Vec<Option<String>> = kinds
                .iter()
                .map(|kind| self.differs(kind, value, at))
                .collect();
            let count = faults.iter().filter(|fault| fault.is_none()).count();
            if count == 0 || count > most {
                let told: Vec<String> = faults.into_iter().flatten().collect();
                return Some(format!("{at}: {count} kinds fit: {}", told.join(" | ")));
            }
        }
        None
    }

    fn fields(&self, schema: &Value, value: &Value, at: &str) -> Option<String> {
        let fields = value.as_object()?;
        let required = schema["required"].as_array();
        for key in required.into_iter().flatten().filter_map(Value::as_str) {
            if !fields.contains_key(key) {
                return Some(format!("{at}: {key} is missing"));
            }
        }
        for (key, value) in fields {
            let at = format!("{at}/{key}");
            let fault = match (
                schema["properties"].get(key),
                &schema["additionalProperties"],
            ) {
                (Some(schema), _) => self.differs(schema, value, &at),
                (None, Value::Bool(false)) => Some(format!("{at}: isn't known")),
                (None, Value::Object(_)) => {
                    self.differs(&schema["additionalProperties"], value, &at)
                }
                (None, _) => None,
            };
            if fault.is_some() {
                return fault;
            }
        }
        None
    }

    fn items(&self, schema: &Value, value: &Value, at: &str) -> Option<String> {
        let items = schema.get("items")?;
        let list = value.as_array()?.iter().enumerate();
        list.filter_map(|(place, value)| self.differs(items, value, &format!("{at}/{place}")))
            .next()
    }

    /// The kinds of line that a subcommand has.
    fn kinds(&self, command: &str) -> Vec<String> {
        match self.definition(command)["oneOf"].as_array() {
            None => vec![command.to_string()],
            Some(kinds) => {
                let name = |kind: &Value| {
                    kind["$ref"]
                        .as_str()
                        .map(|name| name.replace("#/$defs/", ""))
                };
                kinds.iter().filter_map(name).collect()
            }
        }
    }
}

fn is_of(kinds: &Value, value: &Value) -> bool {
    let is = match value {
        Value::Null => "null",
        Value::Bool(_) => "boolean",
        Value::Number(number) if number.is_f64() => "number",
        Value::Number(_) => "integer",
        Value::String(_) => "string",
        Value::Array(_) => "array",
        Value::Object(_) => "object",
    };
    let is_of = |kind: &Value| kind == is || kind == "number" && is == "integer";
    match kinds {
        Value::Array(kinds) => kinds.iter().any(is_of),
        kind => is_of(kind),
    }
}

/// The stored outputs that are JSON: the subcommand and a line.
fn stored() -> Vec<(String, Value)> {
    let mut lines = Vec::new();
    let folder = root().join("rust/host/tests/golden");
    for entry in fs::read_dir(folder).expect("the stored outputs") {
        let text = fs::read_to_string(entry.expect("an entry").path()).expect("text");
        let (head, body) = text.split_once('\n').expect("a line");
        // Something may be piped into it.
        let (_, line) = head.rsplit_once("egretfold ").unwrap_or_default();
        let mut words = line.split_whitespace();
        let command = words.next().unwrap_or_default().to_string();
        if words.any(|word| word == "--json") {
            lines.extend(objects(body).map(|line| (command.clone(), line)));
        }
    }
    lines
}

fn objects(text: &str) -> impl Iterator<Item = Value> + '_ {
    let lines = text.lines().filter(|line| line.starts_with('{'));
    lines.map(|line| serde_json::from_str(line).expect("JSON"))
}

/// Lines that have what the stored outputs haven't.
const LINES: [&str; 11] = [
    "explain --json",
    "score samples/damaged.log --first-day 101 --days 30 --owed 1 --json",
    "fleet samples/leases.csv --json",
    "fleet samples/months/june.csv --json",
    "decode --ready --json --hex samples/ready.hex",
    "address --pitch 16 --height 8 --size 3 --json 1,1",
    "locate --stream samples/refused.hex --hex --json 800",
    "survey --stream samples/refused.hex --hex --memory samples/camera.mem --at 800 --value 300 --json",
    "survey --stream samples/camera.ctm --memory samples/camera.mem --at 800 --value 300 --json",
    "tile --size 4 --json",
    "replay --json samples/station-14-april.log --resume samples/station-14-march.state",
];

/// Three months, of which one has no score.
fn history() -> String {
    let folder = Folder::new("schema-history");
    let scores = [
        "fleet samples/months/april.csv --json",
        "fleet samples/months/may.csv --json",
        "fleet samples/leases.csv --json",
    ];
    let scores = scores.map(|line| told(&egretfold(line, b""))).concat();
    let file = folder.write("scores", scores.as_bytes());
    told(&egretfold(&format!("history --json {file}"), b""))
}

/// A month's cards, each verified, and one of them by itself.
fn verified() -> [(&'static str, String); 2] {
    let folder = Folder::new("schema-cards");
    let cards = folder.0.display();
    egretfold(&format!("fleet samples/leases.csv --cards {cards}"), b"");
    let all = format!("fleet samples/leases.csv --verify {cards} --json");
    let one = format!("verify {cards}/14.svg samples/station-14.log --json");
    [("fleet", all), ("verify", one)].map(|(command, line)| (command, told(&egretfold(&line, b""))))
}

/// All of them, by their subcommands.
fn all() -> Vec<(String, Value)> {
    let mut lines = stored();
    for line in LINES {
        let command = line.split(' ').next().unwrap_or_default();
        let text = told(&egretfold(line, b""));
        lines.extend(objects(&text).map(|line| (command.to_string(), line)));
    }
    let history = history();
    lines.extend(objects(&history).map(|line| ("history".to_string(), line)));
    for (command, text) in verified() {
        lines.extend(objects(&text).map(|line| (command.to_string(), line)));
    }
    lines
}

#[test]
fn every_output_keeps_to_the_schema_and_every_kind_is_seen() {
    let schema = Schema::new();
    let lines = all();
    for (command, line) in &lines {
        let fault = schema.fault(command, line);
        assert_eq!(fault, None, "{command}: {line}");
    }
    let commands: BTreeSet<&String> = lines.iter().map(|(command, _)| command).collect();
    for command in commands {
        for kind in schema.kinds(command) {
            let fits =
                |(by, line): &(String, Value)| by == command && schema.fault(&kind, line).is_none();
            assert!(lines.iter().any(fits), "no line of {command} is a {kind}");
        }
    }
}

/// Every subcommand that has --json is in the schema, and nothing else is at its top.
#[test]
fn the_schema_has_every_subcommand_that_prints_json() {
    let help = told(&egretfold("--help", b""));
    let commands = help.lines().skip_while(|line| *line != "Commands:").skip(1);
    let commands: Vec<&str> = commands
        .map_while(|line| line.split_whitespace().next())
        .filter(|name| *name != "help")
        .filter(|name| told(&egretfold(&format!("{name} --help"), b"")).contains("--json"))
        .collect();
    let schema = Schema::new();
    let top = schema.whole["anyOf"].as_array().expect("a list");
    let due: Vec<Value> = commands
        .iter()
        .map(|name| json!({"$ref": format!("#/$defs/{name}")}))
        .collect();
    assert!(due.len() > 10, "{due:?}");
    for reference in &due {
        assert!(top.contains(reference), "{reference}");
    }
    assert_eq!(top.len(), due.len(), "{top:?}");
}

/// Nothing in the schema is passed over.
#[test]
fn the_checker_knows_every_keyword() {
    fn hold(schema: &Value) {
        for (key, inside) in schema.as_object().expect("a schema") {
            assert!(KEYWORDS.contains(&key.as_str()), "{key}");
            match key.as_str() {
                "properties" => inside.as_object().expect("fields").values().for_each(hold),
                "oneOf" | "anyOf" => inside.as_array().expect("a list").iter().for_each(hold),
                "items" => hold(inside),
                "additionalProperties" if inside.is_object() => hold(inside),
                _ => {}
            }
        }
    }
    let schema = Schema::new();
    let definitions = schema.whole["$defs"].as_object().expect("definitions");
    assert!(definitions.len() > 40);
    definitions.values().for_each(hold);
}

/// A value by the path to it.
fn paths(value: &Value, path: String, found: &mut Vec<String>) {
    match value {
        Value::Object(fields) => {
            for (key, value) in fields {
                paths(value, format!("{path}/{key}"), found);
            }
        }
        // The first is like the others.
        Value::Array(list) => {
            if let Some(value) = list.first() {
                paths(value, format!("{path}/0"), found);
            }
        }
        _ => {}
    }
    found.push(path);
}

/// Every field of every kind of line, with a value of another type, and every object with a field more.
#[test]
fn wrong_outputs_are_told() {
    let schema = Schema::new();
    let mut tried = 0;
    for (command, line) in all() {
        let mut places = Vec::new();
        paths(&line, String::new(), &mut places);
        for place in &places {
            let mut wrong = line.clone();
            let value = wrong.pointer_mut(place).expect("it is there");
            match value.as_object_mut() {
                Some(fields) if place.ends_with("/by_name") => {
                    drop(fields.insert("x".into(), json!("y")))
                }
                Some(fields) => drop(fields.insert("unknown".into(), json!(1))),
                None => *value = json!({"another": "type"}),
            }
            assert!(
                schema.fault(&command, &wrong).is_some(),
                "{command}: {place} of {wrong}"
            );
            tried += 1;
        }
        for number in [json!(2), json!("1"), Value::Null] {
            let mut wrong = line.clone();
            wrong["schema"] = number;
            assert!(schema.fault(&command, &wrong).is_some(), "{wrong}");
        }
        let mut without = line.clone();
        without.as_object_mut().expect("fields").remove("schema");
        assert!(schema.fault(&command, &without).is_some(), "{without}");
    }
    assert!(tried > 1_000, "{tried}");
}

#[test]
fn fields_that_are_missing_or_below_their_least_are_told() {
    let schema = Schema::new();
    let day = json!({"station": null, "day": 101, "date": null, "claimed": 5, "served": 5, "owed": 9, "dark": false, "in_log": true, "schema": 1});
    assert_eq!(schema.fault("score", &day), None);
    for key in [
        "station", "day", "date", "claimed", "served", "owed", "dark", "in_log",
    ] {
        let mut without = day.clone();
        without.as_object_mut().expect("fields").remove(key);
        assert!(schema.fault("score", &without).is_some(), "{key}");
    }
    let mut negative = day.clone();
    negative["claimed"] = json!(-1);
    assert!(schema.fault("score", &negative).is_some());
    let mut broken = day;
    broken["claimed"] = json!(0.5);
    assert!(schema.fault("score", &broken).is_some());
}

/// Scores by another schema are told, those from before there was a number are read.
#[test]
fn scores_by_another_schema_are_told() {
    let line =
        "score samples/three-days.log --first-day 101 --days 3 --owed 1728 --json --station 1";
    let scores = told(&egretfold(line, b""));
    let folder = Folder::new("schema-scores");
    for (number, status) in [(",\"schema\":1}", 0), ("}", 0), (",\"schema\":2}", 2)] {
        let text = scores.replace(",\"schema\":1}", number);
        let file = folder.write("scores", text.as_bytes());
        for line in [
            format!("history {file}"),
            format!("fleet --from-scores {file}"),
        ] {
            let mut command = Command::new(env!("CARGO_BIN_EXE_egretfold"));
            command.args(line.split(' '));
            let output = with_input(command, b"");
            assert_eq!(output.status.code(), Some(status), "{line} {number}");
            let errors = String::from_utf8_lossy(&output.stderr).into_owned();
            let is_told = errors
                .contains("line 1: station 1: is of schema 2, and this egretfold reads schema 1");
            assert_eq!(is_told, status == 2, "{errors}");
        }
    }
}
