//! Lines of JSON, each an object that names the schema that it keeps to: docs/JSON.md and docs/schema.json.

use crate::common::failure::Outcome;
use serde_json::{json, Value};
use std::io::Write;

/// The schema's number. It changes where a field goes, or means something else, and not where one is added.
const NUMBER: u64 = 1;

const FIELD: &str = "schema";

/// Writes an object as a line.
pub fn line(out: &mut dyn Write, mut object: Value) -> Outcome {
    object[FIELD] = json!(NUMBER);
    writeln!(out, "{object}")?;
    Ok(())
}

/// Whether a line that comes back can be read. Lines from before there was a number have none.
pub fn is_known(line: &Value) -> Result<(), String> {
    match line.get(FIELD) {
        None => Ok(()),
        Some(number) if number.as_u64() == Some(NUMBER) => Ok(()),
        Some(number) => Err(format!(
            "is of schema {number}, and this egretfold reads schema {NUMBER}"
        )),
    }
}
