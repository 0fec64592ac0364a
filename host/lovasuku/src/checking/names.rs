//! Names of lines in chains that were made elsewhere.

use crate::delivery::Delivery;
use anyhow::{bail, Result};
use serde_json::Value;
use std::collections::HashMap;
use std::fmt;

/// How a chain names a line: by its name, and by which part of its feature it is.
#[derive(Clone, Debug, PartialEq, Eq, Hash)]
pub struct Step {
    /// A text in quotes or a number, in one way of writing.
    pub name: String,
    pub part: u32,
}

impl fmt::Display for Step {
    fn fmt(&self, f: &mut fmt::Formatter<'_>) -> fmt::Result {
        match self.part {
            0 => f.write_str(&self.name),
            part => write!(f, "part {part} of {}", self.name),
        }
    }
}

impl Step {
    /// The line that an entry of a list names: a name, or an object that has one as its member `line`, and
    /// at times its `part`.
    pub fn of(entry: &Value) -> Option<Self> {
        match entry {
            Value::String(_) | Value::Number(_) => Some(Step { name: entry.to_string(), part: 0 }),
            Value::Object(members) => {
                let named = members.get("line").filter(|line| line.is_string() || line.is_number());
                let part = match members.get("part") {
                    None | Some(Value::Null) => 0,
                    Some(part) => u32::try_from(part.as_u64()?).ok()?,
                };
                Some(Step { name: named?.to_string(), part })
            }
            _ => None,
        }
    }
}

/// The lines of a delivery by their names.
pub struct Names(HashMap<Step, u32>);

impl Names {
    /// The names of all lines, each of which has to be one line's. Where lines are parts of features they
    /// are named with their parts.
    pub fn of(delivery: &Delivery, parts: bool) -> Result<Self> {
        let mut names = HashMap::with_capacity(delivery.len());
        for line in delivery.lines() {
            let written = delivery.name(line).into_owned();
            // A name is JSON already; a number is written as all are that are compared with it.
            let name = serde_json::from_str(&written).map_or(written, |v: Value| v.to_string());
            let step = Step { name, part: if parts { delivery.part(line) } else { 0 } };
            if let Some(other) = names.insert(step.clone(), line) {
                let [other, this] = [other, line].map(|line| delivery.position(line));
                bail!("{step} names features {other} and {this}");
            }
        }
        Ok(Names(names))
    }

    /// The position of the line that is so named.
    pub fn line(&self, step: &Step) -> Option<u32> {
        self.0.get(step).copied()
    }
}

#[cfg(test)]
mod tests {
    use super::Step;

    fn step(text: &str) -> Option<String> {
        Step::of(&serde_json::from_str(text).unwrap()).map(|step| step.to_string())
    }

    #[test]
    fn names_alone_and_in_objects() {
        let wanted = |text: &str| Some(text.to_string());
        assert_eq!(step("7"), wanted("7"));
        assert_eq!(step(r#""\u0061 b""#), wanted(r#""a b""#));
        assert_eq!(step(r#"{"line": 7, "turned": true}"#), wanted("7"));
        assert_eq!(step(r#"{"line": "x", "part": 2, "turned": 5}"#), wanted(r#"part 2 of "x""#));
        for none in ["null", "true", "[7]", "{}", r#"{"line": null}"#, r#"{"line":1,"part":-1}"#] {
            assert_eq!(step(none), None, "{none}");
        }
    }
}
