//! The ids and the properties of lines, as they are written or as a layer has them.

use super::object::Object;
use super::runs::Runs;

/// The properties of a feature.
#[derive(Clone, Copy, Debug)]
pub enum Properties<'a> {
    /// An object as it is written, where there is one.
    Written(Option<&'a str>),
    /// The values of fields of the given names, as JSON, each behind a mark but for the first. A field without
    /// a value is empty.
    Row(&'a [String], &'a str),
}

/// What stands between the values of a row: a character that JSON does not have.
pub const MARK: char = '\u{1e}';

impl<'a> Properties<'a> {
    /// The value of a name as it is written.
    pub fn get(self, name: &str) -> Option<&'a str> {
        match self {
            Properties::Written(text) => text.and_then(Object::of)?.get(name),
            Properties::Row(..) => {
                self.row().find(|(each, _)| *each == name).map(|(_, value)| value)
            }
        }
    }

    /// All of them.
    pub fn object(self) -> Object<'a> {
        match self {
            Properties::Written(text) => text.and_then(Object::of).unwrap_or_default(),
            Properties::Row(..) => self.row().collect(),
        }
    }

    /// The object of a row, as it would be written.
    pub fn text(self) -> String {
        let entry = |(name, value)| format!("{}:{value}", serde_json::Value::from(name));
        format!("{{{}}}", self.row().map(entry).collect::<Vec<_>>().join(","))
    }

    /// The names and values of a row.
    fn row(self) -> impl Iterator<Item = (&'a str, &'a str)> {
        let (names, values) = match self {
            Properties::Row(names, values) => (names, values),
            Properties::Written(_) => (&[][..], ""),
        };
        let all = names.iter().map(|name| &name[..]).zip(values.split(MARK));
        all.filter(|(_, value)| !value.is_empty())
    }
}

/// The rows of a layer, but for their text: the names of fields, and how long the texts of each row are.
#[derive(Debug, Default)]
pub struct Rows {
    pub names: Vec<String>,
    /// Where the first row begins.
    pub begin: usize,
    /// The texts of each row: its id, and behind it its values.
    pub texts: Runs,
    /// The bytes of each id.
    pub ids: Vec<u8>,
}

/// The ids and the properties of all features.
#[derive(Debug)]
pub enum Texts<'a> {
    /// Of each line the id and the object of its properties.
    Written(Vec<[Option<&'a str>; 2]>),
    /// Those of rows, in a text.
    Rows(&'a str, Rows),
}

impl Default for Texts<'_> {
    fn default() -> Self {
        Texts::Written(Vec::new())
    }
}

impl<'a> Texts<'a> {
    /// The id and the properties of a line, which is a row's of its layer.
    pub fn get(&self, line: usize, row: usize) -> (Option<&'a str>, Properties<'_>) {
        match self {
            Texts::Written(all) => {
                let [id, properties] = all.get(line).copied().unwrap_or_default();
                (id, Properties::Written(properties))
            }
            Texts::Rows(text, rows) => {
                let (id, values) = rows.cut(text, row);
                (Some(id).filter(|id| !id.is_empty()), Properties::Row(&rows.names, values))
            }
        }
    }

    /// The texts of all rows of a layer as they would be written: ids, each with the properties behind it.
    pub fn rows(&self) -> impl Iterator<Item = String> + '_ {
        let (text, rows) = match self {
            Texts::Written(_) => ("", None),
            Texts::Rows(text, rows) => (*text, Some(rows)),
        };
        rows.into_iter().flat_map(move |rows| {
            (0..rows.ids.len()).map(move |row| {
                let (id, values) = rows.cut(text, row);
                format!("{id}{}", Properties::Row(&rows.names, values).text())
            })
        })
    }
}

impl Rows {
    /// The value of a field of a row; a null is none.
    pub fn value<'a>(&self, text: &'a str, row: usize, name: &str) -> Option<&'a str> {
        let place = self.names.iter().position(|each| each == name)?;
        let value = self.cut(text, row).1.split(MARK).nth(place);
        value.filter(|value| !value.is_empty() && *value != "null")
    }

    /// A row in words: its position and its id.
    pub fn place(&self, text: &str, row: usize) -> String {
        match self.cut(text, row).0 {
            "" => format!("feature {row}"),
            id => format!("feature {row} (id {id})"),
        }
    }

    /// The id and the values of a row.
    pub fn cut<'a>(&self, text: &'a str, row: usize) -> (&'a str, &'a str) {
        let range = self.texts.range(row);
        let [from, to] = [self.begin + range.start, self.begin + range.end];
        let middle = from + usize::from(self.ids.get(row).copied().unwrap_or_default());
        let part = |from, to| text.get(from..to).unwrap_or_default();
        (part(from, middle), part(middle, to))
    }
}

#[cfg(test)]
mod tests {
    use super::{Properties, Rows, Runs, Texts};

    #[test]
    fn a_row_is_the_object_that_it_would_be_written_as() {
        let names = ["id", "a \"b\"", "kind"].map(str::to_owned).to_vec();
        let mut texts = Runs::default();
        let text = "{}71\u{1e}\u{1e}\"x\"8\u{1e}[2]\u{1e}";
        [7, 6].into_iter().for_each(|length| texts.push(length));
        let rows = Rows { names, begin: 2, texts, ids: vec![1, 1] };
        let texts = Texts::Rows(text, rows);
        let all: Vec<String> = texts.rows().collect();
        assert_eq!(all, ["7{\"id\":1,\"kind\":\"x\"}", "8{\"a \\\"b\\\"\":[2]}"]);
        let (id, properties) = texts.get(0, 0);
        assert_eq!(
            (id, properties.get("kind"), properties.get("none")),
            (Some("7"), Some("\"x\""), None)
        );
        let object = properties.object();
        assert_eq!(object.iter().collect::<Vec<_>>(), [("id", "1"), ("kind", "\"x\"")]);
        let written = Properties::Written(Some("{\"a\": 1}"));
        assert_eq!((written.get("a"), Properties::Written(None).get("a")), (Some("1"), None));
    }
}
