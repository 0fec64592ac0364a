//! Properties as fields: which fields a layer gets for objects of JSON, and their values.
//!
//! A field has the type that all its values share. What no type of the layer's format takes, as lists
//! where it has none, is a text of JSON.

use super::gdal::{Datum, Driver, Field, FieldType};
use super::properties::of_hexadecimal;
use crate::delivery::object::Entry;
use serde_json::value::RawValue;
use std::collections::HashMap;
use std::ffi::CString;

/// What values of one name are: the kinds of single ones, of the items of lists, and whether there are
/// others, as objects.
#[derive(Clone, Copy, Debug, Default, PartialEq)]
pub struct Kinds {
    single: u8,
    items: u8,
    others: bool,
}

/// The kinds of single values, each a bit.
const TRUTH: u8 = 1;
const SHORT: u8 = 2;
const WHOLE: u8 = 4;
const REAL: u8 = 8;
const TEXT: u8 = 16;
/// A list that is there, whatever its items are.
const LIST: u8 = 32;

impl Kinds {
    /// Kinds that are known before there is a value.
    pub const TRUTHS: Kinds = Kinds { single: TRUTH, items: 0, others: false };
    pub const WHOLE_NUMBERS: Kinds = Kinds { single: SHORT, items: 0, others: false };
    pub const NUMBERS: Kinds = Kinds { single: REAL, items: 0, others: false };
    pub const TEXTS: Kinds = Kinds { single: TEXT, items: 0, others: false };
    pub const LISTS: Kinds = Kinds { single: 0, items: LIST, others: false };
    pub const LISTS_OF_WHOLE_NUMBERS: Kinds =
        Kinds { single: 0, items: LIST | SHORT, others: false };
    pub const OTHERS: Kinds = Kinds { single: 0, items: 0, others: true };

    /// The kinds of lists that have a single value among their items.
    pub fn of_item(value: &str) -> Self {
        Kinds { items: LIST | single(value).unwrap_or(TEXT), ..Kinds::default() }
    }

    /// The kinds of a value as it is written.
    fn of(value: &str) -> Self {
        match value.as_bytes().first() {
            Some(b'n') | None => Kinds::default(),
            Some(b'{') => Kinds { others: true, ..Kinds::default() },
            Some(b'[') => match of_items(value) {
                Some(items) => Kinds { items, ..Kinds::default() },
                None => Kinds { others: true, ..Kinds::default() },
            },
            Some(_) => Kinds { single: single(value).unwrap_or(TEXT), ..Kinds::default() },
        }
    }

    /// The kinds of both.
    pub fn with(self, other: Kinds) -> Self {
        Kinds {
            single: self.single | other.single,
            items: self.items | other.items,
            others: self.others | other.others,
        }
    }

    /// True where all values are single ones.
    fn is_single(self) -> bool {
        self.items == 0 && !self.others
    }

    /// The type of a field for such values.
    fn kind(self) -> FieldType {
        match (self.single, self.items, self.others) {
            (single, 0, false) => match single {
                TRUTH => FieldType::BOOLEAN,
                SHORT => FieldType::INTEGER,
                single if single != 0 && single & !(SHORT | WHOLE) == 0 => FieldType::INTEGER64,
                single if single != 0 && single & !(SHORT | WHOLE | REAL) == 0 => FieldType::REAL,
                _ => FieldType::TEXT,
            },
            (0, items, false) => match items & !LIST {
                TRUTH => FieldType::BOOLEANS,
                SHORT => FieldType::INTEGERS,
                TEXT => FieldType::TEXTS,
                items if items != 0 && items & !(SHORT | WHOLE) == 0 => FieldType::INTEGERS64,
                items if items != 0 && items & !(SHORT | WHOLE | REAL) == 0 => FieldType::REALS,
                _ => FieldType::JSON,
            },
            _ => FieldType::JSON,
        }
    }
}

/// The items of a list as they are written.
fn items(list: &str) -> Option<Vec<&str>> {
    let items: Vec<&RawValue> = serde_json::from_str(list).ok()?;
    Some(items.into_iter().map(RawValue::get).collect())
}

/// The kinds of the items of a list, if all are single values.
fn of_items(list: &str) -> Option<u8> {
    let within = list.strip_prefix('[')?.strip_suffix(']')?;
    let kinds = |all: u8, item: &str| Some(all | single(item)?);
    // Numbers stand between commas.
    match within.bytes().all(|byte| byte.is_ascii_digit() || matches!(byte, b',' | b'-')) {
        true if !within.is_empty() => within.split(',').try_fold(LIST, kinds),
        _ => items(list)?.into_iter().try_fold(LIST, kinds),
    }
}

/// The kind of a single value; none of a list, an object or a null.
fn single(value: &str) -> Option<u8> {
    match value.as_bytes().first()? {
        b't' | b'f' => Some(TRUTH),
        b'"' => Some(TEXT),
        b'[' | b'{' | b'n' => None,
        _ if value.parse::<i32>().is_ok() => Some(SHORT),
        _ if value.parse::<i64>().is_ok() => Some(WHOLE),
        _ if value.bytes().all(|byte| byte.is_ascii_digit() || byte == b'-') => Some(TEXT),
        _ => Some(REAL),
    }
}

/// A name is looked for among so many before it is asked for.
const NEAR: usize = 8;

/// The names of properties in the order in which they came, and the kinds of their values.
#[derive(Clone, Debug, Default)]
pub struct Names {
    all: Vec<(String, Kinds)>,
    places: HashMap<String, usize>,
}

impl Names {
    /// Names in a given order, with the kinds that are known before any value.
    pub fn of(names: &[(String, Kinds)]) -> Self {
        let mut all = Names::default();
        names.iter().for_each(|(name, kinds)| all.add(name, *kinds));
        all
    }

    fn add(&mut self, name: &str, kinds: Kinds) {
        self.add_at(self.places.get(name).copied(), name, kinds);
    }

    /// Adds kinds to those of a name at a place, or behind all where it has none.
    fn add_at(&mut self, place: Option<usize>, name: &str, kinds: Kinds) {
        match place {
            Some(place) => self.all[place].1 = self.all[place].1.with(kinds),
            None => {
                self.places.insert(name.to_owned(), self.all.len());
                self.all.push((name.to_owned(), kinds));
            }
        }
    }

    /// Where a name stands, which is likely to be at a place or soon behind it.
    fn place(&self, name: &str, likely: usize) -> Option<usize> {
        let near = self.all.iter().skip(likely).take(NEAR).position(|(each, _)| each == name);
        near.map(|k| likely + k).or_else(|| self.places.get(name).copied())
    }

    /// Adds properties.
    pub fn add_all(&mut self, properties: &[Entry]) {
        let mut likely = 0;
        for (name, value) in properties {
            let place = self.place(name, likely);
            // Where there are others, no value changes the type.
            if !place.map_or(false, |place| self.all[place].1.others) {
                self.add_at(place, name, Kinds::of(value));
            }
            likely = place.map_or(likely, |place| place + 1);
        }
    }

    /// Adds names behind these.
    pub fn merge(&mut self, behind: Names) {
        behind.all.into_iter().for_each(|(name, kinds)| self.add(&name, kinds));
    }

    /// The fields of a layer for these names, where values of an input's fields keep their types.
    /// Names that differ by the size of letters alone get a number, since many formats take them for
    /// one.
    pub fn fields(&self, driver: &Driver, input: &[Field]) -> Fields {
        let (mut fields, mut json): (Vec<Field>, Vec<bool>) = Default::default();
        for (name, kinds) in &self.all {
            let of_input = input.iter().find(|field| field.name == *name && kinds.is_single());
            let wanted = of_input.cloned().unwrap_or_else(|| Field::new(name, kinds.kind()));
            json.push(!kinds.is_single() || wanted.kind == FieldType::JSON);
            let kind = match driver.writes(wanted.kind) {
                true => driver.written(wanted.kind),
                // Lists and objects are JSON; dates and times are texts.
                false if kinds.is_single() => FieldType::TEXT,
                false => driver.written(FieldType::JSON),
            };
            let name = unlike(name, &fields);
            fields.push(match kind == wanted.kind {
                true => Field { name, ..wanted },
                false => Field::new(&name, kind),
            });
        }
        Fields { fields, json, names: self.clone() }
    }
}

/// The name, with a number behind it where another field has it by other letters.
fn unlike(name: &str, others: &[Field]) -> String {
    let taken = |name: &str| others.iter().any(|other| other.name.eq_ignore_ascii_case(name));
    let mut names = (2..).map(|number| format!("{name}_{number}"));
    match taken(name) {
        false => name.to_owned(),
        true => names.find(|name| !taken(name)).unwrap_or_default(),
    }
}

/// The fields of a layer.
pub struct Fields {
    pub fields: Vec<Field>,
    /// Whether the texts of a field are JSON.
    json: Vec<bool>,
    names: Names,
}

impl Fields {
    /// The values of properties, each with the position of its field.
    pub fn values(&self, properties: &[Entry]) -> Vec<(usize, Datum)> {
        let mut likely = 0;
        let value = |(name, value): &Entry| {
            let place = self.names.place(name, likely)?;
            likely = place + 1;
            let (field, json) = (self.fields.get(place)?, *self.json.get(place)?);
            Some((place, datum(value, field.kind, json)?))
        };
        properties.iter().filter_map(value).collect()
    }
}

/// A value as a field of a type takes it; nothing for a null.
fn datum(value: &str, kind: FieldType, json: bool) -> Option<Datum> {
    let list = || items(value);
    match (value, kind.name()) {
        ("null", _) => None,
        ("true", "Integer") => Some(Datum::Whole(1)),
        ("false", "Integer") => Some(Datum::Whole(0)),
        (_, "Integer" | "Integer64") => value.parse().ok().map(Datum::Whole),
        (_, "Real") => value.parse().ok().map(Datum::Real),
        (_, "Binary") => of_hexadecimal(&words(value)).map(Datum::Bytes),
        (_, "IntegerList") => {
            let item = |item: &str| match item {
                "true" => Some(1),
                "false" => Some(0),
                number => number.parse().ok(),
            };
            list()?.into_iter().map(item).collect::<Option<_>>().map(Datum::Integers)
        }
        (_, "Integer64List") => list()?
            .into_iter()
            .map(|item| item.parse().ok())
            .collect::<Option<_>>()
            .map(Datum::Wholes),
        (_, "RealList") => list()?
            .into_iter()
            .map(|item| item.parse().ok())
            .collect::<Option<_>>()
            .map(Datum::Reals),
        (_, "StringList") => Some(Datum::Texts(list()?.into_iter().map(words).collect())),
        _ if json => text(value.to_owned()),
        _ => text(words(value)),
    }
}

/// The words of a text of JSON; any other value as it is written.
fn words(value: &str) -> String {
    serde_json::from_str(value).unwrap_or_else(|_| value.to_owned())
}

/// A text as C takes it, which ends where it has a zero.
fn text(text: String) -> Option<Datum> {
    let mut bytes = text.into_bytes();
    let end = bytes.iter().position(|&byte| byte == 0).unwrap_or(bytes.len());
    bytes.truncate(end);
    CString::new(bytes).ok().map(Datum::Text)
}

#[cfg(test)]
mod tests {
    use super::{FieldType, Kinds};

    fn kind(values: &[&str]) -> FieldType {
        let all = values.iter().map(|value| Kinds::of(value));
        all.fold(Kinds::default(), Kinds::with).kind()
    }

    #[test]
    fn fields_have_the_type_that_their_values_share() {
        assert_eq!(kind(&["true", "null", "false"]), FieldType::BOOLEAN);
        assert_eq!(kind(&["1", "-2"]), FieldType::INTEGER);
        assert_eq!(kind(&["1", "2147483648"]), FieldType::INTEGER64);
        assert_eq!(kind(&["1", "2.5", "2147483648"]), FieldType::REAL);
        assert_eq!(kind(&["1e3"]), FieldType::REAL);
        assert_eq!(kind(&["\"a\"", "1"]), FieldType::TEXT);
        assert_eq!(kind(&["true", "1"]), FieldType::TEXT);
        assert_eq!(kind(&["123456789012345678901234567890"]), FieldType::TEXT);
        assert_eq!(kind(&["null"]), FieldType::TEXT);
    }

    #[test]
    fn lists_have_the_type_that_their_items_share() {
        assert_eq!(kind(&["[]", "[1,2]"]), FieldType::INTEGERS);
        assert_eq!(kind(&["[1]", "[3000000000]"]), FieldType::INTEGERS64);
        assert_eq!(kind(&["[1, 2.5]"]), FieldType::REALS);
        assert_eq!(kind(&["[true,false]"]), FieldType::BOOLEANS);
        assert_eq!(kind(&["[\"a\"]", "null"]), FieldType::TEXTS);
        for others in
            [&["[1,\"a\"]"][..], &["[1,null]"], &["[]"], &["[1]", "1"], &["{}"], &["[[1]]"]]
        {
            assert_eq!(kind(others), FieldType::JSON, "{others:?}");
        }
    }
}
