//! The features of a text, each as it is written.

use super::object::Object;
use serde::de::{DeserializeSeed, Deserializer, IgnoredAny, MapAccess, SeqAccess, Visitor};
use serde_json::value::RawValue;
use std::cell::Cell;
use std::fmt;

/// The features of a text, and what a FeatureCollection has beside them.
#[derive(Debug, Default, PartialEq)]
pub struct Split<'a> {
    pub features: Vec<&'a str>,
    /// All members of the FeatureCollection but its type and its features.
    pub members: Object<'a>,
}

/// Takes a text apart: one FeatureCollection, or features one after another.
pub fn split(text: &str) -> Result<Split<'_>, String> {
    let mut values = serde_json::Deserializer::from_str(text).into_iter::<&RawValue>();
    let first = match values.next() {
        None => return Err("the input is empty".into()),
        Some(first) => first.map_err(|fault| in_collection(text, &fault))?.get(),
    };
    if let Some(collection) = collection(first) {
        return match values.next() {
            None => of_collection(collection),
            Some(_) => Err("there is more after the FeatureCollection".into()),
        };
    }
    let mut features = vec![first];
    for value in values {
        features.push(value.map_err(|fault| bad(features.len(), &fault))?.get());
    }
    Ok(Split { features, members: Object::default() })
}

/// The FeatureCollection that a text is, if it is one.
fn collection(text: &str) -> Option<Object<'_>> {
    Object::of(text).filter(|object| object.get("type") == Some("\"FeatureCollection\""))
}

fn of_collection(collection: Object<'_>) -> Result<Split<'_>, String> {
    let list = collection.get("features").unwrap_or("null");
    let features: Vec<&RawValue> =
        serde_json::from_str(list).map_err(|_| "the FeatureCollection has no list of features")?;
    let features = features.into_iter().map(RawValue::get).collect();
    let mut members = collection;
    members.retain(|name, _| name != "type" && name != "features");
    Ok(Split { features, members })
}

/// The fault of bad JSON in a feature.
fn bad(feature: usize, fault: &serde_json::Error) -> String {
    format!("feature {feature}: bad JSON: {fault}")
}

/// The fault of bad JSON in a text that may be a FeatureCollection.
fn in_collection(text: &str, fault: &serde_json::Error) -> String {
    let place = Cell::new(Place::Before);
    let mut reader = serde_json::Deserializer::from_str(text);
    // The same fault ends this reading; what counts is how far it came.
    let _ = Features(&place).deserialize(&mut reader);
    match place.get() {
        Place::Before => bad(0, fault),
        Place::In(feature) => bad(feature, fault),
        Place::After => format!("after the last feature: bad JSON: {fault}"),
    }
}

/// How far the reading of a FeatureCollection came.
#[derive(Clone, Copy)]
enum Place {
    Before,
    In(usize),
    After,
}

/// Counts the features of a FeatureCollection while they are read.
struct Features<'p>(&'p Cell<Place>);

impl<'de> DeserializeSeed<'de> for Features<'_> {
    type Value = ();

    fn deserialize<D: Deserializer<'de>>(self, from: D) -> Result<(), D::Error> {
        from.deserialize_any(self)
    }
}

impl<'de> Visitor<'de> for Features<'_> {
    type Value = ();

    fn expecting(&self, f: &mut fmt::Formatter) -> fmt::Result {
        f.write_str("a FeatureCollection")
    }

    fn visit_map<A: MapAccess<'de>>(self, mut map: A) -> Result<(), A::Error> {
        while let Some(name) = map.next_key::<String>()? {
            match &name[..] {
                "features" => map.next_value_seed(Features(self.0))?,
                _ => map.next_value::<IgnoredAny>().map(|_| ())?,
            }
        }
        Ok(())
    }

    fn visit_seq<A: SeqAccess<'de>>(self, mut list: A) -> Result<(), A::Error> {
        self.0.set(Place::In(0));
        for feature in 1.. {
            if list.next_element::<IgnoredAny>()?.is_none() {
                break;
            }
            self.0.set(Place::In(feature));
        }
        self.0.set(Place::After);
        Ok(())
    }
}

#[cfg(test)]
mod tests {
    use super::{split, Object, Split};

    #[test]
    fn a_collection_with_its_members() {
        let text = r#" {"crs": {"n" : 1}, "features": [{"a":1}, 2], "type": "FeatureCollection",
            "name": "x"} "#;
        let members = Object::of(r#"{"crs":{"n" : 1},"name":"x"}"#).unwrap();
        let wanted = Split { features: vec![r#"{"a":1}"#, "2"], members };
        assert_eq!(split(text), Ok(wanted));
    }

    #[test]
    fn features_one_after_another() {
        let features = vec!["{\"a\":1}", "{}", "{}"];
        let wanted = Split { features, members: Object::default() };
        assert_eq!(split("{\"a\":1}\n{}\n\n {}\n"), Ok(wanted));
    }

    #[test]
    fn bad_json_is_placed() {
        let fault = |text: &str| split(text).unwrap_err();
        assert_eq!(fault(""), "the input is empty");
        assert_eq!(
            fault("{}\n{}\n{\"a\":}"),
            "feature 2: bad JSON: expected value at line 3 column 6"
        );
        let start = r#"{"type": "FeatureCollection", "features": [{}, {}"#;
        assert!(fault(&format!("{start}, {{x}}]}}")).starts_with("feature 2: bad JSON: "));
        assert!(fault(&format!("{start}], x}}")).starts_with("after the last feature: bad JSON: "));
        assert_eq!(fault(&format!("{start}]}} 3")), "there is more after the FeatureCollection");
        let none = r#"{"type": "FeatureCollection"}"#;
        assert_eq!(fault(none), "the FeatureCollection has no list of features");
    }
}
