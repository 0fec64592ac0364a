//! JSON objects whose values stay as they are written.

use serde::de::{Deserialize, Deserializer, Error, MapAccess, Visitor};
use serde_json::value::RawValue;
use std::borrow::Cow;
use std::fmt;

/// The names of an object and its values as they are written, in their order. A name that stands
/// twice has its last value.
#[derive(Clone, Debug, Default, PartialEq)]
pub struct Object<'a>(Vec<(Name<'a>, &'a str)>);

/// A name and a value as it is written.
pub type Entry<'a> = (Cow<'a, str>, Cow<'a, str>);

impl<'a> Object<'a> {
    /// The object that a text is, if it is one.
    pub fn of(text: &'a str) -> Option<Self> {
        serde_json::from_str(text).ok()
    }

    /// The value of a name as it is written.
    pub fn get(&self, name: &str) -> Option<&'a str> {
        self.iter().find(|&(each, _)| each == name).map(|(_, value)| value)
    }

    /// All names and values.
    pub fn iter(&self) -> impl Iterator<Item = (&str, &'a str)> {
        self.0.iter().map(|(name, value)| (&*name.0, *value))
    }

    /// True where there is no name.
    pub fn is_empty(&self) -> bool {
        self.0.is_empty()
    }

    /// All names and values, by themselves.
    pub fn into_entries(self) -> impl Iterator<Item = Entry<'a>> {
        self.0.into_iter().map(|(name, value)| (name.0, Cow::Borrowed(value)))
    }

    /// Takes out each name for which the question is answered with no.
    pub fn retain(&mut self, mut question: impl FnMut(&str, &str) -> bool) {
        self.0.retain(|(name, value)| question(&name.0, value));
    }

    /// Lets go of all room that is not used.
    pub fn fit(&mut self) {
        self.0.shrink_to_fit();
    }

    fn put(&mut self, name: Name<'a>, value: &'a str) {
        match self.0.iter_mut().find(|(each, _)| each.0 == name.0) {
            Some((_, last)) => *last = value,
            None => self.0.push((name, value)),
        }
    }
}

impl<'a> FromIterator<(&'a str, &'a str)> for Object<'a> {
    /// The object of names that are all different.
    fn from_iter<I: IntoIterator<Item = (&'a str, &'a str)>>(entries: I) -> Self {
        let name = |(name, value)| (Name(Cow::Borrowed(name)), value);
        Object(entries.into_iter().map(name).collect())
    }
}

impl<'de> Deserialize<'de> for Object<'de> {
    fn deserialize<D: Deserializer<'de>>(from: D) -> Result<Self, D::Error> {
        from.deserialize_map(ObjectVisitor)
    }
}

struct ObjectVisitor;

impl<'de> Visitor<'de> for ObjectVisitor {
    type Value = Object<'de>;

    fn expecting(&self, f: &mut fmt::Formatter) -> fmt::Result {
        f.write_str("an object")
    }

    fn visit_map<A: MapAccess<'de>>(self, mut map: A) -> Result<Object<'de>, A::Error> {
        let mut object = Object::default();
        while let Some((name, value)) = map.next_entry::<Name<'de>, &'de RawValue>()? {
            object.put(name, value.get());
        }
        Ok(object)
    }
}

/// A name, borrowed from the text where it is written without escapes.
#[derive(Clone, Debug, PartialEq)]
struct Name<'a>(Cow<'a, str>);

impl<'de> Deserialize<'de> for Name<'de> {
    fn deserialize<D: Deserializer<'de>>(from: D) -> Result<Self, D::Error> {
        from.deserialize_str(NameVisitor)
    }
}

struct NameVisitor;

impl<'de> Visitor<'de> for NameVisitor {
    type Value = Name<'de>;

    fn expecting(&self, f: &mut fmt::Formatter) -> fmt::Result {
        f.write_str("a name")
    }

    fn visit_borrowed_str<E: Error>(self, name: &'de str) -> Result<Name<'de>, E> {
        Ok(Name(Cow::Borrowed(name)))
    }

    fn visit_str<E: Error>(self, name: &str) -> Result<Name<'de>, E> {
        Ok(Name(Cow::Owned(name.to_owned())))
    }
}

#[cfg(test)]
mod tests {
    use super::Object;

    #[test]
    fn values_stay_as_they_are_written() {
        let object =
            Object::of(r#"{"a": 1.50, "\u0062": {"c" :[ 1 ]}, "a": 123456789012345678901}"#);
        let object = object.unwrap();
        let all: Vec<_> = object.iter().collect();
        assert_eq!(all, [("a", "123456789012345678901"), ("b", r#"{"c" :[ 1 ]}"#)]);
        assert_eq!(object.get("b"), Some(r#"{"c" :[ 1 ]}"#));
        assert_eq!(object.get("c"), None);
    }

    #[test]
    fn anything_else_is_no_object() {
        for text in ["", "null", "[]", "3", "{", r#"{"a":}"#, r#"{"a":1} 2"#] {
            assert!(Object::of(text).is_none(), "{text}");
        }
    }
}
