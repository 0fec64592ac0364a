//! The types of fields.

use std::os::raw::c_int;

/// A field of a layer.
#[derive(Clone, Debug, PartialEq)]
pub struct Field {
    pub name: String,
    pub kind: FieldType,
    /// How many characters or digits it has at most; 0 where there is no bound.
    pub width: c_int,
    /// How many of its digits stand behind the point.
    pub precision: c_int,
}

impl Field {
    /// A field without bounds.
    pub fn new(name: &str, kind: FieldType) -> Self {
        Field { name: name.to_owned(), kind, width: 0, precision: 0 }
    }
}

/// The type of a field and what is told of it beyond that, by GDAL's numbers.
#[derive(Clone, Copy, Debug, PartialEq)]
pub struct FieldType {
    pub number: c_int,
    pub sub: c_int,
}

impl FieldType {
    pub const INTEGER: FieldType = FieldType { number: 0, sub: 0 };
    pub const BOOLEAN: FieldType = FieldType { number: 0, sub: 1 };
    pub const INTEGERS: FieldType = FieldType { number: 1, sub: 0 };
    pub const BOOLEANS: FieldType = FieldType { number: 1, sub: 1 };
    pub const REAL: FieldType = FieldType { number: 2, sub: 0 };
    pub const REALS: FieldType = FieldType { number: 3, sub: 0 };
    pub const TEXT: FieldType = FieldType { number: 4, sub: 0 };
    /// A text that is JSON.
    pub const JSON: FieldType = FieldType { number: 4, sub: 4 };
    pub const TEXTS: FieldType = FieldType { number: 5, sub: 0 };
    pub const INTEGER64: FieldType = FieldType { number: 12, sub: 0 };
    pub const INTEGERS64: FieldType = FieldType { number: 13, sub: 0 };

    /// True where GDAL 3.6's Arrow streams tell values wrong: truths of GeoPackage and FlatGeobuf, which
    /// end up in other rows, dates before 1970 of other formats, which are a day late, and moments,
    /// which lose their zone. The features of a layer have them right.
    pub fn is_wrong_in_streams(self) -> bool {
        let truth = matches!(self.number, 0 | 1) && self.sub == FieldType::BOOLEAN.sub;
        truth || matches!(self.name(), "Date" | "Time" | "DateTime")
    }

    /// True where values are single ones: no lists, and no texts that may be JSON.
    pub fn is_single(self) -> bool {
        !matches!(self.number, 1 | 3 | 5 | 13) && self != FieldType::JSON
    }

    /// The name of the type, as drivers list what they can write.
    pub fn name(self) -> &'static str {
        match self.number {
            0 => "Integer",
            1 => "IntegerList",
            2 => "Real",
            3 => "RealList",
            5 => "StringList",
            8 => "Binary",
            9 => "Date",
            10 => "Time",
            11 => "DateTime",
            12 => "Integer64",
            13 => "Integer64List",
            _ => "String",
        }
    }

    /// The name of what is told of it beyond its type, as drivers list it.
    pub fn sub_name(self) -> Option<&'static str> {
        match self.sub {
            1 => Some("Boolean"),
            2 => Some("Int16"),
            3 => Some("Float32"),
            4 => Some("JSON"),
            5 => Some("UUID"),
            _ => None,
        }
    }
}
