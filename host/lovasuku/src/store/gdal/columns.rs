//! The columns of a batch, and their values.

use super::arrow::ArrowArray;

/// What a column holds, by the letters of Arrow's formats.
#[derive(Clone, Debug, PartialEq)]
pub enum Format {
    Boolean,
    Int8,
    Int16,
    Int32,
    Int64,
    UInt8,
    UInt16,
    UInt32,
    UInt64,
    Float32,
    Float64,
    /// Texts in UTF-8, or bytes, cut by offsets of four bytes or of eight.
    Bytes {
        text: bool,
        large: bool,
    },
    /// Days from 1970 on.
    Date,
    /// The time of a day.
    Time(Unit),
    /// Moments from 1970 on, and the zone that they are told in.
    Moment(Unit, String),
    /// Lists of values.
    List(Box<Format>),
    /// What is not read.
    Other(String),
}

/// How fine a time is told.
#[derive(Clone, Copy, Debug, PartialEq)]
pub enum Unit {
    Second,
    Milli,
    Micro,
    Nano,
}

impl Unit {
    fn of(letter: Option<char>) -> Option<Self> {
        match letter? {
            's' => Some(Unit::Second),
            'm' => Some(Unit::Milli),
            'u' => Some(Unit::Micro),
            'n' => Some(Unit::Nano),
            _ => None,
        }
    }

    /// How many of them a second has, as a power of ten.
    pub fn digits(self) -> u32 {
        match self {
            Unit::Second => 0,
            Unit::Milli => 3,
            Unit::Micro => 6,
            Unit::Nano => 9,
        }
    }
}

impl Format {
    /// The format of letters, with that of the items where it is a list.
    pub fn of(letters: &str, item: Option<Format>) -> Self {
        let other = || Format::Other(letters.to_owned());
        match letters {
            "b" => Format::Boolean,
            "c" => Format::Int8,
            "s" => Format::Int16,
            "i" => Format::Int32,
            "l" => Format::Int64,
            "C" => Format::UInt8,
            "S" => Format::UInt16,
            "I" => Format::UInt32,
            "L" => Format::UInt64,
            "f" => Format::Float32,
            "g" => Format::Float64,
            "u" | "U" | "z" | "Z" => Format::Bytes {
                text: matches!(letters, "u" | "U"),
                large: matches!(letters, "U" | "Z"),
            },
            "tdD" => Format::Date,
            "+l" => item.map_or_else(other, |item| Format::List(Box::new(item))),
            _ => of_time(letters).unwrap_or_else(other),
        }
    }
}

fn of_time(letters: &str) -> Option<Format> {
    if let Some(unit) = letters.strip_prefix("tt") {
        return Unit::of(unit.chars().next()).map(Format::Time);
    }
    let (unit, zone) = letters.strip_prefix("ts")?.split_once(':')?;
    Some(Format::Moment(Unit::of(unit.chars().next())?, zone.to_owned()))
}

/// A value of a column.
#[derive(Clone, Debug)]
pub enum Value<'b> {
    Null,
    Boolean(bool),
    Whole(i64),
    /// A whole number that may be too large for the others.
    Natural(u64),
    Single(f32),
    Real(f64),
    Text(&'b [u8]),
    Bytes(&'b [u8]),
    /// Days from 1970 on.
    Date(i32),
    Time(i64, Unit),
    Moment(i64, Unit, &'b str),
    /// A date or a time in words.
    Told(String),
    List(Vec<Value<'b>>),
}

/// A column of a batch.
#[derive(Clone, Copy)]
pub struct Column<'b> {
    pub(super) array: &'b ArrowArray,
    pub(super) format: &'b Format,
}

/// The offsets that cut a run.
#[derive(Clone, Copy, Debug)]
pub enum Offsets<'b> {
    Narrow(&'b [i32]),
    Wide(&'b [i64]),
}

impl Offsets<'_> {
    /// Offset k as a place in the run, if it is one.
    pub fn place(self, k: usize) -> Option<usize> {
        match self {
            Offsets::Narrow(all) => all.get(k).and_then(|&place| usize::try_from(place).ok()),
            Offsets::Wide(all) => all.get(k).and_then(|&place| usize::try_from(place).ok()),
        }
    }
}

/// The buffers of an array: what is there, the values or the offsets, and the run.
const VALIDITY: usize = 0;
const VALUES: usize = 1;
const RUN: usize = 2;

impl<'b> Column<'b> {
    /// The number of rows.
    pub fn length(self) -> usize {
        usize::try_from(self.array.length).unwrap_or(0)
    }

    /// False where every row has a value for certain.
    pub fn may_have_nulls(self) -> bool {
        self.array.null_count != 0
    }

    /// True where a row has no value.
    pub fn is_null(self, row: usize) -> bool {
        // SAFETY: the row is below the length, and there is a bit for each.
        row >= self.length() || self.may_have_nulls() && !unsafe { self.array.bit(VALIDITY, row) }
    }

    /// The bytes of all rows in one run, and the offsets that cut it, one more than there are rows;
    /// for columns of bytes alone.
    pub fn run(self) -> Option<(&'b [u8], Offsets<'b>)> {
        let rows = self.length();
        let offsets = match self.format {
            Format::Bytes { large: false, .. } => Offsets::Narrow(self.values(rows + 1)),
            Format::Bytes { large: true, .. } => Offsets::Wide(self.values(rows + 1)),
            _ => return None,
        };
        let end = offsets.place(rows)?;
        // SAFETY: the run reaches to the last offset, and no offset of the array's shifts it.
        Some((unsafe { self.array.bytes(RUN, end) }, offsets))
    }

    /// The value of a row.
    pub fn value(self, row: usize) -> Value<'b> {
        if self.is_null(row) {
            return Value::Null;
        }
        let format = self.format;
        match format {
            // SAFETY: the row is below the length, and there is a bit for each.
            Format::Boolean => Value::Boolean(unsafe { self.array.bit(VALUES, row) }),
            Format::Int8 => Value::Whole(i64::from(self.at::<i8>(row))),
            Format::Int16 => Value::Whole(i64::from(self.at::<i16>(row))),
            Format::Int32 => Value::Whole(i64::from(self.at::<i32>(row))),
            Format::Int64 => Value::Whole(self.at(row)),
            Format::UInt8 => Value::Whole(i64::from(self.at::<u8>(row))),
            Format::UInt16 => Value::Whole(i64::from(self.at::<u16>(row))),
            Format::UInt32 => Value::Whole(i64::from(self.at::<u32>(row))),
            Format::UInt64 => Value::Natural(self.at(row)),
            Format::Float32 => Value::Single(self.at(row)),
            Format::Float64 => Value::Real(self.at(row)),
            Format::Bytes { text: true, .. } => Value::Text(self.cut(row)),
            Format::Bytes { text: false, .. } => Value::Bytes(self.cut(row)),
            Format::Date => Value::Date(self.at(row)),
            Format::Time(unit @ (Unit::Second | Unit::Milli)) => {
                Value::Time(i64::from(self.at::<i32>(row)), *unit)
            }
            Format::Time(unit) => Value::Time(self.at(row), *unit),
            Format::Moment(unit, zone) => Value::Moment(self.at(row), *unit, zone),
            Format::List(item) => self.list(row, item),
            Format::Other(_) => Value::Null,
        }
    }

    /// So many items of the buffer of values, whose type is that of the format.
    fn values<T>(self, count: usize) -> &'b [T] {
        // SAFETY: Arrow lays out a value, or an offset, of this type for each row, and one offset more.
        unsafe { self.array.items(VALUES, count) }
    }

    /// The item of a row, or that of a buffer which is not there.
    fn at<T: Copy + Default>(self, row: usize) -> T {
        self.values(self.length()).get(row).copied().unwrap_or_default()
    }

    /// The bytes of a row.
    fn cut(self, row: usize) -> &'b [u8] {
        let cut = self
            .run()
            .and_then(|(run, offsets)| run.get(offsets.place(row)?..offsets.place(row + 1)?));
        cut.unwrap_or_default()
    }

    fn list(self, row: usize, format: &'b Format) -> Value<'b> {
        let offsets = Offsets::Narrow(self.values(self.length() + 1));
        let items = self.array.child(0).map(|array| Column { array, format });
        match (items, offsets.place(row), offsets.place(row + 1)) {
            (Some(items), Some(from), Some(to)) => {
                Value::List((from..to).map(|k| items.value(k)).collect())
            }
            _ => Value::Null,
        }
    }
}
