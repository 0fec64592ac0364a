//! The properties of lines, by their names: each value as it is written, and once.

use super::bytes::Bytes;
use crate::delivery::Delivery;
use serde_json::{json, Value};
use std::collections::HashMap;

/// The values of one property.
#[derive(Default)]
struct Column<'a> {
    name: String,
    values: Vec<&'a str>,
    numbers: HashMap<&'a str, u64>,
    /// Of each line 0, or the number of its value counted from 1. Lines behind the last have none.
    of: Vec<u64>,
}

impl<'a> Column<'a> {
    fn put(&mut self, line: usize, value: &'a str) {
        let values = &mut self.values;
        let number = *self.numbers.entry(value).or_insert_with(|| {
            values.push(value);
            values.len() as u64
        });
        self.of.resize(line, 0);
        self.of.push(number);
    }

    /// As the page reads it, with about its size in bytes.
    fn told(&self) -> (Value, usize) {
        let mut of = Bytes::default();
        self.of.iter().for_each(|&number| of.number(number));
        let of = of.text();
        let texts = |value: &&str| value.len() + 4;
        let size = of.len() + self.name.len() + self.values.iter().map(texts).sum::<usize>();
        (json!({ "name": self.name, "values": self.values, "of": of }), size)
    }
}

/// The properties as the page reads them, as many as so many bytes hold, and the names of the others.
pub fn columns(delivery: &Delivery, mut room: usize) -> Value {
    let mut columns: Vec<Column> = Vec::new();
    let mut places: HashMap<String, usize> = HashMap::new();
    for line in delivery.lines() {
        for (name, value) in delivery.properties(line).object().iter() {
            let place = *places.entry(name.to_owned()).or_insert(columns.len());
            if place == columns.len() {
                columns.push(Column { name: name.to_owned(), ..Column::default() });
            }
            columns[place].put(line as usize, value);
        }
    }
    let (mut told, mut left) = (Vec::new(), Vec::new());
    for column in columns {
        let (value, size) = column.told();
        match room.checked_sub(size) {
            Some(rest) => {
                room = rest;
                told.push(value);
            }
            None => left.push(column.name),
        }
    }
    json!({ "columns": told, "left": left })
}
