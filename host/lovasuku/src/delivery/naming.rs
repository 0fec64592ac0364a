//! Names of lines: ids of features, values of a property, or positions.

use super::feature::scalar;
use super::Delivery;
use std::collections::HashMap;

/// The value of the property that names a line, or what is wrong with it.
pub fn by_property<'a>(value: Option<&'a str>, property: &str) -> Result<&'a str, String> {
    let value = value.ok_or_else(|| format!("it has no property {property:?} for --id"))?;
    scalar(value).ok_or_else(|| format!("its property {property:?} is neither a text nor a number"))
}

/// Whether lines are named by their ids, and what the user has to know about it. Ids name lines
/// where each feature has one of its own; a property that was asked for does in any case.
pub fn judge(delivery: &Delivery, property: Option<&str>) -> (bool, Option<String>) {
    let without = delivery.lines().filter(|&line| delivery.id(line).is_none()).count();
    match (property, twice(delivery)) {
        (Some(property), Some(twice)) => {
            (true, Some(format!("the values of {property:?} do not name one line each: {twice}")))
        }
        (Some(_), None) => (true, None),
        (None, Some(twice)) => (false, Some(format!("ids are not unique: {twice}; {INSTEAD}"))),
        (None, None) if without == 0 => (true, None),
        (None, None) if without == delivery.len() => (false, None),
        (None, None) => {
            let all = delivery.len();
            (false, Some(format!("{without} of {all} lines have no id; {INSTEAD}")))
        }
    }
}

const INSTEAD: &str = "lines are named by their positions instead, counted from 0 \
                       (--id PROPERTY names them by a property)";

/// The positions of features that have ids, and these, line by line.
fn ids<'d>(delivery: &'d Delivery) -> impl Iterator<Item = (u32, &'d str)> {
    delivery.lines().filter_map(|line| Some((delivery.position(line), delivery.id(line)?)))
}

/// True where ids ascend, by their lengths and then by their letters, so that no two features have one.
/// Parts of a feature have its id.
fn ascend(delivery: &Delivery) -> bool {
    let mut before: Option<(u32, &str)> = None;
    ids(delivery).all(|each| {
        let (position, id) = each;
        let last = before.replace(each);
        last.map_or(true, |(of, last)| of == position || (last.len(), last) < (id.len(), id))
    })
}

/// The first name that two features have, in words, with the number of such features.
fn twice(delivery: &Delivery) -> Option<String> {
    if ascend(delivery) {
        return None;
    }
    let mut first: HashMap<&str, u32> = HashMap::new();
    let mut more = 0;
    let mut words = None;
    for (position, id) in ids(delivery) {
        let other = *first.entry(id).or_insert(position);
        if other != position {
            more += 1;
            words.get_or_insert_with(|| format!("{id} names features {other} and {position}"));
        }
    }
    match more {
        0 | 1 => words,
        _ => words.map(|words| format!("{words}, and so for {} more", more - 1)),
    }
}
