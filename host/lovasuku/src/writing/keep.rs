//! Which properties of its members a chain has.

use super::{list, value};
use crate::delivery::object::{Entry, Object};
use crate::delivery::Delivery;
use crate::joining::Chain;
use crate::measure::Measure;

/// How the properties of a chain come from those of its members.
#[derive(Clone, Copy, Debug, Default, PartialEq)]
pub enum Keep {
    /// Those that all members share.
    #[default]
    Shared,
    /// All of the first member.
    First,
    /// All of the longest member.
    Longest,
    /// Each as a list of the members' values.
    List,
}

impl Keep {
    /// The ways by their names.
    pub const NAMES: [(&'static str, Keep); 4] = [
        ("shared", Keep::Shared),
        ("first", Keep::First),
        ("longest", Keep::Longest),
        ("list", Keep::List),
    ];

    /// The way of a name.
    pub fn of(name: &str) -> Option<Self> {
        Keep::NAMES.into_iter().find(|(each, _)| *each == name).map(|(_, keep)| keep)
    }

    /// The properties of a chain as they are written, but for those of the given names, and whether
    /// a member has one of these.
    pub fn properties<'a>(
        self,
        delivery: &'a Delivery,
        measure: &Measure,
        chain: &Chain,
        own: &[String],
    ) -> (Vec<Entry<'a>>, bool) {
        let object = |&line: &u32| delivery.properties(line).object();
        let mut all: Vec<Object<'a>> = chain.members.iter().map(object).collect();
        let mut clash = false;
        for object in &mut all {
            object.retain(|name, _| {
                let is_own = own.iter().any(|own| own == name);
                clash |= is_own;
                !is_own
            });
        }
        let kept = match self {
            Keep::Shared => shared(all),
            Keep::First => all.into_iter().next().unwrap_or_default(),
            Keep::Longest => all.swap_remove(longest(delivery, measure, chain)),
            Keep::List => return (lists(&all), clash),
        };
        (kept.into_entries().collect(), clash)
    }

    /// The members of a chain beside those that GeoJSON asks for: of the member that its properties
    /// are of, or what all members share. A box is that of one line alone.
    pub fn foreign<'a>(
        self,
        delivery: &Delivery<'a>,
        measure: &Measure,
        chain: &Chain,
    ) -> Object<'a> {
        let mut all = chain.members.iter().map(|&line| delivery.foreign(line));
        let mut foreign = match self {
            Keep::First => all.next().unwrap_or_default(),
            Keep::Longest => all.nth(longest(delivery, measure, chain)).unwrap_or_default(),
            Keep::Shared | Keep::List => shared(all.collect()),
        };
        if chain.points.is_some() {
            foreign.retain(|name, _| name != "bbox");
        }
        foreign
    }
}

/// What all objects share, in the order of the first.
fn shared(all: Vec<Object>) -> Object {
    let mut all = all.into_iter();
    let mut shared = all.next().unwrap_or_default();
    for other in all {
        shared.retain(|name, text| other.get(name) == Some(text));
    }
    shared
}

/// Which of its members is the longest; the first of several.
fn longest(delivery: &Delivery, measure: &Measure, chain: &Chain) -> usize {
    let runs = |&line: &u32| delivery.shapes().runs(line);
    let length = |line: &u32| runs(line).fold(0.0, |sum, run| sum + measure.length(run));
    let lengths = chain.members.iter().map(length).enumerate();
    let longer = |best: (usize, f64), each: (usize, f64)| if each.1 > best.1 { each } else { best };
    lengths.fold((0, f64::NEG_INFINITY), longer).0
}

/// Each name that an object has, with the list of all values, null where there is none.
fn lists<'a>(all: &[Object<'a>]) -> Vec<Entry<'a>> {
    let mut names: Vec<&str> = Vec::new();
    for (name, _) in all.iter().flat_map(Object::iter) {
        if !names.contains(&name) {
            names.push(name);
        }
    }
    let listed = |name: &str| {
        let mut out = Vec::new();
        list(&mut out, all, |out, object| match object.get(name) {
            Some(text) => out.extend(text.bytes()),
            None => value(out, &()),
        });
        String::from_utf8(out).unwrap_or_default()
    };
    names.into_iter().map(|name| (name.to_owned().into(), listed(name).into())).collect()
}
