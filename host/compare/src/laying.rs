//! What the crews rely on, judged without a model of the joining: the lines of a chain, taken in the
//! order of the listing and each turned where its mark says so, are the chain.

use answers::{BuildCall, Built, Record};
use std::collections::HashMap;

/// Holds an accepted call to these laws. The error is a sentence about the first that does not hold.
///
/// - The listing of each chain has its members, each once.
/// - A chain of one line lists it, unturned.
/// - The lines of any other, in the order of the listing and each backwards where its mark is 1, laid
///   end to end with repeats dropped, are its coordinates: number by number by `==`.
pub fn check(call: &BuildCall, built: &Built) -> Result<(), String> {
    let firsts = call.firsts();
    for (number, record) in built.table.iter().enumerate() {
        let chain = Chain::of(built, record).map_err(|fault| format!("chain {number}: {fault}"))?;
        match chain.listing {
            [line] if chain.marks[line] == 0 => (),
            [_] => return Err(format!("chain {number}: a line alone is turned")),
            _ if chain.laid(call, &firsts) == points(call, built, record) => (),
            _ => {
                return Err(format!(
                "chain {number}: its lines, laid as listing and marks say, are not its coordinates"
            ))
            }
        }
    }
    Ok(())
}

/// The lines of a chain in the order of the listing, and the mark of each.
struct Chain<'a> {
    listing: &'a [u32],
    marks: HashMap<u32, u8>,
}

/// A point by its floats, which are compared by `==`.
type Point = [f64; 2];

impl<'a> Chain<'a> {
    fn of(built: &'a Built, record: &Record) -> Result<Self, &'static str> {
        let places = record[0] as usize..(record[0] + record[1]) as usize;
        let members = &built.members[places.clone()];
        let listing = built.listing.get(places.clone()).ok_or("the listing ends too early")?;
        let marks: HashMap<u32, u8> =
            members.iter().copied().zip(built.marks[places].iter().copied()).collect();
        let [mut sorted, mut listed] = [members, listing].map(<[u32]>::to_vec);
        sorted.sort_unstable();
        listed.sort_unstable();
        match sorted == listed {
            true => Ok(Chain { listing, marks }),
            false => Err("its listing does not have its members, each once"),
        }
    }

    /// Its lines laid end to end.
    fn laid(&self, call: &BuildCall, firsts: &[usize]) -> Vec<Point> {
        let mut laid: Vec<Point> = Vec::new();
        for line in self.listing {
            let mut points = call.points(*line as usize, firsts[*line as usize]);
            if self.marks[line] == 1 {
                points.reverse();
            }
            for point in points.into_iter().map(|point| point.map(f64::from_bits)) {
                if laid.last() != Some(&point) {
                    laid.push(point);
                }
            }
        }
        laid
    }
}

/// The points that a record names in the merged coordinates.
fn points(call: &BuildCall, built: &Built, record: &Record) -> Vec<Point> {
    let all = built.merged.chunks(call.stride());
    let run = all.skip(record[3] as usize).take(record[4] as usize);
    run.map(|numbers| [0, 1].map(|k| f64::from_bits(numbers[k]))).collect()
}
