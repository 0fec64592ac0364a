//! The junctions of the page: their ends, the pairs that were selected, and of every pair its measure and
//! the library's reason.

use super::bytes::{zigzag, Bytes};
use lovasuku_chains::explain::{Explained, Node, Round, Why};
use lovasuku_chains::{Refusal, Rooms};
use serde_json::{json, Value};

/// The most ends of a junction of which every pair is told.
const MOST_ENDS: usize = 64;

/// How many pairs are told for each line of the delivery, and how many in any case.
const PAIRS_A_LINE: usize = 5;
const FEW_PAIRS: usize = 50_000;

/// The junctions of an explanation as the page reads them. Of those of many ends only the selected pairs
/// are told, and where there is no limit none, since none is paired.
pub fn junctions(
    explained: &Explained,
    limit: Option<f64>,
    lines: usize,
) -> Result<Value, Refusal> {
    let all: Vec<&Node> = explained.nodes().iter().filter(|node| node.is_junction()).collect();
    let most = most_ends(&all, FEW_PAIRS.max(PAIRS_A_LINE * lines));
    let mut told = Told { rooms: Rooms::default(), limit, ..Told::default() };
    for node in all {
        told.add(node, limit.is_some() && node.ends.len() <= most)?;
    }
    Ok(json!({ "numbers": told.numbers.text(), "measures": told.measures.text() }))
}

/// The most ends of a junction so that all pairs of all that have no more are not too many.
fn most_ends(all: &[&Node], pairs: usize) -> usize {
    let mut of_ends = [0; MOST_ENDS + 1];
    for node in all.iter().filter(|node| node.ends.len() <= MOST_ENDS) {
        of_ends[node.ends.len()] += node.pairs().count();
    }
    let mut sum = 0;
    let fits = |ends: &usize| {
        sum += of_ends[*ends];
        sum <= pairs
    };
    (0..=MOST_ENDS).take_while(fits).last().unwrap_or_default()
}

/// What is written of junctions.
#[derive(Default)]
struct Told {
    rooms: Rooms,
    limit: Option<f64>,
    numbers: Bytes,
    measures: Bytes,
    last: i64,
}

impl Told {
    /// A junction: its round, its ends and their lines, the selected pairs, and where every pair is told,
    /// its reason. Its measures are those of every pair, or else of the selected ones.
    fn add(&mut self, node: &Node, whole: bool) -> Result<(), Refusal> {
        let flags = u64::from(whole) << 1 | u64::from(node.round == Round::Cells);
        self.numbers.number((node.ends.len() as u64) << 2 | flags);
        for end in &node.ends {
            let at = i64::from(end.line) << 1 | i64::from(end.last);
            let absent = u64::from(end.direction.is_none());
            self.numbers.number(zigzag(at - self.last) << 1 | absent);
            self.last = at;
        }
        self.numbers.number(node.joined.len() as u64);
        node.joined.iter().flatten().for_each(|&end| self.numbers.number(u64::from(end)));
        if !whole {
            node.joined.iter().for_each(|&pair| self.measure(node, pair));
            return Ok(());
        }
        node.pairs().for_each(|pair| self.measure(node, pair));
        for why in node.all_whys(&mut self.rooms, self.limit)? {
            if let Why::Junction(reason) = why {
                self.numbers.number(reason.number());
            }
        }
        Ok(())
    }

    /// The measure of a pair, NaN where an end has no direction.
    fn measure(&mut self, node: &Node, pair: [u32; 2]) {
        self.measures.double(node.measure(pair).unwrap_or(f64::NAN));
    }
}
