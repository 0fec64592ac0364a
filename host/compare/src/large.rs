//! A building call put as a delivery, of which no size is refused, and held to the judge's answer.

use crate::lent;
use crate::Judge;
use answers::model::{self, boxes::boxes};
use answers::random::Random;
use answers::{BuildCall, Built};
use lovasuku_chains::large::{Capacity, Cores, Fault, Joined, Rooms, Way};
use lovasuku_chains::{self as library, PathLine};
use oracle::chains::{with_extras, without_marks};

/// The answer of the judge to lines of any number. Marks, listing and extras, which the Rust does not
/// know, are the model's.
pub fn wanted(judge: Judge, call: &BuildCall) -> Built {
    let modelled = model::built(call);
    match judge {
        Judge::Model => modelled,
        Judge::Oracle(oracle) => {
            let Built { marks, listing, merged, .. } = modelled;
            let flat = without_marks(call, &oracle.chains(call));
            let merged = with_extras(&flat.merged, &merged, call.stride());
            let built = Built { marks, listing, merged, ..flat };
            Built { boxes: boxes(call, &built), ..built }
        }
    }
}

/// A way that a seed determines: calls that hold much or hardly anything, batches of many outlines or of
/// one, on one core or on all, with neighbours or alone.
pub fn way(random: &mut Random) -> Way<'static> {
    let usual = Capacity::default();
    let capacity = Capacity {
        lines: random.pick(&[usual.lines, usual.lines, 64, 9, 5, 3, 2, 1]),
        points: random.pick(&[usual.points, usual.points, usual.points, 200, 12]),
    };
    let batch = random.pick(&[512, 40, 9, 4, 2, 1, 1]);
    let cores = if random.one_in(4) { Cores::All } else { Cores::One };
    Way { capacity, batch, neighbours: random.one_in(2), boxes: true, cores, ..Way::default() }
}

/// Tests that the chains of a delivery are those of the judge, in every number and every bit.
pub fn hold(joined: &Joined, wanted: &Built) -> Result<(), String> {
    let chains = joined.chains();
    let bits = |numbers: &[f64]| numbers.iter().map(|number| number.to_bits()).collect::<Vec<_>>();
    let path = |chain: library::Chain| -> Vec<PathLine> { chain.path().collect() };
    let laid = joined.laid();
    let tests = [
        (chains.len() == wanted.table.len(), "the number of chains"),
        (chains.table() == wanted.table.concat(), "the table"),
        (chains.members() == wanted.members, "the members"),
        (chains.marks() == wanted.marks, "the marks"),
        (chains.listing() == wanted.listing, "the listing"),
        (bits(chains.merged()) == wanted.merged, "the merged coordinates"),
        (has_boxes(&bits(chains.boxes()), &wanted.boxes), "the boxes"),
        (chains.iter().flat_map(path).eq(paths(wanted)), "the paths"),
        (laid.windows(2).all(|two| two[0] < two[1]), "the order of those that were laid"),
        (laid.iter().all(|&k| chains.get(k as usize).is_some()), "the chains that were laid"),
    ];
    match tests.iter().find(|(holds, _)| !holds) {
        Some((_, what)) => Err(format!("{what} differ from the judge's")),
        None => Ok(()),
    }
}

/// True where there are no boxes, or those of the judge.
fn has_boxes(boxes: &[u64], wanted: &[u64]) -> bool {
    boxes.is_empty() || boxes.iter().zip(wanted).all(|(one, other)| one == other)
}

/// The lines of all chains in the listing's order, each with its mark.
fn paths(built: &Built) -> Vec<PathLine> {
    let mut marks = vec![0; built.members.len()];
    for (&line, &mark) in built.members.iter().zip(&built.marks) {
        marks[line as usize] = mark;
    }
    let step = |&line: &u32| PathLine { line, turned: marks[line as usize] == 1 };
    built.listing.iter().map(step).collect()
}

/// Puts a call as a delivery in a way that the seed determines, and holds it to the judge's answer, and
/// to that of one call of the library where one holds it. The error is a sentence about the first
/// difference.
pub fn compare_delivery(
    rooms: &mut Rooms,
    judge: Judge,
    call: &BuildCall,
    seed: u64,
) -> Result<(), String> {
    let coordinates = lent::coordinates(call);
    let (lines, settings) = (lent::lines(call, &coordinates), lent::settings(call));
    let way = way(&mut Random::new(seed));
    let joined = rooms.build_by(lines, settings, way);
    let in_this = |fault: String| format!("{fault} ({way:?})");
    if call.nowhere() || call.adrift() {
        let wanted = if call.nowhere() { 15 } else { 17 };
        return match joined {
            Err(Fault::Refused(refusal)) if refusal.number() == wanted => Ok(()),
            other => Err(in_this(format!("not refusal {wanted}: {:?}", other.map(|_| ())))),
        };
    }
    let joined = joined.map_err(|fault| in_this(fault.to_string()))?;
    hold(&joined, &wanted(judge, call)).map_err(in_this)?;
    let mut one = library::Rooms::default();
    match one.build(lines, settings) {
        Ok(chains) => hold_to_one(&joined, &chains).map_err(in_this),
        Err(_) => Ok(()),
    }
}

/// Tests that the chains of a delivery are those of one call.
pub fn hold_to_one(joined: &Joined, one: &library::Chains) -> Result<(), String> {
    let chains = joined.chains();
    let bits = |numbers: &[f64]| numbers.iter().map(|number| number.to_bits()).collect::<Vec<_>>();
    let same = chains.table() == one.table()
        && (chains.members(), chains.marks()) == (one.members(), one.marks())
        && chains.listing() == one.listing()
        && bits(chains.merged()) == bits(one.merged());
    match same {
        true => Ok(()),
        false => Err("the chains differ from those of one call".to_string()),
    }
}
