//! Explanations, judged by the book: of calls of every style, of networks made by chance, and of changed
//! explanations, which are found to be false.

mod book;
mod damages;
mod examples;

use answers::random::Random;
use answers::styles::{districts, networks, origins, BUILDING};
use answers::BuildCall;
use book::{Book, Judged};
use damages::{Parts, DAMAGES};
use lovasuku_chains::explain::{explain, Explained, Fault, Meeting, Round, Why};
use lovasuku_chains::large::{self, join, Capacity, Chain, Line, Point, Told, Way};
use lovasuku_chains::{Dimension, Refusal, Rooms, Settings};

/// The points of each line of a call; nothing for one that passes through.
fn runs(call: &BuildCall) -> Vec<Option<Vec<Point>>> {
    let run = |(line, first): (usize, usize)| {
        let points = call.points(line, first);
        (call.kinds[line] == 0).then(|| points.iter().map(|p| p.map(f64::from_bits)).collect())
    };
    call.firsts().into_iter().enumerate().map(run).collect()
}

fn settings(call: &BuildCall) -> Settings {
    Settings {
        tolerance: f64::from_bits(call.tolerance),
        origin: call.origin.map(f64::from_bits),
        limit: (call.switch == 1).then(|| f64::from_bits(call.limit)),
    }
}

/// An explanation of a call with all reasons that it has.
pub struct Case {
    told: Told,
    explained: Explained,
    whys: Vec<Vec<Why>>,
}

impl Case {
    fn of(call: &BuildCall, capacity: Capacity) -> Result<Case, Fault> {
        let (runs, settings) = (runs(call), settings(call));
        let all = runs.iter().map(Option::as_deref).zip(call.groups.iter().copied());
        let lines: Vec<Line> =
            all.map(|(points, group)| Line { points, extras: &[], group }).collect();
        let way = Way { capacity, ..Way::default() };
        let told = join(Dimension::Xy, &lines, (settings, None), way)?;
        let chains: Vec<Chain> = told.chains().collect();
        let explained = explain(&lines, &chains, settings, way)?;
        let mut rooms = Rooms::default();
        let all = explained.nodes().iter().map(|node| node.all_whys(&mut rooms, settings.limit));
        let whys = all.collect::<Result<_, Refusal>>()?;
        Ok(Case { told, explained, whys })
    }

    fn chains(&self) -> Vec<Chain<'_>> {
        self.told.chains().collect()
    }

    fn joints(&self) -> Vec<Vec<Meeting>> {
        (0..self.told.len()).map(|chain| self.explained.joints(chain).to_vec()).collect()
    }

    fn judged(&self, book: &Book) -> Judged {
        book.judge(self.explained.nodes(), &self.whys, &self.chains(), &self.joints())
    }

    /// How many joints each round made, and how many pairs each joins.
    fn numbers(&self) -> [[usize; 2]; 2] {
        let nodes = self.explained.nodes();
        let of = |round: Round| {
            let joints = self.joints().concat();
            let made = joints.iter().filter(|joint| nodes[joint.node].round == round).count();
            let pairs = nodes.iter().filter(|node| node.round == round);
            [made, pairs.map(|node| node.joined.len()).sum()]
        };
        [of(Round::Exact), of(Round::Cells)]
    }
}

/// What was met in calls, so that a test that meets nothing is seen.
#[derive(Debug, Default)]
struct Met {
    joints: [usize; 2],
    closings: [usize; 2],
    junction_joints: [usize; 2],
    /// The two ends of one piece alone, junctions that are not paired, and the library's reasons.
    whys: [usize; 8],
}

impl Met {
    fn add(&mut self, case: &Case) {
        let nodes = case.explained.nodes();
        for joint in case.joints().concat() {
            let round = usize::from(nodes[joint.node].round == Round::Cells);
            self.joints[round] += 1;
            self.junction_joints[round] += usize::from(nodes[joint.node].is_junction());
        }
        for closing in (0..case.told.len()).filter_map(|chain| case.explained.closing(chain)) {
            self.closings[usize::from(nodes[closing.node].round == Round::Cells)] += 1;
        }
        for why in case.whys.concat() {
            self.whys[match why {
                Why::NoThird => 0,
                Why::OnePiece => 1,
                Why::NotPaired => 2,
                Why::Junction(reason) => 3 + reason.number().min(4) as usize,
            }] += 1;
        }
    }

    fn has_all(&self) -> bool {
        let all = [self.joints, self.closings, self.junction_joints].concat();
        all.iter().chain(&self.whys).all(|&count| count > 100)
    }
}

/// Judges the explanation of a call that is accepted, by one call and by many.
fn judge(call: &BuildCall, met: &mut Met) {
    let case = match Case::of(call, Capacity::default()) {
        Err(Fault::Join(large::Fault::Refused(_))) if call.refusal().is_some() => return,
        case => case.unwrap(),
    };
    let judged = case.judged(&Book::of(call));
    assert_eq!(judged, Ok(()), "{call}");
    // What a round joins is a joint, or closes a ring.
    let [[exact, exact_pairs], [cells, cells_pairs]] = case.numbers();
    let rings = |round: Round| {
        let closes = |chain: &usize| {
            let closing = case.explained.closing(*chain);
            closing.map_or(false, |ends| case.explained.nodes()[ends.node].round == round)
        };
        (0..case.told.len()).filter(closes).count()
    };
    assert_eq!(cells + rings(Round::Cells), cells_pairs, "{call}");
    assert!(exact + rings(Round::Exact) <= exact_pairs, "{call}");
    if settings(call).tolerance > 0.0 {
        assert!(cells > 0 || exact + rings(Round::Exact) == exact_pairs, "{call}");
    } else {
        assert_eq!(exact + rings(Round::Exact), exact_pairs, "{call}");
    }
    met.add(&case);
    if let Ok(cut) = Case::of(call, Capacity { lines: 24, points: 99 }) {
        assert_eq!(cut.joints(), case.joints(), "{call}");
        // A direction may be NaN, which no comparison of numbers finds equal to itself.
        let all = |case: &Case| format!("{:?} {:?}", case.explained.nodes(), case.whys);
        assert_eq!(all(&cut), all(&case), "{call}");
    }
}

#[test]
fn every_joint_and_every_pair_of_every_style() {
    let mut met = Met::default();
    for (name, style) in BUILDING {
        for seed in 0..400 {
            let mut random = Random::new(seed * 1_000_003 + name.len() as u64);
            let size = 1 + random.below(70);
            judge(&style(&mut random, size), &mut met);
        }
    }
    assert!(met.has_all(), "{met:?}");
}

#[test]
fn cells_from_other_corners_and_two_districts() {
    let mut met = Met::default();
    for seed in 0..400 {
        let mut random = Random::new(seed);
        judge(&origins::tiles(&mut random, 40), &mut met);
        let roads = networks::roads(&mut random, 40);
        judge(&districts::divided(&mut random, roads), &mut met);
    }
    assert!(met.joints.iter().all(|&joints| joints > 100), "{met:?}");
}

/// The chains of lines of one group, and their explanation.
fn explained(lines: &[&[Point]], settings: Settings) -> Result<(Told, Explained), Fault> {
    let lines: Vec<Line> =
        lines.iter().map(|points| Line { points: Some(points), extras: &[], group: 0 }).collect();
    let told = join(Dimension::Xy, &lines, (settings, None), Way::default())?;
    let chains: Vec<Chain> = told.chains().collect();
    let explained = explain(&lines, &chains, settings, Way::default())?;
    Ok((told, explained))
}

#[test]
fn a_false_explanation_is_found() {
    let mut found = [0; DAMAGES.len()];
    for (seed, (_, style)) in (0..40).flat_map(|seed| BUILDING.map(|style| (seed, style))) {
        let mut random = Random::new(seed);
        let call = style(&mut random, 30);
        let case = match Case::of(&call, Capacity::default()) {
            Ok(case) => case,
            Err(_) => continue,
        };
        let book = Book::of(&call);
        assert_eq!(case.judged(&book), Ok(()));
        for ((name, damage), found) in DAMAGES.iter().zip(&mut found) {
            let mut parts = Parts::of(&case);
            if damage(&mut parts).is_some() {
                let judged = book.judge(&parts.nodes, &parts.whys, &case.chains(), &parts.joints);
                assert!(judged.is_err(), "{name}: {call}");
                *found += 1;
            }
        }
    }
    assert!(found.iter().all(|&times| times > 20), "{found:?}");
}
