//! Chains made elsewhere: what is accepted, what is not, and what is found wrong with it.

use lovasuku_chains::large::{self, check_batches, Capacity};
use lovasuku_chains::{
    find, Delivered, DeliveredBuf, Dimension, LinesBuf, Refusal, Rooms, Settings,
};

/// Four roads that meet at 1,0, one that passes through and one of another group.
fn roads() -> LinesBuf {
    let mut roads = LinesBuf::default();
    roads.push([[0.0, 0.0], [1.0, 0.0]], 0);
    roads.push([[2.0, 0.0], [1.0, 0.0]], 0);
    roads.push([[1.0, 0.0], [1.0, 0.0], [1.0, 5.0]], 0);
    roads.push([[1.0, 0.0], [1.0, -5.0]], 1);
    roads.push_passing([[1.0, 0.0], [9.0, 9.0]], 0);
    roads
}

/// Each of the roads by itself.
fn apart(roads: &LinesBuf) -> Vec<(Vec<u32>, Vec<[f64; 2]>)> {
    let lines = roads.lines();
    let mut at = 0;
    let line = |(line, &count): (usize, &u32)| {
        let first = at;
        at += 2 * count as usize;
        let points = lines.coordinates[first..at].chunks(2).map(|p| [p[0], p[1]]).collect();
        (vec![line as u32], points)
    };
    lines.counts.iter().enumerate().map(line).collect()
}

fn delivered(chains: &[(Vec<u32>, Vec<[f64; 2]>)]) -> DeliveredBuf {
    let mut delivered = DeliveredBuf::default();
    for (lines, points) in chains {
        delivered.push(lines.iter().copied(), points.iter().copied());
    }
    delivered
}

/// The verdict, and what is found.
fn judged(roads: &LinesBuf, chains: &DeliveredBuf, tolerance: f64) -> (i64, Option<String>) {
    let settings = Settings::default().with_tolerance(tolerance);
    let checked = Rooms::default().check(roads.lines(), chains.delivered(), settings);
    let found = find(roads.lines(), chains.delivered(), settings);
    (checked.map_or_else(Refusal::number, |()| 0), found.map(|found| found.to_string()))
}

/// The verdict where some of the roads are joined: these in the order of travel, with these points.
fn joined(listing: &[u32], points: &[[f64; 2]]) -> (i64, Option<String>) {
    let roads = roads();
    let mut chains = apart(&roads);
    chains.retain(|(lines, _)| !listing.contains(&lines[0]));
    chains.insert(0, (listing.to_vec(), points.to_vec()));
    judged(&roads, &delivered(&chains), 0.0)
}

fn fault(sentence: &str) -> (i64, Option<String>) {
    (24, Some(sentence.to_string()))
}

#[test]
fn lines_by_themselves_and_joined_at_will_are_accepted() {
    assert_eq!(judged(&roads(), &delivered(&apart(&roads())), 0.0), (0, None));
    // Building joins nothing here, where four ends meet.
    let east = [[0.0, 0.0], [1.0, 0.0], [2.0, 0.0]];
    assert_eq!(joined(&[0, 1], &east), (0, None));
    assert_eq!(joined(&[1, 0], &[east[2], east[1], east[0]]), (0, None));
    assert_eq!(joined(&[0, 2], &[[0.0, 0.0], [1.0, 0.0], [1.0, 5.0]]), (0, None));
    assert_eq!(joined(&[0, 1], &[[-0.0, 0.0], [1.0, -0.0], [2.0, 0.0]]), (0, None));
}

#[test]
fn what_is_wrong_is_found() {
    let east = [[0.0, 0.0], [1.0, 0.0], [2.0, 0.0]];
    let differs = "coordinate 0 of the chain is not its, whichever way it is travelled";
    assert_eq!(joined(&[1, 0], &east), fault(&format!("chain 0, line 1: {differs}")));
    let short = joined(&[0, 1], &east[..2]);
    let differs = "coordinate 2 of the chain is not its, whichever way it is travelled";
    assert_eq!(short, fault(&format!("chain 0, line 1: {differs}")));
    let longer = joined(&[0, 1], &[east[0], east[1], east[2], east[1]]);
    let sentence = "chain 0: from coordinate 3 on the chain is longer than its lines end to end";
    assert_eq!(longer, fault(sentence));
    // The repeat in line 2 is kept where it should have been dropped.
    let kept = joined(&[0, 2], &[[0.0, 0.0], [1.0, 0.0], [1.0, 0.0], [1.0, 5.0]]);
    assert_eq!(kept, fault(&format!("chain 0, line 2: {differs}")));
    let mixed = joined(&[0, 3], &[[0.0, 0.0], [1.0, 0.0], [1.0, -5.0]]);
    assert_eq!(mixed, fault("chain 0, line 3: it is of another group than line 0"));
    let passing = joined(&[0, 4], &[[0.0, 0.0], [1.0, 0.0], [9.0, 9.0]]);
    assert_eq!(passing, fault("chain 0, line 4: it passes through, and does not stand alone"));
    let back = joined(&[0, 0], &[[0.0, 0.0], [1.0, 0.0], [0.0, 0.0]]);
    assert_eq!(back, fault("chain 0, line 0: it stands in chain 0 already"));
    let far = joined(&[0, 1, 2], &[[0.0, 0.0], [1.0, 0.0], [2.0, 0.0], [1.0, 0.0], [1.0, 5.0]]);
    let apart = "chain 0, line 2: it does not meet line 1, which is listed before it";
    assert_eq!(far, fault(apart));
}

#[test]
fn a_lone_line_is_compared_bit_for_bit() {
    let mut roads = roads();
    roads.push([[0.0, 7.0], [-0.0, 8.0]], 0);
    let mut chains = apart(&roads);
    assert_eq!(judged(&roads, &delivered(&chains), 0.0), (0, None));
    let touched = "it stands alone, and coordinate 1 is not its own, bit for bit";
    chains[5].1[1][0] = 0.0;
    let wanted = fault(&format!("chain 5, line 5: {touched}"));
    assert_eq!(judged(&roads, &delivered(&chains), 0.0), wanted);
    // Turned, and with the repeat dropped, lone lines are not theirs.
    let mut chains = apart(&roads);
    chains[0].1.reverse();
    let sentence = "chain 0, line 0: it stands alone, and coordinate 0 is not its own, bit for bit";
    assert_eq!(judged(&roads, &delivered(&chains), 0.0), fault(sentence));
    let mut chains = apart(&roads);
    chains[2].1.remove(0);
    let wanted = fault(&format!("chain 2, line 2: {touched}"));
    assert_eq!(judged(&roads, &delivered(&chains), 0.0), wanted);
}

#[test]
fn every_line_stands_in_one_chain_once() {
    let roads = roads();
    let mut chains = apart(&roads);
    let last = chains.pop().unwrap();
    assert_eq!(judged(&roads, &delivered(&chains), 0.0), fault("line 4: it stands in no chain"));
    chains.extend([last.clone(), (vec![], vec![]), last]);
    let again = fault("chain 6, line 4: it stands in chain 4 already");
    assert_eq!(judged(&roads, &delivered(&chains), 0.0), again);
    chains[6] = (vec![], vec![[1.0, 1.0]]);
    let empty = fault("chain 6: it has coordinates and no line");
    assert_eq!(judged(&roads, &delivered(&chains), 0.0), empty);
    chains.truncate(6);
    assert_eq!(judged(&roads, &delivered(&chains), 0.0), (0, None));
    chains[0].0[0] = 5;
    let record = "chain 0: its record names no chain, or lists what is no line";
    assert_eq!(judged(&roads, &delivered(&chains), 0.0), (23, Some(record.to_string())));
}

#[test]
fn a_choice_that_looks_right_at_first_is_taken_back() {
    // Both ways of the middle line read alike by `==`; only the next line's exact key decides.
    let mut roads = LinesBuf::default();
    roads.push([[5.0, 0.0], [0.0, 0.0]], 0);
    roads.push([[0.0, 0.0], [1.0, 0.0], [0.0, 0.0]], 0);
    roads.push([[-0.0, 0.0], [9.0, 0.0]], 0);
    let way = [[5.0, 0.0], [0.0, 0.0], [1.0, 0.0], [0.0, 0.0], [9.0, 0.0]];
    let mut chains = DeliveredBuf::default();
    chains.push([0, 1, 2], way);
    let apart = "chain 0, line 2: it does not meet line 1, which is listed before it";
    assert_eq!(judged(&roads, &chains, 0.0), fault(apart));
    let mut roads = LinesBuf::default();
    roads.push([[5.0, 0.0], [0.0, 0.0]], 0);
    roads.push([[-0.0, 0.0], [1.0, 0.0], [0.0, 0.0]], 0);
    roads.push([[-0.0, 0.0], [9.0, 0.0]], 0);
    assert_eq!(judged(&roads, &chains, 0.0), (0, None));
    // In one cell a line may be entered at either end, and the places part from one another.
    let mut roads = LinesBuf::default();
    let [a, b, c] = [[0.25, 0.0], [0.5, 0.0], [7.0, 0.0]];
    roads.push([a, b], 0);
    roads.push([a, b], 0);
    roads.push([a, c], 0);
    let judge = |points: &[[f64; 2]], tolerance: f64| {
        let mut chains = DeliveredBuf::default();
        chains.push([0, 1, 2], points.iter().copied());
        judged(&roads, &chains, tolerance).0
    };
    assert_eq!([judge(&[a, b, a, c], 1.0), judge(&[a, b, a, b, a, c], 1.0)], [0, 0]);
    assert_eq!([judge(&[a, b, a, b, c], 1.0), judge(&[a, b, c], 1.0)], [24, 24]);
    assert_eq!([judge(&[a, b, a, c], 0.0), judge(&[a, b, a, b, a, c], 0.0)], [0, 24]);
}

#[test]
fn extras_are_looked_at_in_lone_lines_alone() {
    let mut roads = LinesBuf::of(Dimension::Xyz);
    roads.push([[0.0, 0.0, 7.0], [1.0, 0.0, f64::NAN]], 0);
    roads.push([[1.0, 0.0, 8.0], [2.0, 0.0, 9.0]], 0);
    roads.push([[5.0, 5.0, f64::NAN], [6.0, 6.0, -0.0]], 0);
    let mut rooms = Rooms::default();
    let mut check = |joined: f64, alone: f64| {
        let mut chains = DeliveredBuf::of(Dimension::Xyz);
        chains.push([0, 1], [[0.0, 0.0, joined], [1.0, 0.0, joined], [2.0, 0.0, joined]]);
        chains.push([2], [[5.0, 5.0, f64::NAN], [6.0, 6.0, alone]]);
        rooms.check(roads.lines(), chains.delivered(), Settings::default())
    };
    assert_eq!(check(f64::NAN, -0.0), Ok(()));
    assert_eq!(check(1.0, 0.0), Err(Refusal::NotAcceptable));
}

#[test]
fn refusals_of_lines_and_records_in_their_order() {
    let roads = roads();
    let chains = delivered(&apart(&roads));
    let mut rooms = Rooms::default();
    let mut check = |chains: Delivered, settings| rooms.check(roads.lines(), chains, settings);
    let settings = Settings::default();
    let all = chains.delivered();
    let nowhere = settings.with_origin([0.0, f64::NAN]);
    assert_eq!(check(all, nowhere), Err(Refusal::BadOrigin));
    // A record that is not whole, a listing and coordinates that end too early.
    let short = Delivered { table: &all.table[..all.table.len() - 1], ..all };
    assert_eq!(check(short, nowhere), Err(Refusal::BadOrigin));
    assert_eq!(check(short, settings), Err(Refusal::BadRecord));
    let short = Delivered { listing: &all.listing[1..], ..all };
    assert_eq!(check(short, settings), Err(Refusal::BadRecord));
    let short = Delivered { merged: &all.merged[1..], ..all };
    assert_eq!(check(short, settings), Err(Refusal::BadRecord));
    let mut lost = LinesBuf::default();
    lost.push([[0.0, f64::INFINITY]], 0);
    let refused = Rooms::default().check(lost.lines(), Delivered::default(), nowhere);
    assert_eq!(refused, Err(Refusal::NoPlace));
    // A limit is not looked at, whatever it is.
    assert_eq!(check(all, settings.with_limit(f64::NAN)), Ok(()));
}

/// So many roads of so many lines each, and the chains that building makes of them.
fn network(roads: usize, lines: usize) -> (LinesBuf, DeliveredBuf) {
    let (mut all, mut chains) = (LinesBuf::default(), DeliveredBuf::default());
    // Line by line, so that the lines of a road stand apart.
    for k in 0..lines {
        for road in 0..roads {
            let [x, y] = [k as f64, road as f64];
            let line = [[x, y], [x + 1.0, y]];
            all.push(if (k + road) % 3 == 0 { [line[1], line[0]] } else { line }, 0);
        }
    }
    for road in 0..roads {
        let listing = (0..lines).map(|k| (k * roads + road) as u32);
        chains.push(listing, (0..=lines).map(|k| [k as f64, road as f64]));
    }
    (all, chains)
}

#[test]
fn more_than_a_call_holds_is_checked_in_batches() {
    let (lines, chains) = network(60, 100);
    let (lines, settings) = (lines.lines(), Settings::default());
    let capacity = Capacity::default();
    let cut = check_batches(lines, chains.delivered(), capacity).unwrap();
    assert!(cut.batches.len() > 2 && cut.beyond.is_empty(), "{}", cut.batches.len());
    assert_eq!(large::check(lines, chains.delivered(), settings, capacity), Ok(vec![]));
    let one = Rooms::default().check(lines, chains.delivered(), settings);
    assert_eq!(one, Err(Refusal::TooMany));

    let refused = |chains: &DeliveredBuf| {
        let refused = large::check(lines, chains.delivered(), settings, capacity);
        let found = find(lines, chains.delivered(), settings).unwrap();
        (refused, found.to_string())
    };
    // The last chain lists a line of the first in place of its own.
    let (_, mut twice) = network(59, 100);
    let own = chains.delivered();
    twice.clear();
    for k in 0..60u32 {
        let mut listing = own.listing[100 * k as usize..100 * (k as usize + 1)].to_vec();
        listing[0] = if k == 59 { 0 } else { listing[0] };
        twice.push(listing, (0..=100).map(|x| [f64::from(x), f64::from(k)]));
    }
    let sentence = "chain 59, line 0: it stands in chain 0 already";
    let not = || Err(Refusal::NotAcceptable);
    assert_eq!(refused(&twice), (not(), sentence.to_string()));
    // A chain is missing, and so are its lines.
    let mut missing = DeliveredBuf::default();
    for k in 0..59 {
        let listing = own.listing[100 * k..100 * (k + 1)].iter().copied();
        missing.push(listing, (0..=100).map(|x| [f64::from(x), k as f64]));
    }
    assert_eq!(refused(&missing), (not(), "line 59: it stands in no chain".to_string()));
}

#[test]
fn a_chain_that_no_call_holds_is_judged_without_one() {
    let (lines, chains) = network(3, 2_100);
    let (lines, settings) = (lines.lines(), Settings::default());
    let check =
        |chains: Delivered, settings| large::check(lines, chains, settings, Capacity::default());
    assert_eq!(check(chains.delivered(), settings), Ok(vec![0, 1, 2]));
    assert_eq!(find(lines, chains.delivered(), settings), None);
    let mut moved = chains.delivered().merged.to_vec();
    moved[3_000] += 0.5;
    let moved = Delivered { merged: &moved, ..chains.delivered() };
    assert_eq!(check(moved, settings), Err(Refusal::NotAcceptable));
    let adrift = settings.with_origin([f64::INFINITY, 0.0]);
    assert_eq!(check(chains.delivered(), adrift), Err(Refusal::BadOrigin));
    // A line of more points than a call holds, which stands alone; with a place that is none.
    let mut long = LinesBuf::default();
    long.push((0..40_000).map(|k| [f64::from(k), 0.0]), 0);
    let mut alone = DeliveredBuf::default();
    alone.push([0], (0..40_000).map(|k| [f64::from(k), 0.0]));
    let checked = large::check(long.lines(), alone.delivered(), settings, Capacity::default());
    assert_eq!(checked, Ok(vec![0]));
    let mut lost = LinesBuf::default();
    lost.push((0..40_000).map(|k| [f64::from(k), 0.0 / f64::from(k - 7)]), 0);
    let checked = large::check(lost.lines(), alone.delivered(), settings, Capacity::default());
    assert_eq!(checked, Err(Refusal::NoPlace));
}
