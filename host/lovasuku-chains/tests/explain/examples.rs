//! Single junctions and gaps, and what is told of them.

use super::{explained, Explained, Fault, Settings};
use lovasuku_chains::explain::{bend_of, cell_of, explain, Round, Why};
use lovasuku_chains::large::{Chain, Line, Point, Way};
use lovasuku_chains::{PathLine, Reason, Refusal, Rooms};

/// Each reason of the pairs of a node, in their order.
fn whys(explained: &Explained, node: usize, limit: Option<f64>) -> Vec<Why> {
    explained.nodes()[node].all_whys(&mut Rooms::default(), limit).unwrap()
}

#[test]
fn a_crossing_with_a_pair_that_blocks() {
    let lines: [&[Point]; 4] = [
        &[[-1.0, 0.0], [0.0, 0.0]],
        &[[0.0, 0.0], [1.0, 0.0]],
        &[[0.0, 0.0], [1.0, 0.25]],
        &[[0.0, 1.0], [0.0, 0.0]],
    ];
    let (chains, told) = explained(&lines, Settings::default().with_limit(-0.5)).unwrap();
    assert_eq!(chains.chains().next().unwrap().members, [0, 1]);
    let node = &told.nodes()[0];
    assert_eq!((told.nodes().len(), node.round, node.ends.len()), (1, Round::Exact, 4));
    assert_eq!(node.joined, [[0, 1]]);
    let blocked = Reason::Blocked { place: 0, pair: [0, 1] };
    let sharp = Why::Junction(Reason::NotQualifying);
    let all = [Why::Junction(Reason::Selected), Why::Junction(blocked), sharp, sharp, sharp, sharp];
    assert_eq!(whys(&told, 0, Some(-0.5)), all);
    let [joint] = [told.joints(0)[0]];
    assert_eq!((joint.node, joint.ends, node.rank(joint.ends)), (0, [0, 1], Some(0)));
    assert_eq!(node.measure([1, 0]), Some(-1.0));
    assert_eq!(node.measure([0, 4]), None);
    assert_eq!(bend_of(node.measure([0, 3]).unwrap()), 90.0);
    let why = |of| node.why(&mut Rooms::default(), Some(-0.5), of);
    assert_eq!(why([2, 0]), Ok(Why::Junction(blocked)));
    assert_eq!([why([1, 1]), why([0, 4])], [Err(Refusal::NoTwoEnds); 2]);
    assert_eq!(node.why(&mut Rooms::default(), None, [0, 1]), Ok(Why::NotPaired));
    assert_eq!(node.why(&mut Rooms::default(), Some(7.0), [0, 1]), Err(Refusal::BadLimit));
}

#[test]
fn without_a_limit_no_junction_is_paired() {
    let lines: [&[Point]; 3] =
        [&[[-1.0, 0.0], [0.0, 0.0]], &[[0.0, 0.0], [1.0, 0.0]], &[[0.0, 0.0], [0.0, 1.0]]];
    let (chains, told) = explained(&lines, Settings::default()).unwrap();
    assert_eq!(chains.len(), 3);
    assert!(told.nodes()[0].is_junction() && told.nodes()[0].joined.is_empty());
    assert_eq!(whys(&told, 0, None), [Why::NotPaired; 3]);
}

/// The tolerance's case H of the rules: round one makes a piece of the last two lines, and round two
/// joins it, turned, with the first.
#[test]
fn a_gap_to_a_piece_that_is_turned() {
    let lines: [&[Point]; 3] =
        [&[[0.0, 0.0], [1.25, 0.0]], &[[4.5, 0.0], [3.5, 0.0]], &[[3.5, 0.0], [1.75, 0.0]]];
    let settings = Settings::default().with_tolerance(1.0);
    let (_, told) = explained(&lines, settings).unwrap();
    let rounds = told.joints(0).iter().map(|joint| told.nodes()[joint.node].round);
    assert_eq!(rounds.collect::<Vec<_>>(), [Round::Cells, Round::Exact]);
    let bridge = told.joints(0)[0];
    let ends = bridge.ends.map(|end| told.nodes()[bridge.node].ends[end as usize]);
    assert_eq!(ends.map(|end| (end.line, end.last, end.piece)), [(0, true, 0), (2, true, 1)]);
    assert_eq!(ends.map(|end| cell_of(end.point, settings)), [Some([1, 0]); 2]);
    assert_eq!(cell_of([1.5, -0.5], Settings::default()), None);
    assert_eq!(whys(&told, bridge.node, None), [Why::NoThird]);
    assert_eq!(told.meetings(0, 2), [bridge]);
    assert_eq!(told.meetings(2, 0).len(), 1);
    assert_eq!(told.meetings(0, 1), []);
    // An end that lies within a piece has no node in round two.
    assert_eq!(told.node_of(Round::Cells, 2, false), None);
    assert_eq!(told.node_of(Round::Exact, 7, true), None);
}

#[test]
fn rings_close_and_a_piece_is_not_joined_with_itself() {
    let ring: [&[Point]; 3] = [
        &[[0.0, 0.0], [1.0, 0.0], [1.0, 1.0]],
        &[[0.0, 0.0], [0.0, 1.0], [1.0, 1.0]],
        &[[9.0, 9.0], [8.0, 9.0], [8.0, 8.0], [9.0, 9.0]],
    ];
    let (chains, told) = explained(&ring, Settings::default()).unwrap();
    assert_eq!(chains.len(), 2);
    let (joint, closing) = (told.joints(0)[0], told.closing(0).unwrap());
    assert_ne!(joint.node, closing.node);
    assert_eq!((told.closing(1), told.joints(1), told.joints(5)), (None, &[][..], &[][..]));
    let own = told.meetings(2, 2);
    assert_eq!(whys(&told, own[0].node, None), [Why::OnePiece]);
    assert!(!Why::OnePiece.joins() && Why::NoThird.joins());
}

#[test]
fn chains_of_other_settings_have_no_reason() {
    let points: [[Point; 2]; 2] = [[[0.0, 0.0], [1.25, 0.0]], [[1.75, 0.0], [3.5, 0.0]]];
    let lines = [0, 1].map(|k| Line { points: Some(&points[k]), extras: &[], group: 0 });
    let settings = Settings::default().with_tolerance(1.0);
    let (told, _) = explained(&[&points[0], &points[1]], settings).unwrap();
    let chains: Vec<Chain> = told.chains().collect();
    let without = explain(&lines, &chains, Settings::default(), Way::default());
    assert_eq!(without, Err(Fault::NoReason { lines: [0, 1] }));
    let turned = |line: u32| PathLine { line, turned: line == 1 };
    let other = Chain { path: &[turned(0), turned(1)], ..chains[0] };
    let other = explain(&lines, &[other], settings, Way::default()).unwrap_err();
    let words = "lines 0 and 1 follow each other in a chain, and no rule joins them under these \
                 settings";
    assert_eq!(other.to_string(), words);
    let limit = Settings::default().with_limit(3.0);
    let refused = explained(&[&points[0]], limit).unwrap_err();
    assert_eq!(refused, Fault::Join(Refusal::BadLimit.into()));
}
