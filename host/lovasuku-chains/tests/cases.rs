//! The cases of the rules, both sides of each edge, in order of letter.

use lovasuku_chains::{Ends, LinesBuf, OwnedChain, PathLine, Refusal, Rooms, Route, Settings};

type Point = (f64, f64);

/// The chains of plain lines with their groups.
fn built_in(lines: &[(&[Point], u32)], settings: Settings) -> Vec<OwnedChain> {
    let mut all = LinesBuf::default();
    for &(points, group) in lines {
        all.push(points.iter().map(|&(x, y)| [x, y]), group);
    }
    let mut rooms = Rooms::default();
    let chains = rooms.build(all.lines(), settings).expect("the call is accepted");
    chains.iter().map(OwnedChain::from).collect()
}

/// The chains of plain lines of one group.
fn built(lines: &[&[Point]], settings: Settings) -> Vec<OwnedChain> {
    let lines: Vec<_> = lines.iter().map(|&points| (points, 0)).collect();
    built_in(&lines, settings)
}

fn members(chains: &[OwnedChain]) -> Vec<&[usize]> {
    chains.iter().map(|chain| &chain.members[..]).collect()
}

/// The lines of a chain in the order in which its points pass them, and whether each is turned.
fn path(chain: &OwnedChain) -> Vec<(u32, bool)> {
    chain.path.iter().map(|&PathLine { line, turned }| (line, turned)).collect()
}

fn exact() -> Settings {
    Settings::default()
}

fn tolerance(tolerance: f64) -> Settings {
    exact().with_tolerance(tolerance)
}

/// The pairs of present ends, the same by every route.
fn pairs(ends: &[(Point, u32)], limit: f64) -> Vec<[u32; 2]> {
    let directions: Vec<f64> = ends.iter().flat_map(|&((x, y), _)| [x, y]).collect();
    let pieces: Vec<u32> = ends.iter().map(|&(_, piece)| piece).collect();
    let present = vec![1; ends.len()];
    let ends = Ends { present: &present, directions: &directions, pieces: &pieces };
    let mut rooms = Rooms::default();
    let mut by = |route| rooms.pairs(route, ends, limit).expect("the call is accepted").to_vec();
    let plain = by(Route::Plain);
    assert_eq!(plain, by(Route::Indexed));
    assert_eq!(plain, by(Route::Chosen));
    plain
}

#[test]
fn case_a_no_lines() {
    assert_eq!(built(&[], exact()), []);
}

#[test]
fn case_b_two_lines_end_to_end() {
    let (first, second): (&[Point], &[Point]) = (&[(0., 0.), (1., 0.)], &[(1., 0.), (2., 0.)]);
    let chains = built(&[first, second], exact());
    assert_eq!(members(&chains), [[0, 1]]);
    assert_eq!(chains[0].points, [(0., 0.), (1., 0.), (2., 0.)]);
    assert_eq!(path(&chains[0]), [(0, false), (1, false)]);
    let apart = built_in(&[(first, 0), (second, 1)], exact());
    assert_eq!(members(&apart), [[0], [1]]);
}

#[test]
fn case_c_walked_from_the_free_end() {
    let chains = built(&[&[(1., 0.), (0., 0.)], &[(1., 0.), (2., 0.)]], exact());
    assert_eq!(members(&chains), [[1, 0]]);
    assert_eq!(path(&chains[0]), [(1, true), (0, false)]);
    assert_eq!(chains[0].points, [(2., 0.), (1., 0.), (0., 0.)]);
}

#[test]
fn case_d_rings() {
    let alone: &[Point] = &[(0., 0.), (1., 0.), (0., 1.), (0., 0.)];
    let chains = built(&[alone], exact());
    assert_eq!(members(&chains), [[0]]);
    assert_eq!(chains[0].points, alone);
    assert!(chains[0].is_loop);
    let of_two = built(&[&[(0., 0.), (1., 0.)], &[(1., 0.), (1., 1.), (0., 0.)]], exact());
    assert_eq!(members(&of_two), [[0, 1]]);
    assert_eq!(of_two[0].points, [(0., 0.), (1., 0.), (1., 1.), (0., 0.)]);
    assert!(of_two[0].is_loop);
}

/// Whether a line of these points is a loop, by itself.
fn looped(points: &[Point]) -> bool {
    built(&[points], exact())[0].is_loop
}

#[test]
fn loops_have_three_coordinates_and_close_bit_for_bit() {
    let out = (5., 0.);
    assert!(!looped(&[]) && !looped(&[out]) && !looped(&[out, out]));
    assert!(looped(&[out, out, out]) && looped(&[out, (6., 0.), out]));
    assert!(!looped(&[out, (6., 0.), (5., -0.)]) && !looped(&[(0., 1.), out, (-0., 1.)]));
    assert!(looped(&[(-0., 1.), out, (-0., 1.)]));
    // Two lines that meet at both ends in one cell are joined, and do not close.
    let lines: [&[Point]; 2] = [&[(0., 0.), (5., 5.), (9., 0.)], &[(0.25, 0.), (9.5, 0.)]];
    let chains = built(&lines, tolerance(1.));
    assert_eq!((chains.len(), chains[0].points.len(), chains[0].is_loop), (1, 5, false));
    // A line of one point and the two zeros of case F are none.
    assert!(!built(&[&[(0., 0.), (-0., 0.)], &[(-0., 0.), (0., 0.)]], exact())[0].is_loop);
}

#[test]
fn case_e_a_junction_with_the_switch_on_and_off() {
    let lines: [&[Point]; 3] =
        [&[(-1., 0.), (0., 0.)], &[(0., 0.), (1., 0.)], &[(0., 0.), (0., 1.)]];
    let on = built(&lines, exact().with_limit(-0.5));
    assert_eq!(members(&on), [&[0, 1][..], &[2]]);
    let off = built(&lines, exact());
    assert_eq!(members(&off), [[0], [1], [2]]);
}

#[test]
fn case_f_both_zeros_meet_and_are_one_coordinate() {
    let chains = built(&[&[(0., 0.), (-0., 0.)], &[(-0., 0.), (0., 0.)]], exact());
    assert_eq!(chains.len(), 1);
    assert_eq!(chains[0].members.len(), 2);
    assert_eq!(chains[0].points.len(), 1);
}

#[test]
fn case_g_one_cell_or_two() {
    let first: &[Point] = &[(0.25, 0.), (1.25, 0.)];
    let near = built(&[first, &[(1.75, 0.), (3.5, 0.)]], tolerance(1.));
    assert_eq!(members(&near), [[0, 1]]);
    assert_eq!(near[0].points, [(0.25, 0.), (1.25, 0.), (1.75, 0.), (3.5, 0.)]);
    let far = built(&[first, &[(2., 0.), (3.5, 0.)]], tolerance(1.));
    assert_eq!(members(&far), [[0], [1]]);
}

#[test]
fn case_h_members_of_a_piece_walked_backwards() {
    let lines: [&[Point]; 3] =
        [&[(0., 0.), (1.25, 0.)], &[(4.5, 0.), (3.5, 0.)], &[(3.5, 0.), (1.75, 0.)]];
    let chains = built(&lines, tolerance(1.));
    assert_eq!(members(&chains), [[0, 1, 2]]);
    assert_eq!(path(&chains[0]), [(0, false), (2, true), (1, true)]);
    let x: Vec<f64> = chains[0].points.iter().map(|point| point.0).collect();
    assert_eq!(x, [0., 1.25, 1.75, 3.5, 4.5]);
}

#[test]
fn a_mark_counts_both_rounds() {
    // Round one turns line 2, which round two leaves as it is.
    let once: [&[Point]; 3] =
        [&[(0., 0.), (1.25, 0.)], &[(1.75, 0.), (3.5, 0.)], &[(4.5, 0.), (3.5, 0.)]];
    let chains = built(&once, tolerance(1.));
    assert_eq!(path(&chains[0]), [(0, false), (1, false), (2, true)]);
    // Round one turns line 2, and round two turns it back.
    let twice: [&[Point]; 3] =
        [&[(0., 0.), (1.25, 0.)], &[(4.5, 0.), (3.5, 0.)], &[(1.75, 0.), (3.5, 0.)]];
    let chains = built(&twice, tolerance(1.));
    assert_eq!(members(&chains), [[0, 1, 2]]);
    assert_eq!(path(&chains[0]), [(0, false), (2, false), (1, true)]);
    // A piece that round two leaves alone keeps round one's marks.
    let alone: [&[Point]; 2] = [&[(0., 0.), (1., 0.)], &[(2., 0.), (1., 0.)]];
    assert_eq!(path(&built(&alone, tolerance(0.1))[0]), [(0, false), (1, true)]);
}

#[test]
fn case_i_repeats_stay_in_a_lone_line_alone() {
    let repeated: &[Point] = &[(0., 0.), (0., 0.), (1., 0.)];
    assert_eq!(built(&[repeated], exact())[0].points, repeated);
    let joined = built(&[repeated, &[(1., 0.), (2., 0.)]], exact());
    assert_eq!(joined[0].points, [(0., 0.), (1., 0.), (2., 0.)]);
}

#[test]
fn case_j_ties_go_by_index() {
    let ends = [((1., 0.), 0), ((-1., 0.), 1), ((-1., 0.), 2), ((1., 0.), 3)];
    assert_eq!(pairs(&ends, -1.), [[0, 1], [2, 3]]);
}

#[test]
fn case_k_one_piece_never_meets_itself() {
    let ends = [((1., 0.), 7), ((-1., 0.), 7), ((1., 0.), 8)];
    assert_eq!(pairs(&ends, -1.), [[1, 2]]);
}

#[test]
fn case_l_a_wider_limit_adds_pairs() {
    let ends = [((1., 0.), 0), ((-1., 0.), 1), ((0., 1.), 2), ((1., 0.), 3)];
    assert_eq!(pairs(&ends, -1.), [[0, 1]]);
    assert_eq!(pairs(&ends, 0.), [[0, 1], [2, 3]]);
}

/// The chains at a junction of a line of the given length along x, one toward -x and one toward y.
fn junction(length: f64, limit: f64) -> Vec<Vec<usize>> {
    let lines: [&[Point]; 3] =
        [&[(0., 0.), (length, 0.)], &[(0., 0.), (-1., 0.)], &[(0., 0.), (0., 1.)]];
    let chains = built(&lines, exact().with_limit(limit));
    chains.into_iter().map(|chain| chain.members).collect()
}

#[test]
fn case_m_directions_at_the_edges_of_the_root() {
    let straight = vec![vec![1, 0], vec![2]];
    // (1, 0): straight on from (-1, 0).
    assert_eq!(junction(2f64.powi(-537), -1.), straight);
    assert_eq!(junction(2f64.powi(511), -1.), straight);
    // Absent: the other two are paired at the widest limit.
    assert_eq!(junction(2f64.powi(-538), 1.), [vec![0], vec![2, 1]]);
    // (0, 0): present, with a measure of 0 to each of the others.
    assert_eq!(junction(2f64.powi(512), 0.), straight);
    assert_eq!(junction(2f64.powi(512), -0.5), [[0], [1], [2]]);
}

/// The number of chains of two lines along x that end at the two given places.
fn met(left: f64, right: f64) -> usize {
    built(&[&[(-9., 0.), (left, 0.)], &[(right, 0.), (9., 0.)]], tolerance(1.)).len()
}

#[test]
fn case_n_cells_about_zero() {
    assert_eq!(met(-0.25, -0.75), 1);
    assert_eq!(met(-0.25, 0.), 2);
    assert_eq!(met(-0., 0.75), 1);
    assert_eq!(met(-0., -0.25), 2);
}

/// The number of chains of case G's two lines, the second from the given place, with cells counted
/// from an origin.
fn from(origin: [f64; 2], second: f64) -> usize {
    let lines: [&[Point]; 2] = [&[(0.25, 0.), (1.25, 0.)], &[(second, 0.), (3.5, 0.)]];
    built(&lines, tolerance(1.).with_origin(origin)).len()
}

#[test]
fn cells_are_counted_from_the_origin() {
    assert_eq!([1.75, 2.].map(|second| from([0., 0.], second)), [1, 2]);
    assert_eq!([1.75, 2.].map(|second| from([-0., -0.], second)), [1, 2]);
    // A quarter further on the line of the grid runs behind 2 and not before it.
    assert_eq!([1.75, 2.].map(|second| from([0.25, 0.], second)), [1, 1]);
    // Between 1.25 and 1.75 it runs from the half, by x alone.
    assert_eq!([1.75, 2.].map(|second| from([0.5, 0.], second)), [2, 2]);
    assert_eq!([1.75, 2.].map(|second| from([0., 0.5], second)), [1, 2]);
    // Differences to a far origin round alike, so that all ends lie in one cell.
    assert_eq!(from([1e300, 0.], 2.), 2);
    // Ends that meet exactly are joined wherever cells are counted from.
    let chains =
        built(&[&[(0., 0.), (1., 0.)], &[(1., 0.), (2., 0.)]], exact().with_origin([7., 7.]));
    assert_eq!(members(&chains), [[0, 1]]);
}

#[test]
fn a_limit_is_not_looked_at_without_junction_pairing() {
    let mut rooms = Rooms::default();
    let lines = LinesBuf::default();
    assert!(rooms.build(lines.lines(), exact()).is_ok());
    let refused = rooms.build(lines.lines(), exact().with_limit(f64::NAN));
    assert_eq!(refused.err(), Some(Refusal::BadLimit));
}
