//! One exact round, many zooms: first and finish are build, and pieces may be lent otherwise.

use lovasuku_chains::large::{join, join_zooms, Capacity, Line, Way};
use lovasuku_chains::{
    Chains, Dimension, First, FirstBuf, LinesBuf, Pieces, Refusal, Rooms, Settings,
};

const TOLERANCES: [f64; 5] = [0.0, 0.5, 2.0, 5.0, 10.0];

/// Streets with gaps, drawn either way, a line that passes through and one of a point.
fn city(side: usize) -> LinesBuf {
    let mut lines = LinesBuf::default();
    for (row, column) in (0..side).flat_map(|row| (0..side).map(move |column| (row, column))) {
        let [x, y] = [column as f64 * 10.0, row as f64 * 10.0];
        let gap = ((row + 2 * column) % 4) as f64 * 0.7;
        let across = [[x + gap, y], [x + 4.0, y + 1.0], [x + 10.0, y]];
        let down = [[x, y + gap], [x + 0.5, y + 6.0], [x, y + 10.0]];
        for street in [across, down] {
            let turned = [street[2], street[1], street[0]];
            lines
                .push(if (row + column) % 3 == 0 { turned } else { street }, (row % 5 == 4) as u32);
        }
    }
    lines.push_passing([[0.0, 0.0], [9.0, 9.0]], 0);
    lines.push([[3.0, 3.0]], 0);
    lines
}

/// All that chains tell.
fn told(chains: Chains) -> (Vec<u32>, Vec<u32>, Vec<u8>, Vec<u32>, Vec<u64>, Vec<u64>) {
    let bits = |numbers: &[f64]| numbers.iter().map(|x| x.to_bits()).collect();
    (
        chains.table().to_vec(),
        chains.members().to_vec(),
        chains.marks().to_vec(),
        chains.listing().to_vec(),
        bits(chains.merged()),
        // What lies behind the boxes of all levels is not written.
        chains.iter().flat_map(|chain| chain.points()).flatten().map(f64::to_bits).collect(),
    )
}

#[test]
fn finishing_is_building() {
    let lines = city(9);
    let (mut rooms, mut other, mut buffers) = (Rooms::new(), Rooms::new(), FirstBuf::new());
    for limit in [None, Some(-0.5), Some(1.0)] {
        let settings = Settings { limit, ..Settings::default() };
        let first = rooms.first(lines.lines(), settings, &mut buffers).unwrap();
        let mut numbers = Vec::new();
        for tolerance in TOLERANCES {
            for origin in [[0.0, 0.0], [3.5, -1.25]] {
                let settings = settings.with_tolerance(tolerance).with_origin(origin);
                let finished = rooms.finish(first, settings).unwrap();
                let built = other.build(lines.lines(), settings).unwrap();
                numbers.push(built.len());
                let paths = |chains: &Chains| -> Vec<(u32, bool)> {
                    let all = chains.iter().flat_map(|chain| chain.path());
                    all.map(|step| (step.line, step.turned)).collect()
                };
                assert_eq!(paths(&finished), paths(&built));
                let levels = 4 * built.len();
                assert_eq!(finished.boxes()[..levels], built.boxes()[..levels]);
                assert_eq!(told(finished), told(built), "{settings:?}");
            }
        }
        numbers.sort_unstable();
        numbers.dedup();
        assert!(numbers.len() > 3, "{numbers:?}");
    }
}

#[test]
fn pieces_of_round_one() {
    let mut lines = LinesBuf::default();
    lines.push([[0.0, 0.0], [1.25, 0.0]], 0);
    lines.push_passing([[0.0, 0.0], [7.0, 0.0]], 0);
    lines.push([[4.5, 0.0], [3.5, 0.0]], 0);
    lines.push([[3.5, 0.0], [1.75, 0.0]], 0);
    let (mut rooms, mut buffers) = (Rooms::new(), FirstBuf::new());
    let first = rooms.first(lines.lines(), Settings::default(), &mut buffers).unwrap();
    let wanted = Pieces {
        records: &[0, 1, 0, 0, 2, 1, 2, 1, 0, 3],
        members: &[0, 2, 3],
        marks: &[0, 0, 0],
        listing: &[0, 2, 3],
        merged: &[4.5, 0.0, 3.5, 0.0, 1.75, 0.0],
    };
    assert_eq!((first.pieces(), first.lines()), (wanted, lines.lines()));
    assert_eq!(first.pieces().of_lines(4), [Some(0), None, Some(1), Some(1)]);
    assert_eq!((first.pieces().len(), first.pieces().is_empty()), (2, false));
}

/// What finishing answers for pieces that were altered.
fn altered(alter: impl FnOnce(&mut Lent)) -> Result<usize, Refusal> {
    let lines = city(4);
    let (mut rooms, mut buffers) = (Rooms::new(), FirstBuf::new());
    let first: First = rooms.first(lines.lines(), Settings::default(), &mut buffers).unwrap();
    let Pieces { records, members, marks, listing, merged } = first.pieces();
    let mut lent = Lent {
        records: records.to_vec(),
        members: members.to_vec(),
        marks: marks.to_vec(),
        listing: listing.to_vec(),
        merged: merged.to_vec(),
    };
    alter(&mut lent);
    let pieces = Pieces {
        records: &lent.records,
        members: &lent.members,
        marks: &lent.marks,
        listing: &lent.listing,
        merged: &lent.merged,
    };
    rooms.finish_pieces(lines.lines(), pieces, Settings::default()).map(|chains| chains.len())
}

struct Lent {
    records: Vec<u32>,
    members: Vec<u32>,
    marks: Vec<u8>,
    listing: Vec<u32>,
    merged: Vec<f64>,
}

#[test]
fn pieces_from_elsewhere() {
    let as_they_were = altered(|_| ()).unwrap();
    // The first piece last, and something that no record names.
    let moved = altered(|lent| {
        let first: Vec<u32> = lent.records.drain(..5).collect();
        lent.records.extend(first);
        lent.members.push(u32::MAX);
        lent.marks.push(9);
        lent.merged.push(f64::NAN);
    });
    assert_eq!(moved, Ok(as_they_were));
    let refused: [fn(&mut Lent); 8] = [
        |lent| lent.members[0] = lent.members[1],
        |lent| lent.listing[0] = u32::MAX,
        |lent| lent.marks[0] = 2,
        |lent| lent.merged[0] = f64::NAN,
        |lent| lent.records[4] = 0,
        |lent| lent.records[2] ^= 1,
        |lent| lent.records.truncate(lent.records.len() - 1),
        |lent| lent.merged.truncate(lent.merged.len() - 1),
    ];
    for alter in refused {
        assert_eq!(altered(alter), Err(Refusal::BadPieces));
    }
}

/// Lines of a group, each by its points, as they are joined beyond one call.
fn apart(points: &[Vec<[f64; 2]>]) -> Vec<Line<'_>> {
    points.iter().map(|points| Line { points: Some(points), extras: &[], group: 0 }).collect()
}

/// Joins for all tolerances at once and for each by itself, which have to agree.
fn assert_alike(lines: &[Line], tolerances: &[f64], capacity: Capacity) {
    let settings = Settings::default().with_limit(-0.25);
    let way = Way { capacity, ..Way::default() };
    let asked = (settings, None);
    let zooms = join_zooms(Dimension::Xy, lines, asked, tolerances, way).unwrap();
    assert_eq!(zooms.len(), tolerances.len());
    for (zoom, &tolerance) in zooms.into_iter().zip(tolerances) {
        let settings = settings.with_tolerance(tolerance);
        assert_eq!(Ok(zoom), join(Dimension::Xy, lines, (settings, None), way), "{tolerance}");
    }
}

#[test]
fn many_zooms_beyond_one_call() {
    let block = city(3);
    let (lent, mut points) = (block.lines(), Vec::new());
    for k in 0..70 {
        let mut rest = lent.coordinates;
        for &count in lent.counts {
            let (line, behind) = rest.split_at(2 * count as usize);
            rest = behind;
            let far = f64::from(k) * 1_000.0;
            points.push(line.chunks(2).map(|p| [p[0] + far, p[1]]).collect());
        }
    }
    let lines = apart(&points);
    let small = Capacity { lines: 100, points: 1_000 };
    for capacity in [small, Capacity::default()] {
        assert_alike(&lines, &TOLERANCES, capacity);
    }
}

#[test]
fn lines_that_only_all_tolerances_together_hold_together() {
    // Cells of 2 units hold two lines each and cells of 3 three, and both together connect six.
    let line = |k: usize| vec![[k as f64 + 0.1, 0.1], [k as f64 + 0.2, 0.1]];
    let points: Vec<Vec<[f64; 2]>> = (0..40).map(line).collect();
    let (lines, capacity) = (apart(&points), Capacity { lines: 5, points: 99 });
    assert_alike(&lines, &[2.0, 3.0], capacity);
    // No tolerance behind one is joined by round one alone, whatever was joined before.
    assert_alike(&lines, &[3.0, 0.0, 2.0, 3.0], capacity);
}
