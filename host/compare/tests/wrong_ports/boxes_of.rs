//! Wrong boxes that a port could plausibly lay.

use crate::answers_of::right;
use answers::model::boxes::{boxes, in_window};
use answers::{BuildCall, Built, Record, WindowCall};

/// The right chains in a window, or the number of the refusal.
pub fn right_window(call: &WindowCall, room: usize) -> Result<Vec<u32>, i64> {
    in_window(call, room).map_err(|refusal| i64::from(refusal.0))
}

/// The right answer with boxes of other coordinates: each chain's as they are given back.
fn boxed(call: &BuildCall, run: fn(&mut Vec<&[u64]>)) -> Built {
    let built = right(call);
    let mut other = BuildCall { coordinates: vec![], ..call.clone() };
    let mut table: Vec<Record> = Vec::new();
    for record in &built.table {
        let from = if record[2] == 0 { &call.coordinates } else { &built.merged };
        let points = from.chunks(call.stride()).skip(record[3] as usize);
        let mut points: Vec<&[u64]> = points.take(record[4] as usize).collect();
        run(&mut points);
        let first = (other.coordinates.len() / call.stride()) as u32;
        table.push([record[0], record[1], 0, first, points.len() as u32, record[5]]);
        other.coordinates.extend(points.concat());
    }
    let boxes = boxes(&other, &Built { table, ..Built::default() });
    Built { boxes, ..built }
}

/// Of equal values in a box the later one's bits.
pub fn later_zero(call: &BuildCall) -> Built {
    boxed(call, |points| points.reverse())
}

/// Boxes of the first and last coordinates alone.
pub fn ends_boxed(call: &BuildCall) -> Built {
    boxed(call, |points| {
        let ends = [points.first().copied(), points.last().copied()];
        *points = ends.into_iter().flatten().collect();
    })
}

/// Zeros as the box of a chain without coordinates.
pub fn zeros_for_none(call: &BuildCall) -> Built {
    let mut built = right(call);
    for (record, it) in built.table.iter().zip(built.boxes.chunks_mut(4)) {
        if record[4] == 0 {
            it.fill(0);
        }
    }
    built
}

/// Leaves out the box above an odd last one.
pub fn odd_box_lost(call: &BuildCall) -> Built {
    let built = right(call);
    let mut level = built.table.len();
    let mut boxes = built.boxes[..4 * level].to_vec();
    let mut from = level;
    while level > 1 {
        boxes.extend(&built.boxes[4 * from..][..4 * (level / 2)]);
        level = (level + 1) / 2;
        from += level;
    }
    Built { boxes, ..built }
}
