//! Two districts in one call: which lines are the second's, and calls at the edge of what a district may
//! bring.

use crate::call::{BuildCall, BORDER, MOST_DISTRICT_LINES, MOST_DISTRICT_POINTS};
use crate::random::Random;

/// The call with some of its lines in the second district, one behind another or here and there, and as
/// many as leave no district with more lines than its share.
pub fn divided(random: &mut Random, mut call: BuildCall) -> BuildCall {
    let n = call.lines();
    let (least, most) = (n.saturating_sub(MOST_DISTRICT_LINES), n.min(MOST_DISTRICT_LINES));
    let second = least + random.below(most.saturating_sub(least) + 1);
    let mut of_second: Vec<bool> = (0..n).map(|line| line < second).collect();
    match random.one_in(2) {
        true => random.shuffle(&mut of_second),
        false => of_second.rotate_left(random.below(n.max(1))),
    }
    let groups = call.groups.iter_mut().zip(of_second);
    groups.filter(|(_, second)| *second).for_each(|(group, _)| *group |= BORDER);
    call
}

/// A call of few lines with lines of no coordinates behind them, or one of many, so that a district brings
/// all that it may, or one more.
pub fn crowded(random: &mut Random, mut call: BuildCall) -> BuildCall {
    let over = random.below(2);
    let [one, other] = random.pick(&[[0, 1], [1, 0]]);
    match random.below(5) {
        0 => more_lines(random, &mut call, one, MOST_DISTRICT_LINES + over),
        1 => more_points(random, &mut call, one, MOST_DISTRICT_POINTS + over),
        2 => {
            more_lines(random, &mut call, one, MOST_DISTRICT_LINES + over);
            more_lines(random, &mut call, other, MOST_DISTRICT_LINES - over);
        }
        3 => {
            more_points(random, &mut call, one, MOST_DISTRICT_POINTS + over);
            more_points(random, &mut call, other, MOST_DISTRICT_POINTS - over);
        }
        _ => {
            more_points(random, &mut call, one, MOST_DISTRICT_POINTS + 1);
            more_lines(random, &mut call, one, MOST_DISTRICT_LINES + over);
        }
    }
    call
}

/// A group of a district, often one beside the border.
fn group(random: &mut Random, district: usize) -> u32 {
    let groups = [[0, 7, BORDER - 1, BORDER - 1], [BORDER, BORDER, BORDER | 7, u32::MAX]];
    random.pick(&groups[district])
}

/// Lines of no coordinates, till a district has so many lines.
fn more_lines(random: &mut Random, call: &mut BuildCall, district: usize, lines: usize) {
    let (group, kind) = (group(random, district), random.below(2) as u8);
    for _ in call.lines_brought()[district]..lines {
        call.push(&[], group, kind);
    }
}

/// A line that passes through, with which a district has so many coordinates.
fn more_points(random: &mut Random, call: &mut BuildCall, district: usize, points: usize) {
    let more = points.saturating_sub(call.points_brought()[district]);
    let place = [random.unit().to_bits(), random.unit().to_bits()];
    call.push(&vec![place; more], group(random, district), 1);
}
