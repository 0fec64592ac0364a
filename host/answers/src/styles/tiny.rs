//! Every arrangement of up to two lines of two or three points on a tiny grid.

use super::point;
use crate::call::BuildCall;
use crate::model::plane::Point;

/// Tolerance, switch and limit.
type Settings = (f64, u8, f64);

/// All tiny calls: on the unit square, among the two zeros and one, and about the edge of a cell.
pub fn tiny() -> Vec<BuildCall> {
    let square = [point(0.0, 0.0), point(1.0, 0.0), point(0.0, 1.0), point(1.0, 1.0)];
    let zeros = [point(0.0, 0.0), point(-0.0, 0.0), point(1.0, 0.0)];
    let edge = [point(0.25, 0.0), point(1.25, 0.0), point(1.75, 0.0)];
    let mut calls = Vec::new();
    arrangements(&square, &[(0.0, 0, f64::NAN), (0.0, 1, 0.0), (2.0, 1, 1.0)], &mut calls);
    arrangements(&zeros, &[(0.0, 0, 0.0), (1.0, 1, 0.0)], &mut calls);
    arrangements(&edge, &[(1.0, 0, 0.0), (1.0, 1, -1.0)], &mut calls);
    calls
}

/// Every arrangement on the grid, under each of the settings.
fn arrangements(grid: &[Point], settings: &[Settings], calls: &mut Vec<BuildCall>) {
    let lines = lines(grid);
    for &settings in settings {
        calls.push(arrangement(&[], settings));
        for a in &lines {
            calls.push(arrangement(&[a], settings));
            for b in &lines {
                calls.push(arrangement(&[a, b], settings));
            }
        }
    }
}

/// Every line of two or three points of the grid.
fn lines(grid: &[Point]) -> Vec<Vec<Point>> {
    let mut lines = Vec::new();
    for &a in grid {
        for &b in grid {
            lines.push(vec![a, b]);
            lines.extend(grid.iter().map(|&c| vec![a, b, c]));
        }
    }
    lines
}

fn arrangement(lines: &[&Vec<Point>], (tolerance, switch, limit): Settings) -> BuildCall {
    let mut call = BuildCall {
        tolerance: tolerance.to_bits(),
        switch,
        limit: limit.to_bits(),
        ..BuildCall::default()
    };
    lines.iter().for_each(|line| call.push(line, 0, 0));
    call
}
