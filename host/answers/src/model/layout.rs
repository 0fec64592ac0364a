//! The answer's tables.

use super::boxes::boxes;
use super::plane::{looped, Point};
use super::{Coordinate, Piece};
use crate::call::{BuildCall, Built};

/// The answer that lists the given chains in their order.
pub fn built(call: &BuildCall, chains: &[Piece]) -> Built {
    let (firsts, stride) = (call.firsts(), call.stride());
    let mut built = Built::default();
    for chain in chains {
        let first_member = built.members.len() as u32;
        let members = chain.members.len() as u32;
        let points = chain.run.len() as u32;
        let run: Vec<Point> = chain.run.iter().map(|coordinate| coordinate.point).collect();
        let mark = u32::from(looped(&run));
        let record = match chain.members[..] {
            [line] => [first_member, 1, 0, firsts[line] as u32, points, mark],
            _ => [first_member, members, 1, (built.merged.len() / stride) as u32, points, mark],
        };
        if record[2] == 1 {
            let numbers = |&Coordinate { point: [x, y], extras: [a, b] }: &Coordinate| {
                [x, y, a, b].into_iter().take(stride)
            };
            built.merged.extend(chain.run.iter().flat_map(numbers));
        }
        built.table.push(record);
        built.members.extend(chain.members.iter().map(|&line| line as u32));
        built.marks.extend(&chain.marks);
        built.listing.extend(chain.listing.iter().map(|&line| line as u32));
    }
    built.boxes = boxes(call, &built);
    built
}
