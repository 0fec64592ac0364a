//! The original's chains in the form of the port's answer.

use answers::model::plane::{looped, Point};
use answers::{BuildCall, Built};

/// A chain as the original gives it: its lines, and its coordinates as bits.
#[derive(Clone, Debug, PartialEq, Eq)]
pub struct Chain {
    pub members: Vec<usize>,
    pub points: Vec<Point>,
}

/// The table, members and merged coordinates of the chains. The original knows no turned marks, no
/// listing and no extras, so that the merged coordinates are x and y alone, whatever the call's type is. Nor does it
/// know loops: whether a chain is one is told from its coordinates.
///
/// A chain of one line names the line's own coordinates; the others stand in the merged
/// coordinates one after another.
///
/// # Panics
///
/// Panics where the coordinates of a lone line are not the line's own, bit for bit: the form of
/// the answer could not say so.
pub fn without_marks(call: &BuildCall, chains: &[Chain]) -> Built {
    let firsts = call.firsts();
    let mut built = Built::default();
    for chain in chains {
        let (source, first) = match chain.members[..] {
            [line] => {
                assert_eq!(chain.points, call.points(line, firsts[line]), "line {line} altered");
                (0, firsts[line])
            }
            _ => (1, built.merged.len() / 2),
        };
        let (member, members, points) =
            (built.members.len(), chain.members.len(), chain.points.len());
        let mark = usize::from(looped(&chain.points));
        let record = [member, members, source, first, points, mark];
        built.table.push(record.map(|number| number as u32));
        built.members.extend(chain.members.iter().map(|&line| line as u32));
        if source == 1 {
            built.merged.extend(chain.points.iter().flatten());
        }
    }
    built
}

/// Merged points with the extras of other merged coordinates of so many numbers, place by place.
pub fn with_extras(points: &[u64], others: &[u64], stride: usize) -> Vec<u64> {
    let others =
        others.chunks(stride).map(|numbers| &numbers[2..]).chain(std::iter::repeat(&[][..]));
    points.chunks(2).zip(others).flat_map(|(point, extras)| [point, extras].concat()).collect()
}
