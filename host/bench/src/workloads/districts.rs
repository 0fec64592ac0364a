//! Two districts in one call, each with a network of the same kind.

use super::Network;
use answers::BORDER;

/// How far apart the two lie. GEOS, which knows no districts, joins nothing across.
const APART: f64 = 65_536.0;

/// A network as the first district's, and behind it the same as the second's, moved to another place.
pub fn two(first: Network) -> Network {
    let mut both = first.lines.clone();
    for (line, from) in first.lines.firsts().into_iter().enumerate() {
        let moved = |[x, y]: [u64; 2]| [(f64::from_bits(x) + APART).to_bits(), y];
        let points: Vec<_> = first.lines.points(line, from).into_iter().map(moved).collect();
        both.push(&points, BORDER | first.lines.groups[line], first.lines.kinds[line]);
    }
    Network { lines: both, ..first }
}
