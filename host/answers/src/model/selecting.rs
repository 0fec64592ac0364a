//! The selected pairs of the ends at one node.

use super::plane::measure;
use crate::call::Pair;

/// The qualifying pairs in their order, each taken if neither of its ends is taken.
pub fn selected(directions: &[Option<(f64, f64)>], pieces: &[u32], limit: f64) -> Vec<Pair> {
    let mut taken = vec![false; pieces.len()];
    let mut pairs = Vec::new();
    for (_, i, j) in qualifying(directions, pieces, limit) {
        if !taken[i] && !taken[j] {
            taken[i] = true;
            taken[j] = true;
            pairs.push([i as u32, j as u32]);
        }
    }
    pairs
}

/// The qualifying pairs with their measures, in order of measure, then i, then j.
fn qualifying(
    directions: &[Option<(f64, f64)>],
    pieces: &[u32],
    limit: f64,
) -> Vec<(f64, usize, usize)> {
    let mut found = Vec::new();
    for j in 0..pieces.len() {
        for i in 0..j {
            if let (Some(a), Some(b)) = (directions[i], directions[j]) {
                if pieces[i] != pieces[j] && measure(a, b) <= limit {
                    found.push((measure(a, b), i, j));
                }
            }
        }
    }
    found.sort_by(|a, b| a.partial_cmp(b).expect("no qualifying measure is NaN"));
    found
}
