//! Nodes, joins and walks. End 0 of piece p has the number 2 p, its end 1 the number 2 p + 1.

use super::plane::{direction, Key, Point};
use super::selecting::selected;
use super::{KeyOf, Piece};
use std::collections::BTreeMap;

/// Per end the end that it is joined with. Without a limit no junction is paired.
pub fn joins(pieces: &[Piece], key: KeyOf, limit: Option<f64>) -> Vec<Option<usize>> {
    let mut joins = vec![None; 2 * pieces.len()];
    for node in nodes(pieces, key) {
        for [a, b] in joined(pieces, &node, limit) {
            joins[a] = Some(b);
            joins[b] = Some(a);
        }
    }
    joins
}

/// The ends by their keys; within a node they ascend.
fn nodes(pieces: &[Piece], key: KeyOf) -> Vec<Vec<usize>> {
    let mut nodes: BTreeMap<Key, Vec<usize>> = BTreeMap::new();
    for (p, piece) in pieces.iter().enumerate() {
        let ends = [piece.run[0].point, piece.run[piece.run.len() - 1].point];
        for (side, &point) in ends.iter().enumerate() {
            nodes.entry(key(piece.group, point)).or_default().push(2 * p + side);
        }
    }
    nodes.into_values().collect()
}

/// The pairs of ends that are joined at a node.
fn joined(pieces: &[Piece], node: &[usize], limit: Option<f64>) -> Vec<[usize; 2]> {
    match (node, limit) {
        ([], _) | ([_], _) => vec![],
        (&[a, b], _) if a / 2 == b / 2 => vec![],
        (&[a, b], _) => vec![[a, b]],
        (_, None) => vec![],
        (_, Some(limit)) => {
            let points = |piece: usize| -> Vec<Point> {
                pieces[piece].run.iter().map(|coordinate| coordinate.point).collect()
            };
            let toward = |&end: &usize| direction(&points(end / 2), end % 2);
            let directions: Vec<_> = node.iter().map(toward).collect();
            let owners: Vec<_> = node.iter().map(|&end| (end / 2) as u32).collect();
            let pairs = selected(&directions, &owners, limit);
            pairs.iter().map(|pair| pair.map(|k| node[k as usize])).collect()
        }
    }
}

/// The walks, each as the ends at which it enters its pieces, in order of their starts.
pub fn walks(joins: &[Option<usize>]) -> Vec<Vec<usize>> {
    let mut visited = vec![false; joins.len() / 2];
    let mut walks = Vec::new();
    for start in 0..visited.len() {
        if !visited[start] {
            walks.push(walk(joins, head(joins, start), &mut visited));
        }
    }
    walks
}

/// The free end that is reached going back from the start, or the start's end 0 in a ring.
fn head(joins: &[Option<usize>], start: usize) -> usize {
    let mut end = 2 * start;
    while let Some(back) = joins[end] {
        if back / 2 == start {
            return 2 * start;
        }
        end = back ^ 1;
    }
    end
}

/// The walk that enters at the head, until a free end or a visited piece.
fn walk(joins: &[Option<usize>], head: usize, visited: &mut [bool]) -> Vec<usize> {
    let mut walk = vec![head];
    let mut entry = head;
    visited[head / 2] = true;
    while let Some(next) = joins[entry ^ 1] {
        if visited[next / 2] {
            break;
        }
        visited[next / 2] = true;
        walk.push(next);
        entry = next;
    }
    walk
}
