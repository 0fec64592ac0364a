//! The spatial index of a GeoPackage, laid at once when all features are there.
//!
//! GDAL puts boxes into SQLite's R-tree one by one, and the way of each through the tree takes longer than all else
//! of a feature. Here the tree is laid from its leaves up, boxes that lie near each other in one node. GDAL
//! makes the index of an empty layer, with the triggers that keep it; the one that fills it is away while
//! features are put.
//!
//! A node, as SQLite has it: a number of two bytes, in the root the height of the tree, then how many cells
//! there are, then the cells, each an id or the number of a node below and four floats, all with the highest
//! byte first.

use super::gdal::{settle, Dataset, FieldType, Value};
use crate::delivery::Point;
use anyhow::{ensure, Context, Result};
use std::fmt::{Display, Write};

/// The bytes of a node before its cells, and of a cell.
const HEAD: usize = 4;
const CELL: usize = 24;

/// The number of the root.
const ROOT: u32 = 1;

/// So many bytes of a statement are enough. SQLite takes a million.
const STATEMENT: usize = 100_000;

/// The least and the greatest x and the least and the greatest y.
type Extent = [f32; 4];

/// An index in the making.
pub struct Index<'d> {
    dataset: &'d Dataset,
    /// The name of its table.
    name: String,
    /// The statement that makes the trigger which fills it.
    trigger: String,
    /// The bytes of a node.
    node: usize,
    boxes: Vec<(i64, Extent)>,
}

impl<'d> Index<'d> {
    /// Makes the index of a layer that has no features so far.
    pub fn begin(dataset: &'d Dataset, layer: &str, geometry: &str) -> Result<Self> {
        let [of, column] = [layer, geometry].map(literal);
        let made = value(dataset, &format!("SELECT CreateSpatialIndex({of}, {column})"))?;
        ensure!(made == "1", "its spatial index cannot be made");
        let name = format!("rtree_{layer}_{geometry}");
        let filled = format!("{name}_insert");
        let trigger = value(
            dataset,
            &format!("SELECT sql FROM sqlite_master WHERE name = {}", literal(&filled)),
        )?;
        let nodes = quoted(&format!("{name}_node"));
        let node = value(dataset, &format!("SELECT max(length(data)) FROM {nodes}"))?;
        let node: usize = node.parse().context("its spatial index has no root")?;
        ensure!(node >= HEAD + 2 * CELL, "its spatial index has nodes of {node} bytes");
        run(dataset, &format!("DROP TRIGGER {}", quoted(&filled)))?;
        Ok(Index { dataset, name, trigger, node, boxes: Vec::new() })
    }

    /// Puts the box of a feature's points.
    pub fn put(&mut self, id: i64, [[west, south], [east, north]]: [Point; 2]) {
        if west <= east {
            let of_floats = [below(west), above(east), below(south), above(north)];
            self.boxes.push((id, of_floats));
        }
    }

    /// Lays the tree, and puts the trigger back.
    pub fn end(self) -> Result<()> {
        let most = (self.node - HEAD) / CELL;
        let tree = Tree::of(&self.boxes, most);
        let mut nodes = Rows::of(self.dataset, &format!("{}_node", self.name));
        for (number, node) in (ROOT..).zip(&tree.nodes) {
            let height = if number == ROOT { tree.height } else { 0 };
            nodes.put(format_args!("{number},X'{}'", node.digits(height, self.node)))?;
        }
        nodes.end()?;
        let mut parents = Rows::of(self.dataset, &format!("{}_parent", self.name));
        for (number, parent) in (ROOT..).zip(&tree.parents).skip(1) {
            parents.put(format_args!("{number},{parent}"))?;
        }
        parents.end()?;
        let mut leaves = Rows::of(self.dataset, &format!("{}_rowid", self.name));
        for ((id, _), leaf) in self.boxes.iter().zip(&tree.leaves) {
            leaves.put(format_args!("{id},{leaf}"))?;
        }
        leaves.end()?;
        run(self.dataset, &self.trigger)
    }
}

/// A number of a box as SQLite rounds it to a float: down by these where it would be greater, or up where
/// it would be less.
const TOWARD: f64 = 1.0 - 1.0 / 8_388_608.0;
const AWAY: f64 = 1.0 + 1.0 / 8_388_608.0;

fn below(x: f64) -> f32 {
    match f64::from(x as f32) > x {
        true => (x * if x < 0.0 { AWAY } else { TOWARD }) as f32,
        false => x as f32,
    }
}

fn above(x: f64) -> f32 {
    match f64::from(x as f32) < x {
        true => (x * if x < 0.0 { TOWARD } else { AWAY }) as f32,
        false => x as f32,
    }
}

/// A node: its cells, each a number and a box.
#[derive(Clone, Default)]
struct Node(Vec<(i64, Extent)>);

impl Node {
    /// Its bytes as digits.
    fn digits(&self, height: u16, length: usize) -> String {
        let mut bytes = Vec::with_capacity(length);
        bytes.extend(height.to_be_bytes());
        bytes.extend((self.0.len() as u16).to_be_bytes());
        for (number, extent) in &self.0 {
            bytes.extend(number.to_be_bytes());
            extent.iter().for_each(|x| bytes.extend(x.to_be_bytes()));
        }
        bytes.resize(length, 0);
        let digit = |four: u8| char::from(b"0123456789ABCDEF"[usize::from(four)]);
        bytes.iter().flat_map(|byte| [digit(byte >> 4), digit(byte & 15)]).collect()
    }

    fn extent(&self) -> Extent {
        let none = [f32::INFINITY, f32::NEG_INFINITY, f32::INFINITY, f32::NEG_INFINITY];
        self.0.iter().fold(none, |[a, b, c, d], (_, [west, east, south, north])| {
            [a.min(*west), b.max(*east), c.min(*south), d.max(*north)]
        })
    }
}

/// A tree of boxes. Nodes are numbered from the root on.
struct Tree {
    nodes: Vec<Node>,
    /// Of each node the one above it.
    parents: Vec<u32>,
    /// Of each box the node that has it.
    leaves: Vec<u32>,
    /// How many nodes are above a box, but for one.
    height: u16,
}

impl Tree {
    /// The tree of boxes, so many in a node at most.
    fn of(boxes: &[(i64, Extent)], most: usize) -> Self {
        let mut tree =
            Tree { nodes: vec![Node::default()], parents: vec![0], leaves: Vec::new(), height: 0 };
        tree.leaves.resize(boxes.len(), ROOT);
        let mut level: Vec<(i64, Extent)> =
            (0i64..).zip(boxes).map(|(place, (_, extent))| (place, *extent)).collect();
        while level.len() > most {
            level = tree.lay(boxes, level, most);
            tree.height += 1;
        }
        tree.put(boxes, ROOT, level);
        tree
    }

    /// Lays the nodes of a level, and gives their numbers and boxes.
    fn lay(
        &mut self,
        boxes: &[(i64, Extent)],
        mut level: Vec<(i64, Extent)>,
        most: usize,
    ) -> Vec<(i64, Extent)> {
        let mut above = Vec::new();
        let strips = (level.len() as f64 / most as f64).sqrt().ceil() as usize;
        level.sort_unstable_by(|(_, a), (_, b)| (a[0] + a[1]).total_cmp(&(b[0] + b[1])));
        for strip in even(&mut level, strips) {
            strip.sort_unstable_by(|(_, a), (_, b)| (a[2] + a[3]).total_cmp(&(b[2] + b[3])));
            let count = (strip.len() + most - 1) / most;
            for cells in even(strip, count) {
                self.nodes.push(Node::default());
                self.parents.push(ROOT);
                let number = self.nodes.len() as u32;
                self.put(boxes, number, cells.to_vec());
                above.push((i64::from(number), self.nodes[number as usize - 1].extent()));
            }
        }
        above
    }

    /// Puts cells into a node: boxes by their places into one of the first level, or nodes.
    fn put(&mut self, boxes: &[(i64, Extent)], node: u32, mut cells: Vec<(i64, Extent)>) {
        for (number, _) in &mut cells {
            match self.height {
                0 => {
                    self.leaves[*number as usize] = node;
                    *number = boxes[*number as usize].0;
                }
                _ => self.parents[*number as usize - 1] = node,
            }
        }
        self.nodes[node as usize - 1] = Node(cells);
    }
}

/// A slice in so many parts of about the same length.
fn even<T>(all: &mut [T], parts: usize) -> impl Iterator<Item = &mut [T]> {
    let mut rest = all;
    (0..parts).map(move |part| {
        let all = std::mem::take(&mut rest);
        let (first, behind) = all.split_at_mut(all.len() / (parts - part));
        rest = behind;
        first
    })
}

/// Rows that go into a table, many by one statement.
struct Rows<'d> {
    dataset: &'d Dataset,
    head: String,
    statement: String,
}

impl<'d> Rows<'d> {
    fn of(dataset: &'d Dataset, table: &str) -> Self {
        let head = format!("INSERT OR REPLACE INTO {} VALUES", quoted(table));
        Rows { dataset, head, statement: String::new() }
    }

    fn put(&mut self, row: impl Display) -> Result<()> {
        match self.statement.is_empty() {
            true => self.statement += &self.head,
            false => self.statement.push(','),
        }
        write!(self.statement, "({row})")?;
        match self.statement.len() < STATEMENT {
            true => Ok(()),
            false => self.run(),
        }
    }

    fn run(&mut self) -> Result<()> {
        run(self.dataset, &self.statement)?;
        self.statement.clear();
        Ok(())
    }

    fn end(mut self) -> Result<()> {
        match self.statement.is_empty() {
            true => Ok(()),
            false => self.run(),
        }
    }
}

/// A name as SQL has it.
fn quoted(name: &str) -> String {
    format!("\"{}\"", name.replace('"', "\"\""))
}

/// A text as SQL has it.
fn literal(text: &str) -> String {
    format!("'{}'", text.replace('\'', "''"))
}

/// Runs a statement that gives no rows.
fn run(dataset: &Dataset, sql: &str) -> Result<()> {
    dataset.run(sql).context("its spatial index cannot be laid")
}

/// The one value that a query gives.
fn value(dataset: &Dataset, sql: &str) -> Result<String> {
    let mut rows = dataset.query(sql)?;
    let row = rows.cursor().next()?.context("it gives no rows")?;
    let value = match row.value(0, FieldType::TEXT) {
        Value::Text(bytes) => String::from_utf8_lossy(bytes).into_owned(),
        _ => String::new(),
    };
    settle();
    Ok(value)
}

#[cfg(test)]
mod tests {
    use super::{above, below, Tree, ROOT};

    #[test]
    fn floats_are_rounded_outward() {
        for x in [0.1, -0.1, 300_000.07, -7_000_000.3, 1e-30, -1e-30, 0.5, 0.0, -1e30] {
            assert!(f64::from(below(x)) <= x && f64::from(above(x)) >= x, "{x}");
        }
        assert_eq!([below(0.5), above(0.5)], [0.5; 2]);
    }

    #[test]
    fn every_box_is_in_one_leaf_and_every_node_in_its_parent() {
        for count in [0usize, 1, 4, 5, 16, 17, 64, 65, 1_000] {
            let extent = |k: usize| {
                let [x, y] = [k * 37 % 101, k * 53 % 89].map(|at| at as f32);
                [x, x + 1.0, y, y + 2.0]
            };
            let boxes: Vec<_> = (0..count).map(|k| (7 + k as i64, extent(k))).collect();
            let tree = Tree::of(&boxes, 4);
            let mut height = 0;
            while 4usize.pow(height + 1) < count {
                height += 1;
            }
            assert!(u32::from(tree.height) >= height, "{count}");
            let mut seen = vec![0; tree.nodes.len()];
            for (k, &leaf) in tree.leaves.iter().enumerate() {
                let cells = &tree.nodes[leaf as usize - 1].0;
                assert_eq!(cells.iter().filter(|cell| **cell == boxes[k]).count(), 1);
                let (mut node, mut steps) = (leaf, 0);
                while node != ROOT {
                    let parent = tree.parents[node as usize - 1];
                    let below = &tree.nodes[node as usize - 1];
                    let cells = &tree.nodes[parent as usize - 1].0;
                    assert!(cells.contains(&(i64::from(node), below.extent())));
                    (node, steps) = (parent, steps + 1);
                }
                assert_eq!(steps, tree.height);
                seen[leaf as usize - 1] += 1;
            }
            for (node, seen) in tree.nodes.iter().zip(seen) {
                assert!(node.0.len() <= 4 && (node.0.len() >= 2 || count < 2));
                assert!(seen == 0 || seen == node.0.len());
            }
        }
    }
}
