//! Explanations that are false, each by one change of a true one.

use super::Case;
use lovasuku_chains::explain::{Meeting, Node, Round, Why};
use lovasuku_chains::Reason;

/// The parts of an explanation.
#[derive(Clone)]
pub struct Parts {
    pub nodes: Vec<Node>,
    pub whys: Vec<Vec<Why>>,
    pub joints: Vec<Vec<Meeting>>,
}

impl Parts {
    pub fn of(case: &Case) -> Self {
        let nodes = case.explained.nodes().to_vec();
        Parts { nodes, whys: case.whys.clone(), joints: case.joints() }
    }

    /// The first node that is asked for.
    fn node(&mut self, asked: impl Fn(&Node) -> bool) -> Option<&mut Node> {
        self.nodes.iter_mut().find(|node| asked(node))
    }

    /// The first joint.
    fn joint(&mut self) -> Option<&mut Meeting> {
        self.joints.iter_mut().find_map(|joints| joints.first_mut())
    }
}

/// A change; nothing where there is nothing to be changed.
pub type Damage = fn(&mut Parts) -> Option<()>;

/// The changes by what they do.
pub const DAMAGES: [(&str, Damage); 14] = [
    ("a node is left out", |parts| {
        let alone = |node: &Node| node.joined.is_empty();
        let place = parts.nodes.iter().position(alone)?;
        // No joint is at it, and those behind it move up.
        parts.nodes.remove(place);
        parts.whys.remove(place);
        let joints = parts.joints.iter_mut().flatten().filter(|joint| joint.node > place);
        joints.for_each(|joint| joint.node -= 1);
        Some(())
    }),
    ("an end is left out", |parts| {
        let node = parts.node(|node| node.ends.len() > 2 && node.joined.is_empty())?;
        node.ends.pop().map(|_| ())
    }),
    ("two ends change places", |parts| {
        parts.node(|node| node.ends.len() > 2).map(|node| node.ends.swap(0, 1))
    }),
    ("an end is that of the other side", |parts| {
        parts.node(|_| true).map(|node| node.ends[0].last ^= true)
    }),
    ("an end is that of another piece", |parts| {
        parts.node(|_| true).map(|node| node.ends[0].piece += 1)
    }),
    ("a direction is turned round", |parts| {
        let turns = |node: &Node| node.ends[0].direction.map_or(false, |[x, _]| x * x > 0.0);
        let end = &mut parts.node(turns)?.ends[0];
        end.direction = end.direction.map(|[x, y]| [-x, -y]);
        Some(())
    }),
    ("a direction is missing", |parts| {
        let node = parts.node(|node| node.ends[0].direction.is_some())?;
        node.ends[0].direction = None;
        Some(())
    }),
    ("round one is round two", |parts| {
        let apart = |node: &Node| node.round == Round::Exact && !node.joined.is_empty();
        parts.node(apart).map(|node| node.round = Round::Cells)
    }),
    ("a selected pair is left out", |parts| {
        parts.node(|node| !node.joined.is_empty())?.joined.pop().map(|_| ())
    }),
    ("two selected pairs change places", |parts| {
        parts.node(|node| node.joined.len() > 1).map(|node| node.joined.swap(0, 1))
    }),
    ("a pair is selected that is not", |parts| {
        let free = |node: &Node| node.ends.len() > 2 && node.joined.is_empty();
        parts.node(free).map(|node| node.joined.push([0, 1]))
    }),
    ("a reason is another", |parts| {
        let junction = |why: &&mut Why| matches!(why, Why::Junction(_));
        let why = parts.whys.iter_mut().flatten().find(junction)?;
        let selected = Why::Junction(Reason::Selected);
        *why = if *why == selected { Why::Junction(Reason::NotQualifying) } else { selected };
        Some(())
    }),
    ("a joint has no reason", |parts| {
        let joints = parts.joints.iter_mut().find(|joints| !joints.is_empty())?;
        joints.pop().map(|_| ())
    }),
    ("a joint is at another node", |parts| {
        let nodes = parts.nodes.len();
        let joint = parts.joint()?;
        joint.node = (joint.node + 1) % nodes;
        (nodes > 1).then_some(())
    }),
];
