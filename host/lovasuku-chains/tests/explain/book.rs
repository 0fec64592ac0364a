//! What the book says of nodes, of selected pairs and of reasons, and whether an explanation is true by
//! it. The pieces of round one are those of the plain model of the rules; the library is not asked.

use answers::model::plane::{cell_key, direction, exact_key, measure, Key, Point};
use answers::model::{self};
use answers::{BuildCall, RECORD};
use lovasuku_chains::explain::{End, Meeting, Node, Round, Why};
use lovasuku_chains::large::Chain;
use lovasuku_chains::Reason;
use std::collections::BTreeMap;

/// What is wrong with an explanation, in words.
pub type Judged = Result<(), String>;

/// A piece of a round by the book.
struct Piece {
    number: u32,
    group: u32,
    run: Vec<Point>,
    /// The line and whether it is its last point, at end 0 and at end 1.
    ends: [(u32, bool); 2],
}

/// The pieces of both rounds of a call, and its settings.
pub struct Book<'a> {
    call: &'a BuildCall,
    lines: Vec<Piece>,
    pieces: Vec<Piece>,
}

fn told(truth: bool, words: impl Fn() -> String) -> Judged {
    truth.then_some(()).ok_or_else(words)
}

impl<'a> Book<'a> {
    pub fn of(call: &'a BuildCall) -> Self {
        let line = |(line, first): (usize, usize)| {
            let number = line as u32;
            let ends = [(number, false), (number, true)];
            let run = call.points(line, first);
            (!call.passes(line)).then(|| Piece { number, group: call.groups[line], run, ends })
        };
        let lines = call.firsts().into_iter().enumerate().filter_map(line).collect();
        Book { call, lines, pieces: pieces(call) }
    }

    fn tolerance(&self) -> f64 {
        f64::from_bits(self.call.tolerance)
    }

    fn limit(&self) -> Option<f64> {
        (self.call.switch == 1).then(|| f64::from_bits(self.call.limit))
    }

    /// The pieces of a round. Round two is run only where the tolerance is above 0.
    fn of_round(&self, round: Round) -> &[Piece] {
        match round {
            Round::Exact => &self.lines,
            Round::Cells if self.tolerance() > 0.0 => &self.pieces,
            Round::Cells => &[],
        }
    }

    fn key(&self, round: Round, group: u32, point: Point) -> Key {
        match round {
            Round::Exact => exact_key(group, point),
            Round::Cells => cell_key(group, point, self.call.origin, self.tolerance()),
        }
    }

    /// The ends with one key, in the book's order: by piece, end 0 first.
    fn ends(&self, round: Round, key: Key) -> Vec<End> {
        let mut ends = Vec::new();
        for piece in self.of_round(round) {
            for (side, &(line, last)) in piece.ends.iter().enumerate() {
                let point = if side == 0 { piece.run[0] } else { piece.run[piece.run.len() - 1] };
                if self.key(round, piece.group, point) == key {
                    let toward = direction(&piece.run, side).map(|(x, y)| [x, y]);
                    let point = point.map(f64::from_bits);
                    ends.push(End { line, last, piece: piece.number, point, direction: toward });
                }
            }
        }
        ends
    }

    /// All of an explanation: its nodes, the reason of each pair of ends, and for each chain that every
    /// joint has a reason and that it is a joined pair.
    pub fn judge(
        &self,
        nodes: &[Node],
        whys: &[Vec<Why>],
        chains: &[Chain],
        joints: &[Vec<Meeting>],
    ) -> Judged {
        for (node, whys) in nodes.iter().zip(whys) {
            self.judge_node(node)?;
            self.judge_whys(node, whys)?;
        }
        told(nodes.len() == whys.len(), || "not every node has its reasons".into())?;
        for round in [Round::Exact, Round::Cells] {
            self.judge_all(round, nodes.iter().filter(|node| node.round == round))?;
        }
        told(chains.len() == joints.len(), || "not every chain is explained".into())?;
        for (chain, joints) in chains.iter().zip(joints) {
            judge_joints(nodes, chain, joints)?;
        }
        Ok(())
    }

    /// The nodes of a round are those at which two ends or more meet, each once.
    fn judge_all<'n>(&self, round: Round, nodes: impl Iterator<Item = &'n Node>) -> Judged {
        let mut keys: BTreeMap<Key, usize> = BTreeMap::new();
        for piece in self.of_round(round) {
            for point in [piece.run[0], piece.run[piece.run.len() - 1]] {
                *keys.entry(self.key(round, piece.group, point)).or_default() += 1;
            }
        }
        keys.retain(|_, ends| *ends > 1);
        for node in nodes {
            let key = self.key_of(node).ok_or("a node has no ends")?;
            told(keys.remove(&key).is_some(), || format!("{key:?} is no node, or stands twice"))?;
        }
        told(keys.is_empty(), || format!("the nodes {keys:?} are left out"))
    }

    fn key_of(&self, node: &Node) -> Option<Key> {
        let first = node.ends.first()?;
        let group = self.call.groups[first.line as usize];
        Some(self.key(node.round, group, first.point.map(f64::to_bits)))
    }

    /// A node has exactly the ends of its key, in order, and joins exactly the pairs of the book.
    fn judge_node(&self, node: &Node) -> Judged {
        let key = self.key_of(node).ok_or("a node has no ends")?;
        let ends = self.ends(node.round, key);
        let same = bits(&ends) == bits(&node.ends);
        told(same, || format!("the ends of the node are {ends:?}, not {:?}", node.ends))?;
        match (&ends[..], self.limit()) {
            ([] | [_], _) => Err("a node has one end".into()),
            ([a, b], _) if a.piece == b.piece => {
                told(node.joined.is_empty(), || "one piece".into())
            }
            ([_, _], _) => told(node.joined == [[0, 1]], || "two ends are joined".into()),
            (_, None) => told(node.joined.is_empty(), || "junctions are not paired".into()),
            (ends, Some(limit)) => judge_selection(ends, limit, &node.joined),
        }
    }

    /// Each pair has the first reason that applies.
    fn judge_whys(&self, node: &Node, whys: &[Why]) -> Judged {
        let ends = node.ends.len();
        let pairs = (0..ends).flat_map(|i| (i + 1..ends).map(move |j| [i, j]));
        told(whys.len() == ends * (ends - 1) / 2, || "not every pair has a reason".into())?;
        for ([i, j], &why) in pairs.zip(whys) {
            let wanted = self.why(node, [i, j]);
            told(why == wanted, || format!("ends {i} and {j}: {wanted:?}, not {why:?}"))?;
        }
        Ok(())
    }

    fn why(&self, node: &Node, [i, j]: [usize; 2]) -> Why {
        let (a, b) = (&node.ends[i], &node.ends[j]);
        let limit = match (node.ends.len(), self.limit()) {
            (2, _) if a.piece == b.piece => return Why::OnePiece,
            (2, _) => return Why::NoThird,
            (_, None) => return Why::NotPaired,
            (_, Some(limit)) => limit,
        };
        let shares = |pair: &[u32; 2]| pair.iter().any(|&k| k as usize == i || k as usize == j);
        Why::Junction(if node.joined.contains(&[i as u32, j as u32]) {
            Reason::Selected
        } else if a.piece == b.piece {
            Reason::SamePiece
        } else if a.direction.is_none() || b.direction.is_none() {
            Reason::AbsentDirection
        } else if !qualifies(a, b, limit) {
            Reason::NotQualifying
        } else {
            let place = node.joined.iter().position(shares).unwrap_or(usize::MAX);
            let pair = node.joined.get(place).copied().unwrap_or_default();
            Reason::Blocked { place, pair }
        })
    }
}

/// The pieces that round one leaves, by the plain model: its chains without a tolerance, but for the
/// lines that pass through.
fn pieces(call: &BuildCall) -> Vec<Piece> {
    let exact = BuildCall { tolerance: 0, ..call.clone() };
    let built = model::built(&exact);
    let mut turned = vec![false; call.lines()];
    for (&line, &mark) in built.members.iter().zip(&built.marks) {
        turned[line as usize] = mark == 1;
    }
    let piece = |(record, number): (&[u32; RECORD], u32)| {
        let [first, count, source, at, points, _] = record.map(|number| number as usize);
        let listing = &built.listing[first..first + count];
        let (head, tail) = (listing[0], listing[count - 1]);
        let ends = [(head, turned[head as usize]), (tail, !turned[tail as usize])];
        let from = if source == 0 { &call.coordinates } else { &built.merged };
        let run = from.chunks(call.stride()).skip(at).take(points).map(|p| [p[0], p[1]]).collect();
        let group = call.groups[head as usize];
        (!call.passes(head as usize)).then_some(Piece { number, group, run, ends })
    };
    built.table.iter().zip(0..).filter_map(piece).collect()
}

/// An end with its floats as bits.
type Bits = (u32, bool, u32, [u64; 2], Option<[u64; 2]>);

fn bits(ends: &[End]) -> Vec<Bits> {
    let words = |floats: [f64; 2]| floats.map(f64::to_bits);
    let end = |end: &End| {
        let direction = end.direction.map(words);
        (end.line, end.last, end.piece, words(end.point), direction)
    };
    ends.iter().map(end).collect()
}

/// The measure of two ends, where both have a direction.
fn measured(a: &End, b: &End) -> Option<f64> {
    let ([x, y], [other_x, other_y]) = (a.direction?, b.direction?);
    Some(measure((x, y), (other_x, other_y)))
}

/// Qualifying: of different pieces, both with a direction, and a measure at or below the limit.
fn qualifies(a: &End, b: &End, limit: f64) -> bool {
    a.piece != b.piece && measured(a, b).map_or(false, |measure| measure <= limit)
}

/// The one set of pairs that is the selection: qualifying pairs in their order that share no end, such
/// that each qualifying pair that is not among them shares an end with one that comes before it.
fn judge_selection(ends: &[End], limit: f64, joined: &[[u32; 2]]) -> Judged {
    let end = |k: u32| &ends[k as usize];
    let key = |&[i, j]: &[u32; 2]| (measured(end(i), end(j)), i, j);
    let inside = joined.iter().all(|&[i, j]| i < j && (j as usize) < ends.len());
    told(inside, || format!("{joined:?} are no pairs of {} ends", ends.len()))?;
    for &[i, j] in joined {
        told(qualifies(end(i), end(j), limit), || format!("{i} and {j} do not qualify"))?;
    }
    told(joined.windows(2).all(|two| key(&two[0]) < key(&two[1])), || "out of order".into())?;
    let mut taken: Vec<u32> = joined.concat();
    taken.sort_unstable();
    told(taken.windows(2).all(|two| two[0] != two[1]), || "two pairs share an end".into())?;
    for j in 0..ends.len() as u32 {
        for i in (0..j).filter(|&i| qualifies(end(i), end(j), limit)) {
            let before = |pair: &&[u32; 2]| key(pair) <= key(&[i, j]);
            let shares = |pair: &[u32; 2]| pair.contains(&i) || pair.contains(&j);
            told(joined.iter().filter(before).any(shares), || {
                format!("{i} and {j} qualify and are not blocked")
            })?;
        }
    }
    Ok(())
}

/// Each two lines that follow each other leave and enter at two ends that a node joins.
fn judge_joints(nodes: &[Node], chain: &Chain, joints: &[Meeting]) -> Judged {
    told(joints.len() + 1 == chain.path.len(), || "not every joint has a reason".into())?;
    for (two, joint) in chain.path.windows(2).zip(joints) {
        let node = nodes.get(joint.node).ok_or("no such node")?;
        let end = |k: usize| node.ends.get(joint.ends[k] as usize).ok_or("no such end");
        let (from, to) = (end(0)?, end(1)?);
        let leaves = (from.line, from.last) == (two[0].line, !two[0].turned);
        let enters = (to.line, to.last) == (two[1].line, two[1].turned);
        told(leaves && enters, || format!("{two:?} are not joined at {from:?} and {to:?}"))?;
        let [i, j] = joint.ends;
        let pair = [i.min(j), i.max(j)];
        told(node.joined.contains(&pair), || format!("{pair:?} is no joined pair of {node:?}"))?;
    }
    Ok(())
}
