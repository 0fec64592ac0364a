//! What is called of the original. Both originals have this file as a child module, which may
//! call their private functions.

use super::{build_chains, junction_pairs, lazy_junction_pairs, sorted_junction_pairs};
use super::{continuation_deviation_deg, piece_direction, CoalesceInput, Piece, RawChain};
use crate::chains::Chain;
use crate::stand_ins::geo::{Coord, Geometry, LineString};
use answers::model::plane::Point;
use answers::{BuildCall, Pair, PairingCall, Route};
use std::borrow::Cow;

/// A building call with its lines made ready: a run is the original's call and nothing else.
pub struct ReadyBuild<'a> {
    lines: Vec<CoalesceInput<'a>>,
    tolerance: f64,
    angle: f64,
}

/// The chains of a run, as the original gives them.
pub struct RawChains(Vec<RawChain>);

impl<'a> ReadyBuild<'a> {
    /// The call on its own geometries. The angle is the limit where the original is edited.
    pub fn new(geometries: &'a [Geometry<f64>], call: &BuildCall, angle: f64) -> Self {
        let input = |(index, geom)| CoalesceInput {
            index,
            geom,
            sort_key: None,
            group: call.groups[index],
        };
        let lines = geometries.iter().enumerate().map(input).collect();
        ReadyBuild { lines, tolerance: f64::from_bits(call.tolerance), angle }
    }

    pub fn run(&self) -> RawChains {
        RawChains(build_chains(&self.lines, self.tolerance, self.angle))
    }
}

/// The chains of a call. The angle is the limit where the original is edited.
pub fn build(call: &BuildCall, angle: f64) -> Vec<Chain> {
    let geometries = geometries(call);
    let RawChains(chains) = ReadyBuild::new(&geometries, call, angle).run();
    let chain = |raw: RawChain| Chain { members: raw.members, points: points(&raw.geom) };
    chains.into_iter().map(chain).collect()
}

/// A pairing call with its ends made ready: a run is the original's call and nothing else.
pub struct ReadyPairs {
    select: fn(&[Option<(f64, f64)>], &[usize], f64) -> Vec<(usize, usize)>,
    directions: Vec<Option<(f64, f64)>>,
    pieces: Vec<usize>,
    angle: f64,
}

impl ReadyPairs {
    /// The call by a route. The angle is the limit where the original is edited.
    pub fn new(route: Route, call: &PairingCall, angle: f64) -> Self {
        let select = match route {
            Route::Plain => sorted_junction_pairs,
            Route::Indexed => lazy_junction_pairs,
            Route::Chosen => junction_pairs,
        };
        let pieces = call.pieces.iter().map(|&piece| piece as usize).collect();
        ReadyPairs { select, directions: call.all_directions(), pieces, angle }
    }

    pub fn run(&self) -> Vec<(usize, usize)> {
        (self.select)(&self.directions, &self.pieces, self.angle)
    }
}

/// The pairs of a call by a route.
pub fn pairs(route: Route, call: &PairingCall, angle: f64) -> Vec<Pair> {
    let pairs = ReadyPairs::new(route, call, angle).run();
    pairs.into_iter().map(|(i, j)| [i as u32, j as u32]).collect()
}

/// The direction of an end of a line.
pub fn direction(points: &[Point], end: usize) -> Option<(f64, f64)> {
    let coords = Cow::Owned(coordinates(points));
    piece_direction(&Piece { members: vec![0], coords, group: 0 }, end as u8)
}

/// The measure of two directions: degrees, or the clamped dot product where the original is edited.
pub fn measure(a: (f64, f64), b: (f64, f64)) -> f64 {
    continuation_deviation_deg(a, b)
}

/// The lines of a call as the original takes them.
pub fn geometries(call: &BuildCall) -> Vec<Geometry<f64>> {
    let geometry = |(line, first)| {
        let run = LineString(coordinates(&call.points(line, first)));
        match call.kinds[line] {
            0 => Geometry::LineString(run),
            _ => Geometry::Other(run),
        }
    };
    call.firsts().into_iter().enumerate().map(geometry).collect()
}

fn coordinates(points: &[Point]) -> Vec<Coord<f64>> {
    let coordinate = |&[x, y]: &Point| Coord { x: f64::from_bits(x), y: f64::from_bits(y) };
    points.iter().map(coordinate).collect()
}

fn points(geometry: &Geometry<f64>) -> Vec<Point> {
    let (Geometry::LineString(run) | Geometry::Other(run)) = geometry;
    run.0.iter().map(|c| [c.x.to_bits(), c.y.to_bits()]).collect()
}
