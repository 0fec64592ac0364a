//! The Rust original as the judge.
//!
//! The build script makes two modules of it: one with the three edits of the rules, which is the
//! oracle, and one without. [`Oracle`] calls both. Where the original is not at hand this package
//! compiles all the same, and [`Oracle::find`] says in one sentence why there is no oracle.

pub mod chains;
pub mod differences;
pub mod record;
pub mod settings;
pub mod stand_ins;

// The original imports from a crate `geo`; this crate answers to that name as well.
extern crate self as geo;
pub use stand_ins::geo::Geometry;
#[allow(unused_imports)]
use stand_ins::geo::{coords_iter, BoundingRect, Coord, LineString};

include!(concat!(env!("OUT_DIR"), "/modules.rs"));

use answers::model::{boxes::boxes, plane::Point, Model};
use answers::{BuildCall, Built, Pair, PairingCall, Port, Refusal, Route};
use chains::{with_extras, without_marks, Chain};
pub use edited::coalesce::window::{RawChains, ReadyBuild, ReadyPairs};

/// The way to both originals. Whoever has one may call them.
#[derive(Clone, Copy, Debug)]
pub struct Oracle(());

impl Oracle {
    /// The oracle, or the sentence that says why there is none.
    pub fn find() -> Result<Oracle, &'static str> {
        match MISSING {
            None => Ok(Oracle(())),
            Some(reason) => Err(reason),
        }
    }

    /// The chains of the edited original.
    pub fn chains(self, call: &BuildCall) -> Vec<Chain> {
        let build = || edited::coalesce::window::build(call, f64::from_bits(call.limit));
        settings::under(call, build)
    }

    /// The pairs of the edited original by a route.
    pub fn selected(self, route: Route, call: &PairingCall) -> Vec<Pair> {
        edited::coalesce::window::pairs(route, call, f64::from_bits(call.limit))
    }

    /// The lines of a call as the originals take them.
    pub fn geometries(self, call: &BuildCall) -> Vec<Geometry<f64>> {
        edited::coalesce::window::geometries(call)
    }

    /// A building call of the edited original on its geometries, ready to be timed. It is to be
    /// run under the call's switch and origin, by [`settings::under`].
    pub fn ready_build<'a>(
        self,
        geometries: &'a [Geometry<f64>],
        call: &BuildCall,
    ) -> ReadyBuild<'a> {
        ReadyBuild::new(geometries, call, f64::from_bits(call.limit))
    }

    /// A pairing call of the edited original by a route, ready to be timed.
    pub fn ready_pairs(self, route: Route, call: &PairingCall) -> ReadyPairs {
        ReadyPairs::new(route, call, f64::from_bits(call.limit))
    }

    /// The direction of an end, 0 or 1, of a line.
    pub fn direction(self, points: &[Point], end: usize) -> Option<(f64, f64)> {
        edited::coalesce::window::direction(points, end)
    }

    /// The measure of two directions by the edited original.
    pub fn measure(self, a: (f64, f64), b: (f64, f64)) -> f64 {
        edited::coalesce::window::measure(a, b)
    }

    /// The deviation of two directions from a straight line, by the unedited original.
    pub fn degrees(self, a: (f64, f64), b: (f64, f64)) -> f64 {
        unedited::coalesce::window::measure(a, b)
    }

    /// The chains of the unedited original at an angle; switch, limit and origin are not looked at.
    pub fn unedited_chains(self, call: &BuildCall, angle: f64) -> Vec<Chain> {
        unedited::coalesce::window::build(call, angle)
    }

    /// The pairs of the unedited original at an angle; the limit is not looked at.
    pub fn unedited_pairs(self, route: Route, call: &PairingCall, angle: f64) -> Vec<Pair> {
        unedited::coalesce::window::pairs(route, call, angle)
    }
}

/// The edited original as something that answers calls. The marks, the listing and the extras, which it does not
/// know, are the model's, and so are the refusals of types that are none, of districts over their shares,
/// and of coordinates and origins that are no place.
impl Port for Oracle {
    fn build(&mut self, call: &BuildCall) -> Result<Built, Refusal> {
        let Built { marks, listing, merged, .. } = Model.build(call)?;
        let flat = without_marks(call, &self.chains(call));
        let merged = with_extras(&flat.merged, &merged, call.stride());
        let built = Built { marks, listing, merged, ..flat };
        Ok(Built { boxes: boxes(call, &built), ..built })
    }

    fn pairs(&mut self, route: Route, call: &PairingCall) -> Result<Vec<Pair>, Refusal> {
        Ok(self.selected(route, call))
    }
}
