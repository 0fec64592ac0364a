//! Who says what the answer is.

use answers::model::Model;
use answers::{BuildCall, Built, Pair, PairingCall, Port, Refusal, Route};
use oracle::Oracle;

/// Above this many ends the Rust is asked once for all routes: its plain route lists every
/// qualifying pair, which takes much time and memory.
const MANY_ENDS: usize = 1_024;

/// Who says what the answer is.
#[derive(Clone, Copy, Debug)]
pub enum Judge {
    /// The Rust original with the three edits of the rules. Marks and listings, which it does not know, are the
    /// model's.
    Oracle(Oracle),
    /// The rules in plain Rust.
    Model,
}

impl Judge {
    /// The best judge that is at hand, and a sentence that names it.
    pub fn find() -> (Self, String) {
        match Oracle::find() {
            Ok(oracle) => (Judge::Oracle(oracle), "the judge is the Rust original".to_string()),
            Err(reason) => (Judge::Model, format!("the judge is the model, since {reason}")),
        }
    }

    /// The answer to a building call, or the refusal of a type that is none, of a district over its share, or
    /// of a coordinate or an origin that is no place.
    pub fn build(self, call: &BuildCall) -> Result<Built, Refusal> {
        match self {
            Judge::Oracle(mut oracle) => oracle.build(call),
            Judge::Model => Model.build(call),
        }
    }

    /// The answers to a pairing call. Of many ends the Rust is asked by one route for all.
    ///
    /// # Panics
    ///
    /// Panics where the judge refuses the call, as no judge does of pairing.
    pub fn pairs(self, call: &PairingCall) -> Selections {
        let routes = Route::for_call(call);
        let once = if routes.contains(&Route::Indexed) { Route::Indexed } else { Route::Plain };
        match self {
            Judge::Oracle(oracle) if call.ends() <= MANY_ENDS => {
                let by = |&route: &Route| (route, oracle.selected(route, call));
                Selections(routes.iter().map(by).collect())
            }
            Judge::Oracle(oracle) => Selections::same(routes, oracle.selected(once, call)),
            Judge::Model => {
                let pairs = Model.pairs(once, call).expect("a judge refuses no pairing");
                Selections::same(routes, pairs)
            }
        }
    }
}

/// The pairs by each route that accepts the call.
pub struct Selections(Vec<(Route, Vec<Pair>)>);

impl Selections {
    fn same(routes: &[Route], pairs: Vec<Pair>) -> Self {
        Selections(routes.iter().map(|&route| (route, pairs.clone())).collect())
    }

    /// The pairs by a route, if it accepts the call.
    pub fn by(&self, route: Route) -> Option<&[Pair]> {
        self.0.iter().find(|(name, _)| *name == route).map(|(_, pairs)| &pairs[..])
    }
}
