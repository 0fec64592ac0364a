//! The pairing workloads: the ends at one node.

use answers::random::Random;
use answers::{PairingCall, Route};

/// A named way to make ends, with the limit under which they are paired.
pub struct Directions {
    pub name: &'static str,
    pub limit: f64,
    make: fn(&mut Random) -> (f64, f64),
}

/// All directions, in the order of the table.
pub const DIRECTIONS: [Directions; 5] = [
    Directions { name: "random", limit: -0.5, make: toward },
    Directions { name: "four", limit: -0.5, make: one_of_four },
    Directions { name: "log yard", limit: -0.5, make: one_of_eight },
    Directions { name: "identical", limit: 1.0, make: along_x },
    Directions { name: "identical, none qualifies", limit: -0.5, make: along_x },
];

/// A route of the port, and the function of the Rust that it is held to.
pub struct Rivals {
    pub name: &'static str,
    pub route: Route,
}

/// All routes, in the order of the table.
pub const ROUTES: [Rivals; 3] = [
    Rivals { name: "plain / sorted", route: Route::Plain },
    Rivals { name: "indexed / lazy", route: Route::Indexed },
    Rivals { name: "chosen / junction_pairs", route: Route::Chosen },
];

/// The ends at the node.
pub const SIZES: [usize; 4] = [32, 200, 2_000, 8_192];

impl Directions {
    /// The call of so many ends. One piece in four has both of its ends at the node.
    pub fn call(&self, ends: usize) -> PairingCall {
        let mut random = Random::new(19);
        let mut call = PairingCall { limit: self.limit.to_bits(), ..PairingCall::default() };
        for piece in pieces(&mut random, ends) {
            let (x, y) = (self.make)(&mut random);
            call.push(true, [x.to_bits(), y.to_bits()], piece);
        }
        call
    }
}

/// Piece numbers in random order, each once or twice.
fn pieces(random: &mut Random, ends: usize) -> Vec<u32> {
    let mut pieces = Vec::new();
    for piece in 0.. {
        if pieces.len() >= ends {
            break;
        }
        let copies = if random.one_in(4) { 2 } else { 1 };
        pieces.extend(vec![piece; copies]);
    }
    pieces.truncate(ends);
    random.shuffle(&mut pieces);
    pieces
}

/// A direction all round.
pub fn toward(random: &mut Random) -> (f64, f64) {
    loop {
        let (x, y) = (random.unit(), random.unit());
        let square = x * x + y * y;
        if square > 0.01 && square <= 1.0 {
            let length = square.sqrt();
            return (x / length, y / length);
        }
    }
}

fn one_of_four(random: &mut Random) -> (f64, f64) {
    random.pick(&[(1.0, 0.0), (0.0, 1.0), (-1.0, 0.0), (0.0, -1.0)])
}

/// The first direction of a spur at a log yard, which many spurs share.
fn one_of_eight(random: &mut Random) -> (f64, f64) {
    let (x, y) = random.pick(&[(1.0, 0.0), (0.6, 0.8), (0.0, 1.0), (0.6, -0.8)]);
    random.pick(&[(x, y), (-x, -y)])
}

fn along_x(_random: &mut Random) -> (f64, f64) {
    (1.0, 0.0)
}
