//! The recorded answers: which calls they are, and how their files are made and checked.

use crate::Oracle;
use answers::format::{write, BuildEntry, PairingEntry, Recorded};
use answers::random::Random;
use answers::replay::{folder, FILES};
use answers::styles::{networks, origins, shapes, stars, tiny, tolerances, wild, Style, PAIRING};
use answers::{BuildCall, PairingCall, Port, Route};

/// How many calls are made of each size.
type Sizes = &'static [(usize, usize)];

/// Ends at a node, about every boundary of the rules and of the routes.
const ENDS: Sizes = &[
    (0, 2),
    (1, 4),
    (2, 40),
    (3, 120),
    (4, 120),
    (5, 60),
    (31, 12),
    (32, 12),
    (33, 12),
    (64, 6),
    (200, 3),
];

/// Lines of a network.
const LINES: Sizes =
    &[(0, 1), (1, 20), (2, 200), (3, 300), (5, 200), (8, 100), (20, 50), (40, 10), (64, 8)];

/// The bytes of a recorded file.
pub fn bytes(oracle: Oracle, name: &str) -> Result<Vec<u8>, String> {
    let networks: [Style<BuildCall>; 3] =
        [("streets", networks::streets), ("rows", networks::rows), ("roads", networks::roads)];
    let recorded = match name {
        "tiny.bin" => building(oracle, &tiny::tiny()),
        "stars.bin" => building(oracle, &calls(1, &[("star", stars::star)], ENDS)),
        "networks.bin" => building(oracle, &calls(2, &networks, LINES)),
        "tolerances.bin" => building(oracle, &calls(3, &[("cells", tolerances::cells)], LINES)),
        "shapes.bin" => building(oracle, &calls(4, &[("shapes", shapes::shapes)], LINES)),
        "wild.bin" => {
            let styles: [Style<BuildCall>; 3] =
                [("wild", wild::wild), ("bits", wild::bits), ("far", wild::far)];
            building(oracle, &calls(5, &styles, LINES))
        }
        "origins.bin" => building(oracle, &calls(7, &[("tiles", origins::tiles)], LINES)),
        "pairing.bin" => pairing(oracle, &calls(6, &PAIRING, ENDS))?,
        _ => return Err(format!("{name} is no recorded file")),
    };
    Ok(write(&recorded))
}

/// The calls of the styles in each of the sizes, from one seed.
fn calls<C>(seed: u64, styles: &[Style<C>], sizes: Sizes) -> Vec<C> {
    let mut random = Random::new(seed);
    let mut calls = Vec::new();
    for (_, make) in styles {
        for &(size, count) in sizes {
            calls.extend((0..count).map(|_| make(&mut random, size)));
        }
    }
    calls
}

/// The building calls with the oracle's answers, or with the refusal of what is no place.
fn building(mut oracle: Oracle, calls: &[BuildCall]) -> Recorded {
    let entry = |call: &BuildCall| -> BuildEntry { (call.clone(), oracle.build(call)) };
    Recorded::Building(calls.iter().map(entry).collect())
}

/// The pairing calls with the pairs on which all routes of the oracle agree.
fn pairing(oracle: Oracle, calls: &[PairingCall]) -> Result<Recorded, String> {
    let entry = |call: &PairingCall| -> Result<PairingEntry, String> {
        let pairs = oracle.selected(Route::Plain, call);
        for &route in Route::for_call(call) {
            if oracle.selected(route, call) != pairs {
                return Err(format!(
                    "the original's {route:?} route differs from the plain\n{call}"
                ));
            }
        }
        Ok((call.clone(), pairs))
    };
    Ok(Recorded::Pairing(calls.iter().map(entry).collect::<Result<_, _>>()?))
}

/// Writes every recorded file.
pub fn record(oracle: Oracle) -> Result<(), String> {
    for name in FILES {
        let bytes = bytes(oracle, name)?;
        std::fs::write(folder().join(name), &bytes).map_err(|fault| format!("{name}: {fault}"))?;
        println!("{name}: {} bytes written", bytes.len());
    }
    Ok(())
}

/// Holds every recorded file to what would be written.
pub fn check(oracle: Oracle) -> Result<(), String> {
    for name in FILES {
        let there =
            std::fs::read(folder().join(name)).map_err(|fault| format!("{name}: {fault}"))?;
        if there != bytes(oracle, name)? {
            return Err(format!("{name} is not what the oracle answers"));
        }
    }
    println!("record: {} files are what the oracle answers", FILES.len());
    Ok(())
}
