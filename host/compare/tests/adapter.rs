//! The adapter in the shape of the Rust original's `build_chains` gives the recorded chains.

use answers::format::Recorded;
use answers::model::plane::Point;
use answers::random::Random;
use answers::replay::{load, FILES};
use answers::styles::regions::REGIONS;
use answers::{BuildCall, Built, Record, Refusal};
use compare::large::wanted;
use compare::Judge;
use lovasuku_chains::large::Fault;
use lovasuku_chains::{self as library, build_chains, LineInput, OwnedChain, PathLine};

/// The angle in degrees that says the same as switch and limit, where one does to the bit.
fn angle(call: &BuildCall) -> Option<f64> {
    let angles = [(-0.5, 60.0), (0.0, 90.0), (0.5, 120.0), (1.0, 180.0)];
    match call.switch {
        0 => Some(0.0),
        _ => angles.into_iter().find(|(m, _)| f64::from_bits(call.limit) == *m).map(|(_, a)| a),
    }
}

/// The lines of a call as tylertoo has them: plain ones with points, all others without.
fn inputs(call: &BuildCall) -> Vec<LineInput<Vec<(f64, f64)>>> {
    let input = |(line, first)| {
        let plain = call.kinds[line] == 0;
        let points = plain.then(|| call.points(line, first).into_iter().map(floats).collect());
        LineInput { points, group: call.groups[line] }
    };
    call.firsts().into_iter().enumerate().map(input).collect()
}

fn floats([x, y]: Point) -> (f64, f64) {
    (f64::from_bits(x), f64::from_bits(y))
}

/// Members, path, the bits of points of a chain, and whether it is a loop.
type Bits = (Vec<usize>, Vec<PathLine>, Vec<Point>, bool);

fn bits(chain: OwnedChain) -> Bits {
    let points = chain.points.into_iter().map(|(x, y)| [x.to_bits(), y.to_bits()]);
    (chain.members, chain.path, points.collect(), chain.is_loop)
}

/// The recorded chains. Lines that pass through have no points here.
fn recorded(call: &BuildCall, built: &Built) -> Vec<Bits> {
    let chain = |&[member, members, source, first, count, looped]: &Record| {
        let places = member as usize..(member + members) as usize;
        let numbers = 2 * first as usize..2 * (first + count) as usize;
        let lines: Vec<usize> = built.members[places.clone()].iter().map(|&m| m as usize).collect();
        let passes = call.kinds[lines[0]] == 1;
        let from = if source == 0 { &call.coordinates } else { &built.merged };
        let points = from[numbers].chunks_exact(2).map(|two| [two[0], two[1]]);
        let of_chain = &built.members[places.clone()];
        let mark = |line: u32| of_chain.iter().position(|&member| member == line);
        let turned =
            |line: u32| mark(line).map_or(false, |place| built.marks[places.start + place] == 1);
        let path = built.listing[places.clone()]
            .iter()
            .map(|&line| PathLine { line, turned: turned(line) });
        let points = if passes { vec![] } else { points.collect() };
        (lines, path.collect(), points, looped == 1 && !passes)
    };
    built.table.iter().map(chain).collect()
}

#[test]
fn the_adapter_builds_the_recorded_chains() {
    let (mut compared, mut refused) = ([0; 2], 0);
    for name in FILES {
        let entries = match load(name) {
            Ok(Recorded::Building(entries)) => entries,
            Ok(Recorded::Pairing(_)) => continue,
            Err(fault) => panic!("{fault}"),
        };
        for (call, answer) in &entries {
            // The original's function has no origin.
            let angle = match angle(call) {
                Some(angle) if call.origin == [0; 2] => angle,
                _ => continue,
            };
            let chains = build_chains(inputs(call), f64::from_bits(call.tolerance), angle);
            match (chains, answer) {
                (Ok(chains), Ok(built)) => {
                    let chains: Vec<Bits> = chains.into_iter().map(bits).collect();
                    assert_eq!(chains, recorded(call, built), "{name}\n{call}");
                    compared[usize::from(call.switch)] += 1;
                }
                (Err(Fault::Refused(library::Refusal::NoPlace)), Err(Refusal(15))) => refused += 1,
                (chains, _) => panic!("{name}: {chains:?}, not {answer:?}\n{call}"),
            }
        }
    }
    assert!(compared[0] > 10_000 && compared[1] > 1_000, "{compared:?}");
    assert!(refused > 100, "{refused}");
    println!(
        "{} calls without and {} with junctions compared, {refused} refused",
        compared[0], compared[1]
    );
}

#[test]
fn the_adapter_builds_more_lines_than_a_call_holds() {
    let (judge, sentence) = Judge::find();
    println!("{sentence}");
    for (name, region) in REGIONS {
        for (tolerance, limit) in [(0.0, None), (1.0, Some(-0.5f64)), (60.0, None)] {
            let call = BuildCall {
                tolerance: f64::to_bits(tolerance),
                switch: u8::from(limit.is_some()),
                limit: limit.unwrap_or(0.0).to_bits(),
                ..region(&mut Random::new(5), 6_000)
            };
            let angle = angle(&call).expect("the limit is that of an angle");
            let chains = build_chains(inputs(&call), tolerance, angle).expect("no fault");
            let chains: Vec<Bits> = chains.into_iter().map(bits).collect();
            assert!(chains == recorded(&call, &wanted(judge, &call)), "{name}, {tolerance}");
        }
    }
}
