//! Two districts in one call: what one brings does not alter the other's chains.

use answers::random::Random;
use answers::styles::districts::divided;
use answers::styles::heights::with_extras;
use answers::styles::{origins, BUILDING};
use answers::{BuildCall, BORDER, RECORD, TYPES};
use compare::building::BuildRooms;
use compare::{ByOffset, Door, Library};

/// A line: its numbers, its group and its kind.
type Line = (Vec<u64>, u32, u8);

/// A chain of a district, by the ranks of the district's own lines.
#[derive(Debug, PartialEq)]
struct Read {
    members: Vec<usize>,
    marks: Vec<u8>,
    listing: Vec<usize>,
    source: u32,
    looped: u32,
    coordinates: Vec<u64>,
}

/// The lines of a call that are of a district.
fn lines_of(call: &BuildCall, district: usize) -> Vec<Line> {
    let line = |(line, first): (usize, usize)| {
        (call.numbers(line, first).to_vec(), call.groups[line], call.kinds[line])
    };
    let own = |&(line, _): &(usize, usize)| call.district(line) == district;
    call.firsts().into_iter().enumerate().filter(own).map(line).collect()
}

/// The call of a district's lines in their order with the other's mixed in.
fn mixed(random: &mut Random, call: &BuildCall, own: &[Line], other: &[Line]) -> BuildCall {
    let none = (vec![], vec![], vec![], vec![]);
    let (coordinates, counts, groups, kinds) = none;
    let mut all = BuildCall { coordinates, counts, groups, kinds, ..call.clone() };
    let (mut own, mut other) = (own.iter(), other.iter());
    while own.len() + other.len() > 0 {
        let next = match random.below(own.len() + other.len()) < own.len() {
            true => own.next(),
            false => other.next(),
        };
        let (numbers, group, kind) = next.expect("one of those that are left");
        all.push_numbers(numbers, *group, *kind);
    }
    all
}

/// What is read of a district's chains in the library's answer, if the call is accepted.
fn read(door: &dyn Door, call: &BuildCall, district: usize) -> Result<Vec<Read>, i64> {
    let mut rooms = BuildRooms::for_call(&mut Random::new(3), call);
    let answer = door.build(call, &mut rooms);
    let chains = usize::try_from(answer).map_err(|_| answer)?;
    let rank = |&line: &u32| (0..line as usize).filter(|&k| call.district(k) == district).count();
    let merged: Vec<u64> = rooms.merged.lent().iter().map(|x| x.to_bits()).collect();
    let mut of_district = Vec::new();
    for record in rooms.table.lent().chunks(RECORD).take(chains) {
        let places = record[0] as usize..(record[0] + record[1]) as usize;
        let members = &rooms.members.lent()[places.clone()];
        if call.district(members[0] as usize) != district {
            continue;
        }
        let from = if record[2] == 0 { &call.coordinates } else { &merged };
        let first = call.stride() * record[3] as usize;
        of_district.push(Read {
            members: members.iter().map(rank).collect(),
            marks: rooms.marks.lent()[places.clone()].to_vec(),
            listing: rooms.listing.lent()[places].iter().map(rank).collect(),
            source: record[2],
            looped: record[5],
            coordinates: from[first..first + call.stride() * record[4] as usize].to_vec(),
        });
    }
    Ok(of_district)
}

/// The other district's lines in another form: in another order, some of them, each twice, none, or turned
/// round; or the district's own lines, so that ends of both lie in one place.
fn altered(random: &mut Random, call: &BuildCall, own: &[Line], mut other: Vec<Line>) -> Vec<Line> {
    match random.below(6) {
        0 => random.shuffle(&mut other),
        1 => other.retain(|_| random.one_in(2)),
        2 => other = other.iter().flat_map(|line| [line.clone(), line.clone()]).collect(),
        3 => other.clear(),
        4 => {
            for (numbers, ..) in &mut other {
                let mut coordinates: Vec<_> = numbers.chunks(call.stride()).collect();
                coordinates.reverse();
                *numbers = coordinates.concat();
            }
        }
        _ => {
            let across = |(numbers, group, kind): &Line| (numbers.clone(), group ^ BORDER, *kind);
            other = own.iter().map(across).collect();
        }
    }
    other
}

/// A call of a style with lines of both districts, at times with cells from an origin and with extras.
fn made_up(random: &mut Random) -> BuildCall {
    let (_, make) = random.pick(&BUILDING);
    let size = 2 + random.below(30);
    let mut call = make(random, size);
    call = divided(random, call);
    if random.one_in(2) {
        call.tolerance = random.pick(&[0.25f64, 1.0, 8.0]).to_bits();
    }
    if random.one_in(3) {
        call = origins::with_origin(random, &call);
    }
    match random.one_in(3) {
        true => {
            let wkb_type = random.pick(&TYPES[1..]);
            with_extras(random, &call, wkb_type)
        }
        false => call,
    }
}

#[test]
fn whatever_the_other_district_brings_the_chains_are_the_same() {
    let mut random = Random::new(101);
    let (mut pairs, mut joined, mut elsewhere) = (0, 0, 0);
    for k in 0..6_000 {
        let call = made_up(&mut random);
        let district = random.below(2);
        let door: &dyn Door = if k % 4 == 0 { &ByOffset } else { &Library };
        let call = BuildCall { switch: if k % 4 == 0 { 0 } else { call.switch }, ..call };
        let chains = match read(door, &call, district) {
            Ok(chains) => chains,
            Err(_) => {
                assert!(call.refusal().is_some(), "{call}");
                continue;
            }
        };
        let (own, other) = (lines_of(&call, district), lines_of(&call, 1 - district));
        let other = altered(&mut random, &call, &own, other);
        let beside = mixed(&mut random, &call, &own, &other);
        assert_eq!(read(door, &beside, district).as_ref(), Ok(&chains), "{call}\nand\n{beside}");
        pairs += 1;
        joined += usize::from(chains.iter().any(|chain| chain.members.len() > 1));
        elsewhere += usize::from(beside.groups != call.groups);
    }
    assert!(pairs > 3_000 && joined > 1_000 && elsewhere > 1_000, "{pairs} {joined} {elsewhere}");
}

#[test]
fn a_district_s_chains_are_those_of_its_lines_alone() {
    let mut random = Random::new(102);
    for _ in 0..2_000 {
        let call = made_up(&mut random);
        for district in [0, 1] {
            let alone = mixed(&mut random, &call, &lines_of(&call, district), &[]);
            if let Ok(chains) = read(&Library, &call, district) {
                assert_eq!(read(&Library, &alone, district), Ok(chains), "{call}");
            }
        }
    }
}

#[test]
fn a_refusal_is_of_the_whole_call() {
    let mut call = BuildCall::default();
    call.push_plain(&[(0.0, 0.0), (1.0, 0.0)]);
    assert!(read(&Library, &call, 0).is_ok());
    call.push(&[[0, u64::MAX]], BORDER, 1);
    assert_eq!(read(&Library, &call, 0), Err(-15));
}
