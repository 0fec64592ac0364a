//! Origins: at 0,0 everything is as recorded, and tiles in coordinates of their own have the same
//! chains where each counts from the same corner.

use answers::format::Recorded;
use answers::random::Random;
use answers::replay::{load, FILES};
use answers::{BuildCall, Built, Record, RECORD, TYPES};
use compare::building::{hold_build, BuildRooms};
use compare::{ByOffset, Door, Library};

/// Zeros of both signs.
const ZEROS: [u64; 2] = [0, 1 << 63];

#[test]
fn from_either_zero_every_recorded_answer_comes_back() {
    let mut calls = 0;
    for name in FILES {
        let entries = match load(name) {
            Ok(Recorded::Building(entries)) if name != "origins.bin" => entries,
            Ok(_) => continue,
            Err(fault) => panic!("{fault}"),
        };
        for (call, answer) in &entries {
            let origin = [ZEROS[calls % 2], ZEROS[calls / 2 % 2]];
            let call = BuildCall { origin, ..call.clone() };
            let held = hold_build(&Library, &call, answer, calls as u64);
            assert_eq!(held, Ok(()), "{name}\n{call}");
            calls += 1;
        }
    }
    assert!(calls > 10_000, "{calls}");
}

/// A number of quarters of which every difference to another is exact, and so is every move by whole
/// numbers.
fn quarters(random: &mut Random) -> f64 {
    random.between(-40, 40) as f64 / 4.0
}

/// Lines between few places, cells of a side that is a power of two or not, and an origin.
fn tile(random: &mut Random) -> BuildCall {
    let mut call = BuildCall { wkb_type: TYPES[0], ..BuildCall::default() };
    for _ in 0..1 + random.below(8) {
        let points: Vec<_> =
            (0..2 + random.below(2)).map(|_| (quarters(random), quarters(random))).collect();
        call.push_plain(&points);
    }
    call.tolerance = random.pick(&[0.75f64, 1.0, 2.0, 3.0, 10.0]).to_bits();
    call.origin = [quarters(random).to_bits(), quarters(random).to_bits()];
    (call.switch, call.limit) =
        (random.below(2) as u8, random.pick(&[-0.5f64, 0.0, 1.0]).to_bits());
    call
}

/// A point moved by a distance.
fn moved_point(point: &[u64], by: [f64; 2]) -> [u64; 2] {
    [0, 1].map(|k| (f64::from_bits(point[k]) + by[k]).to_bits())
}

fn moved(numbers: &[u64], by: [f64; 2]) -> Vec<u64> {
    numbers.chunks(2).flat_map(|point| moved_point(point, by)).collect()
}

/// The answer of a door to a call of x and y, which is accepted. Its boxes, which move with the lines,
/// are left out.
fn built(door: &dyn Door, call: &BuildCall) -> Built {
    let mut rooms = BuildRooms::for_call(&mut Random::new(3), call);
    let chains = usize::try_from(door.build(call, &mut rooms)).expect("the call is accepted");
    let record = |numbers: &[u32]| numbers.try_into().expect("a record");
    let table: Vec<_> = rooms.table.lent().chunks(RECORD).take(chains).map(record).collect();
    let points = |record: &Record| if record[2] == 1 { record[4] as usize } else { 0 };
    let merged: usize = table.iter().map(points).sum();
    Built {
        members: rooms.members.lent()[..call.lines()].to_vec(),
        marks: rooms.marks.lent()[..call.lines()].to_vec(),
        listing: rooms.listing.lent()[..call.lines()].to_vec(),
        merged: rooms.merged.lent()[..2 * merged].iter().map(|x| x.to_bits()).collect(),
        table,
        boxes: vec![],
    }
}

#[test]
fn moved_with_their_origin_lines_have_the_same_chains() {
    let mut random = Random::new(51);
    let mut merged = 0;
    for k in 0..4_000 {
        let call = tile(&mut random);
        let far = random.pick(&[1i64, 100, 1 << 20, 1 << 40]);
        let by = [random.between(-far, far) as f64, random.between(-far, far) as f64];
        let away = BuildCall {
            coordinates: moved(&call.coordinates, by),
            origin: moved_point(&call.origin, by),
            ..call.clone()
        };
        let door: &dyn Door = if k % 2 == 0 { &Library } else { &ByOffset };
        let call = BuildCall { switch: if k % 2 == 0 { call.switch } else { 0 }, ..call };
        let away = BuildCall { switch: call.switch, ..away };
        let here = built(door, &call);
        merged += here.merged.len();
        let wanted = Built { merged: moved(&here.merged, by), ..here };
        assert_eq!(built(door, &away), wanted, "{call}");
    }
    assert!(merged > 10_000, "{merged}");
}

#[test]
fn any_corner_of_the_same_grid_is_as_good() {
    let mut random = Random::new(52);
    let mut others = 0;
    for _ in 0..4_000 {
        let call = tile(&mut random);
        let tolerance = f64::from_bits(call.tolerance);
        let cells = [0, 1].map(|_| random.between(-9, 9) as f64 * tolerance);
        let corner = BuildCall { origin: moved_point(&call.origin, cells), ..call.clone() };
        let here = built(&Library, &call);
        assert_eq!(built(&Library, &corner), here, "{call}");
        let zero = BuildCall { origin: [0; 2], ..call };
        others += usize::from(built(&Library, &zero) != here);
    }
    assert!(others > 200, "{others}");
}
