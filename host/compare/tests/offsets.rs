//! Offsets: every limit against whole numbers of 128 bits, and the calls with an offset in the
//! limit's place.

use answers::random::Random;
use answers::styles::heights::with_extras;
use answers::{offset, BuildCall, PairingCall, Route, TYPES};
use compare::building::{compare_build, hold_build, BuildRooms};
use compare::door::offset_of;
use compare::pairing::{compare_pairs, PairRooms, ROUTES};
use compare::{ByOffset, Door, Judge, Library};
use lovasuku_chains::{door, Offset, Refusal};

fn limit(offset: u32) -> u64 {
    offset::limit(offset).map(f64::to_bits).expect("an offset up to 1,000 has a limit")
}

#[test]
fn every_limit_is_the_judges_to_the_bit() {
    for millimetres in 0..=offset::MOST {
        let wanted = limit(millimetres);
        assert_eq!(door::offset_limit(millimetres) as u64, wanted, "{millimetres}");
        let safe = Offset::new(millimetres).expect("up to 1,000");
        assert_eq!(safe.limit().to_bits(), wanted, "{millimetres}");
        assert_eq!(safe.millimetres(), millimetres);
        assert_eq!(offset_of(wanted), millimetres);
    }
}

#[test]
fn a_greater_offset_has_a_greater_limit() {
    let of_library = |offset: u32| f64::from_bits(door::offset_limit(offset) as u64);
    let all: Vec<f64> = (0..=offset::MOST).map(of_library).collect();
    assert!(all.windows(2).all(|two| two[0] < two[1]));
    assert_eq!(all[0], -1.0);
}

#[test]
fn above_1000_there_is_no_limit() {
    let above = (0..32).map(|k| 1_001u32.saturating_add((1 << k) - 1));
    for millimetres in above.chain([u32::MAX]) {
        assert_eq!(door::offset_limit(millimetres), -22, "{millimetres}");
        assert_eq!(Offset::new(millimetres), Err(Refusal::BadOffset));
    }
}

/// Ends whose measures with the first, by a limit of an offset and the numbers beside it, are told
/// apart by one offset and the next.
fn fan(random: &mut Random, ends: u32) -> PairingCall {
    let mut call = PairingCall::default();
    for end in 0..ends {
        let chosen = f64::from_bits(limit(random.below(1_001) as u32));
        let x = f64::from_bits(chosen.to_bits() + random.below(3) as u64 - 1);
        let way = if end == 0 { [1.0, 0.0] } else { [x, (1.0 - x * x).max(0.0).sqrt()] };
        call.push(true, way.map(f64::to_bits), end);
    }
    call
}

#[test]
fn pairs_by_every_offset() {
    let mut random = Random::new(11);
    for millimetres in 0..=offset::MOST {
        let ends = 2 + random.below(40) as u32;
        let call = PairingCall { limit: limit(millimetres), ..fan(&mut random, ends) };
        assert_eq!(compare_pairs(&Library, Judge::Model, &call, 3), Ok(()), "{millimetres}");
    }
}

/// Two ends at the limit are paired, and the next number beyond it is not.
#[test]
fn the_limit_itself_is_taken() {
    for millimetres in 0..=offset::MOST {
        let at = limit(millimetres);
        let beyond = (at != (-1f64).to_bits()).then(|| at + 1);
        for (x, pairs) in [(at, 1), (at - 1, 0)].into_iter().chain(beyond.map(|x| (x, 1))) {
            let mut call = PairingCall { limit: at, ..PairingCall::default() };
            call.push(true, [1f64.to_bits(), 0], 0);
            call.push(true, [x, 0], 1);
            for route in ROUTES {
                let mut rooms = PairRooms::for_call(&mut Random::new(7), &call);
                assert_eq!(ByOffset.pairs(route, &call, &mut rooms), pairs, "{millimetres} {x:x}");
            }
        }
    }
}

/// Demand 3: what one offset pairs stands at the beginning of what a greater one does, by other
/// routes too.
#[test]
fn a_greater_offset_undoes_no_pair() {
    let mut random = Random::new(13);
    for _ in 0..400 {
        let ends = 2 + random.below(60) as u32;
        let call = fan(&mut random, ends);
        let [one, other] = [random.below(1_001), random.below(1_001)].map(|offset| offset as u32);
        let mut pairs = |offset: u32, route: Route| {
            let call = PairingCall { limit: limit(offset), ..call.clone() };
            let mut rooms = PairRooms::for_call(&mut random, &call);
            let answer = ByOffset.pairs(route, &call, &mut rooms);
            let pairs = usize::try_from(answer).expect("the call is accepted");
            rooms.pairs.lent()[..2 * pairs].to_vec()
        };
        let few = pairs(one.min(other), Route::Indexed);
        let many = pairs(one.max(other), Route::Plain);
        assert!(many.starts_with(&few), "{one} {other} {call}");
    }
}

/// Four roads that meet at a bend of one offset each: a junction is joined as far as the offset goes.
fn crossing(random: &mut Random, millimetres: u32) -> BuildCall {
    let mut call = BuildCall { switch: 1, limit: limit(millimetres), ..BuildCall::default() };
    for _ in 0..2 + random.below(4) {
        let x = f64::from_bits(limit(random.below(1_001) as u32));
        let side = [1.0, -1.0][random.below(2)];
        call.push_plain(&[(0.0, 0.0), (x, side * (1.0 - x * x).max(0.0).sqrt())]);
    }
    call.push_plain(&[(0.0, 0.0), (1.0, 0.0)]);
    call.push_plain(&[(0.0, 0.0), (0.0, 1.0)]);
    call
}

#[test]
fn chains_by_every_offset() {
    let mut random = Random::new(17);
    for millimetres in 0..=offset::MOST {
        let call = crossing(&mut random, millimetres);
        let wkb_type = random.pick(&TYPES);
        let call = with_extras(&mut random, &call, wkb_type);
        assert_eq!(compare_build(&Library, Judge::Model, &call, 5), Ok(()), "{millimetres}");
    }
}

/// The offset isn't looked at with the switch at 0, and a switch above 1 is 6 for any offset.
#[test]
fn the_switch_decides_whether_the_offset_is_looked_at() {
    let mut random = Random::new(19);
    for offset in [0u32, 1, 999, 1_000, 1_001, 5_000, u32::MAX] {
        for switch in 0..=255u8 {
            let base = crossing(&mut random, 0);
            let bits = offset::limit(offset).map_or(u64::from(offset) << 32, f64::to_bits);
            let call = BuildCall { switch, limit: bits, ..base };
            assert_eq!(offset_of(call.limit), offset);
            match (switch, offset) {
                (0, _) | (1, 0..=1_000) => {
                    let wanted = Judge::Model.build(&call);
                    assert_eq!(hold_build(&ByOffset, &call, &wanted, 23), Ok(()));
                }
                (1, _) => assert_eq!(refused(&call), -22),
                (_, _) => assert_eq!(refused(&call), -6),
            }
        }
    }
}

/// The answer of a call that leaves its rooms as they were.
fn refused(call: &BuildCall) -> i64 {
    let mut rooms = BuildRooms::for_call(&mut Random::new(29), call);
    let answer = ByOffset.build(call, &mut rooms);
    assert_eq!(rooms.untouched(), Ok(()));
    answer
}
