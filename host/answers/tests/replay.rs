//! The recorded answers, held to their form and put to the model.

use answers::check;
use answers::format::{read, write, Recorded};
use answers::model::plane::direction;
use answers::model::Model;
use answers::replay::{each, load, replay, FILES};
use answers::{BuildCall, Built, Port, Refusal, BAD_ORIGIN};

/// A call is refused exactly where a coordinate or the origin is no place, and else its answer has
/// its form.
fn checked_build(call: &BuildCall, answer: &Result<Built, Refusal>) -> check::Checked {
    check::build_call(call)?;
    match (call.refusal(), answer) {
        (Some(wanted), Err(refusal)) if *refusal == wanted => Ok(()),
        (None, Ok(built)) => check::built(call, built),
        _ => Err(format!("it is answered by {answer:?}")),
    }
}

#[test]
fn every_recorded_answer_is_well_formed() {
    for name in FILES {
        let checked = load(name).and_then(|recorded| match &recorded {
            Recorded::Building(entries) => {
                each(entries, |(call, answer)| checked_build(call, answer))
            }
            Recorded::Pairing(entries) => each(entries, |(call, pairs)| {
                check::pairing_call(call).and_then(|()| check::pairs(call, pairs))
            }),
        });
        assert!(matches!(checked, Ok(calls) if calls > 0), "{name}: {checked:?}");
    }
}

#[test]
fn the_model_answers_every_recorded_call_alike() {
    for name in FILES {
        let replayed = load(name).and_then(|recorded| replay(&mut Model, &recorded));
        println!("{name}: {replayed:?} calls");
        assert!(replayed.is_ok(), "{name}: {}", replayed.unwrap_err());
    }
}

#[test]
fn what_is_read_is_written_again() {
    for name in FILES {
        let recorded = load(name).expect("a recorded file");
        assert_eq!(read(&write(&recorded)), Ok(recorded), "{name}");
    }
}

#[test]
fn a_damaged_file_is_refused() {
    let bytes = write(&load("shapes.bin").expect("a recorded file"));
    let mut long = bytes.clone();
    long.push(0);
    assert!(read(&long).is_err());
    for length in (0..bytes.len()).step_by(997) {
        assert!(read(&bytes[..length]).is_err(), "cut at {length}");
    }
}

#[test]
fn a_wrong_answer_is_found() {
    let mut recorded = load("networks.bin").expect("a recorded file");
    if let Recorded::Building(entries) = &mut recorded {
        let (_, answer) = entries.last_mut().expect("a call");
        answer.as_mut().expect("an answer").marks[0] ^= 1;
    }
    assert!(replay(&mut Model, &recorded).is_err());
}

#[test]
fn many_calls_are_refused_and_many_overflow() {
    let entries = match load("wild.bin") {
        Ok(Recorded::Building(entries)) => entries,
        other => panic!("{other:?}"),
    };
    let refused = entries.iter().filter(|(_, answer)| answer.is_err()).count();
    let answered = entries.iter().filter(|(call, answer)| answer.is_ok() && overflows(call));
    let overflowing = answered.count();
    println!(
        "wild.bin: {refused} calls refused, {overflowing} with a direction that is not finite"
    );
    assert!(refused > 500 && overflowing > 250, "{refused}, {overflowing}");
}

#[test]
fn origins_are_recorded_of_one_file_alone() {
    let mut answers = [0; 4];
    for name in FILES {
        let entries = match load(name) {
            Ok(Recorded::Building(entries)) => entries,
            Ok(Recorded::Pairing(_)) => continue,
            Err(fault) => panic!("{fault}"),
        };
        for (call, answer) in &entries {
            assert!(name == "origins.bin" || call.origin == [0; 2], "{name}");
            if name == "origins.bin" {
                let at_zero = BuildCall { origin: [0; 2], ..call.clone() };
                let other = answer.is_ok() && Model.build(&at_zero) != *answer;
                answers[0] += usize::from(call.origin != [0; 2]);
                answers[1] += usize::from(*answer == Err(BAD_ORIGIN));
                answers[2] += usize::from(other);
                answers[3] += 1;
            }
        }
    }
    let [origins, refused, others, all] = answers;
    println!("origins.bin: {origins} of {all} calls with an origin other than 0,0, {refused} refused, {others} with other chains than from 0,0");
    assert!(origins > 800 && refused > 5 && others > 50, "{answers:?}");
}

/// True where the direction at an end of a line that may be joined has a number that is not finite.
fn overflows(call: &BuildCall) -> bool {
    let wild = |(x, y): (f64, f64)| !(x.is_finite() && y.is_finite());
    let mut lines = call.firsts().into_iter().enumerate().filter(|&(line, _)| !call.passes(line));
    lines.any(|(line, first)| {
        let points = call.points(line, first);
        [0, 1].into_iter().filter_map(|end| direction(&points, end)).any(wild)
    })
}
