//! `lovasuku why`: what is told of two lines.

mod common;

use common::{feature, run, sample, Folder};
use std::fs;

const COARSE: [&str; 8] = ["--class", "kind", "--bend", "60", "--tolerance", "10", "--units", "m"];

/// What is told of two lines of the yard, line by line.
fn told(one: &str, other: &str, args: &[&str]) -> Vec<String> {
    let yard = sample("yard.geojson");
    let run = run(&[&["why", yard.to_str().unwrap(), one, other], args].concat(), "");
    assert_eq!((run.status, &run.err[..]), (0, ""), "{one} {other}");
    run.out.lines().map(str::to_owned).collect()
}

/// What is told of two lines of a text.
fn told_of(lines: &[String], one: &str, other: &str, args: &[&str]) -> Vec<String> {
    let run = run(&[&["why", "-", one, other], args].concat(), &lines.join("\n"));
    assert_eq!((run.status, &run.err[..]), (0, ""), "{one} {other}");
    run.out.lines().map(str::to_owned).collect()
}

/// Lines of one x or more, at a y.
fn lines(all: &[&str]) -> Vec<String> {
    all.iter().map(|coordinates| feature("LineString", coordinates)).collect()
}

#[test]
fn two_ends_at_one_place() {
    let wanted = [
        "Lines H1 and H2 follow each other in chain 0.",
        "  H1's end and H2's end lie at 560.5 668.25, bit for bit, with no third end (round one): \
         joined at any angle.",
    ];
    assert_eq!(told("H1", "H2", &COARSE), wanted);
    assert_eq!(told("\"H1\"", "H2", &COARSE), wanted);
}

#[test]
fn a_pair_that_is_selected_one_that_bends_too_far_and_one_that_is_blocked() {
    let wanted = [
        "Lines H4 and H3 follow each other in chain 0.",
        "  H3's end and H4's start lie at 1180.4 812.6, bit for bit, 2 of 4 ends: junction 0 (round \
         one): joined as pair 1 of 2: measure -0.9999414763565161 (a bend of 0.619877°), limit -0.5 \
         (60°).",
    ];
    assert_eq!(told("H4", "H3", &COARSE), wanted);
    let wanted = [
        "Lines H3 and H5 are not joined: H3 is in chain 0, H5 in chain 2.",
        "  H3's end and H5's start lie at 1180.4 812.6, bit for bit, 2 of 4 ends: junction 0 (round \
         one): not joined: measure -0.2606575542608197 (a bend of 74.8909°) is above the limit -0.5 \
         (60°).",
    ];
    assert_eq!(told("H3", "H5", &COARSE), wanted);
    let wanted = [
        "Lines S4 and S5 are not joined: S4 is in chain 5, S5 in chain 6.",
        "  S4's end and S5's end lie at 770 420, bit for bit, 2 of 3 ends: junction 1 (round one): \
         not joined: measure -0.886225443961837 (a bend of 27.5973°) qualifies, but pair 1, S4's end \
         with S6's start, comes first.",
    ];
    assert_eq!(told("S4", "S5", &COARSE), wanted);
    let plain = told("H3", "H4", &[]);
    assert!(plain[1].ends_with("junction 2 (round one): not joined: junctions are not paired."));
}

#[test]
fn a_bridge_and_all_that_lies_between_two_lines() {
    let wanted = [
        "Lines S2 and S3 follow each other in chain 1.",
        "  S2's end at 933.2 1083.4 and S3's start at 938.6 1087.9 are 7.02922 m apart in cell 93 108, \
         with no third end (round two): joined at any angle.",
    ];
    assert_eq!(told("S2", "S3", &COARSE), wanted);
    let between = told("H8", "H1", &COARSE);
    let head = "Lines H8 and H1 are both in chain 0, with 4 lines between them: H2, H3, H4, H7.";
    assert_eq!((&between[0][..], between.len()), (head, 6));
    assert!(between[4].contains("0.565685 m apart in cell 147 86"), "{between:?}");
}

#[test]
fn a_ring_and_a_line_that_ends_where_it_begins() {
    let ring = told("Y1", "Y3", &COARSE);
    assert_eq!(ring.len(), 4, "{ring:?}");
    assert!(ring[3].starts_with("  Y3's start and Y1's start lie at 1150 430"), "{ring:?}");
    let own = told("T1", "T1", &COARSE);
    assert_eq!(own[0], "Line T1 is in chain 4.");
    assert!(own[1].ends_with("(round one): not joined: they are the two ends of one piece."));
}

#[test]
fn lines_that_do_not_meet() {
    let words = |one: &str, other: &str, args: &[&str]| told(one, other, args).pop().unwrap();
    let classes = "  They are of class \"haul\" and of class \"spur\", which are never joined.";
    assert_eq!(words("H3", "S4", &COARSE), classes);
    let through = "  M1 is a MultiLineString, and passes through (--explode joins its parts).";
    assert_eq!(words("M1", "H1", &COARSE), through);
    let apart =
        "  Their nearest ends, S2's end at 933.2 1083.4 and S3's start at 938.6 1087.9, are \
                 7.02922 m apart, in the cells 466 541 and 469 543: they do not meet.";
    assert_eq!(words("S2", "S3", &["--tolerance", "2", "--units", "m"]), apart);
    let exact =
        "  Their nearest ends, S2's end at 933.2 1083.4 and S3's start at 938.6 1087.9, are \
                 7.02922 units apart, and without a tolerance only what meets exactly is joined.";
    assert_eq!(words("S2", "S3", &[]), exact);
    let parts = words("M1 part 0", "M1 part 1", &["--explode"]);
    assert!(parts.starts_with("  Their nearest ends, M1 part 0's end at 1700 440 and"), "{parts}");
    // An end that round one joined has no place in round two.
    let taken = lines(&["[[0,500],[5,500]]", "[[5,500],[9,500]]", "[[5.5,501],[5.5,509]]"]);
    let told = told_of(&taken, "0", "2", &["--tolerance", "2"]).pop().unwrap();
    assert!(
        told.ends_with("round one has joined one of them with another line already."),
        "{told}"
    );
    let short = lines(&["[[0,500],[5,500]]", "[[5,500]]"]);
    let told = told_of(&short, "0", "1", &[]).pop().unwrap();
    assert_eq!(told, "  1 has fewer than two positions, and passes through.");
}

#[test]
fn ends_without_a_direction_and_measures_that_are_no_numbers() {
    let flat = lines(&["[[0,500],[5,500]]", "[[5,500],[5,500]]", "[[5,500],[5,509]]"]);
    let told = told_of(&flat, "0", "1", &["--limit", "1"]);
    assert!(told[1].ends_with("not joined: 1's start has no direction."), "{told:?}");
    assert!(told[2].ends_with("not joined: 1's end has no direction."), "{told:?}");
    let own = told_of(&flat, "1", "1", &["--limit", "1"]);
    assert!(own[1].ends_with("not joined: they are the two ends of one piece."), "{own:?}");
    // A difference beyond the largest double makes a direction that is no number.
    let far = lines(&[
        "[[-1.7e308,0],[1.7e308,0]]",
        "[[-1.7e308,0],[0,0]]",
        "[[-1.7e308,0],[-1.6e308,5]]",
    ]);
    let far = told_of(&far, "0", "1", &["--limit", "1", "--units", "m"]);
    assert!(far[1].ends_with("not joined: their measure is no number."), "{far:?}");
}

#[test]
fn names_that_are_none() {
    let yard = sample("yard.geojson");
    let fault = |input: &str, one: &str, args: &[&str]| {
        let run = run(&[&["why", input, one, "H1"], args].concat(), "");
        assert_eq!((run.status, &run.out[..]), (1, ""));
        run.err
    };
    let yard = yard.to_str().unwrap();
    assert!(fault(yard, "X", &[]).ends_with("yard.geojson: no line is named \"X\"\n"));
    let parts = fault(yard, "M1", &["--explode"]);
    assert!(parts.ends_with("\"M1\" names 2 parts of a feature; one of them is \"M1 part 0\"\n"));
    let twice = fault(yard, "2019", &["--id", "year"]);
    assert!(twice.ends_with("no line is named \"H1\"\n"), "{twice}");
    let twice = fault(yard, "2013", &["--id", "year"]);
    assert!(twice.ends_with("\"2013\" names 4 lines\n"), "{twice}");
    let folder = Folder::new("whys");
    let chains = folder.path("chains.geojson");
    assert_eq!(run(&["join", yard, "-o", &chains, "-q"], "").status, 0);
    let hint = "IN is to be the delivery that was joined, and this looks like its chains\n";
    assert!(fault(&chains, "H1", &[]).ends_with(hint));
    fs::write(&chains, "{").unwrap();
    assert!(fault(&chains, "H1", &[]).contains("chains.geojson: "));
    assert_eq!(run(&["why", yard, "H1"], "").status, 2);
}
