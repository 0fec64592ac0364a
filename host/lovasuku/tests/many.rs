//! Inputs beyond one call.

mod common;

use common::{feature, features, joined, run};
use std::fmt::Write;

/// Roads of so many lines each, one above another, and each cut into lines of the same length. The
/// lines of all roads stand in turn.
fn roads(roads: usize, lines: usize) -> String {
    let mut text = String::new();
    for line in 0..lines {
        for road in 0..roads {
            let coordinates = format!("[[{line},{road}],[{},{road}]]", line + 1);
            writeln!(text, "{}", feature("LineString", &coordinates)).unwrap();
        }
    }
    text
}

#[test]
fn many_roads() {
    let chains = features(&joined(&roads(2_000, 5), &[]));
    assert_eq!(chains.len(), 2_000);
    for (road, chain) in chains.iter().enumerate() {
        let members: Vec<usize> = (0..5).map(|line| road + 2_000 * line).collect();
        assert_eq!(chain["properties"]["members"], serde_json::json!(members));
        let points: Vec<[f64; 2]> = (0..6).map(|x| [x as f64, road as f64]).collect();
        assert_eq!(chain["geometry"]["coordinates"], serde_json::json!(points));
    }
}

/// The summary of a run that succeeds, and its chains.
fn told(text: &str, args: &[&str]) -> (String, Vec<serde_json::Value>) {
    let run = run(&[&["join", "-", "-o", "-"], args].concat(), text);
    assert_eq!(run.status, 0, "{}", run.err);
    (run.err, features(&run.out))
}

#[test]
fn a_chain_of_more_lines_than_a_call_holds() {
    let (summary, chains) = told(&roads(2, 2_048), &[]);
    assert_eq!((chains.len(), summary.contains(" laid ")), (2, false));
    let (summary, chains) = told(&roads(2, 2_049), &[]);
    let row = "     laid  2 chains of more than a call of the library holds, end to end by the command itself: 0, 1\n";
    assert!(summary.contains(row), "{summary}");
    for (road, chain) in chains.iter().enumerate() {
        let members: Vec<usize> = (0..2_049).map(|line| road + 2 * line).collect();
        assert_eq!(chain["properties"]["members"], serde_json::json!(members));
        let points: Vec<[f64; 2]> = (0..2_050).map(|x| [x as f64, road as f64]).collect();
        assert_eq!(chain["geometry"]["coordinates"], serde_json::json!(points));
    }
    let (summary, _) = told(&roads(7, 2_049), &[]);
    assert!(summary.contains(": 0, 1, 2, 3, 4 and 2 more\n"), "{summary}");
}

#[test]
fn lines_of_more_points_than_a_call_holds() {
    let positions: Vec<String> = (0..40_000).map(|x| format!("[{x},0]")).collect();
    let line = |from: &str| feature("LineString", &format!("[{from},{}]", positions.join(",")));
    // Alone, or where others end too, it is itself.
    let spur = |to: &str| feature("LineString", &format!("[[-1,1],{to}]"));
    let (summary, chains) = told(&[line("[-1,1]"), spur("[5,5]"), spur("[6,5]")].join("\n"), &[]);
    assert_eq!((chains.len(), summary.contains(" laid ")), (3, false));
    assert_eq!(chains[0]["geometry"]["coordinates"].as_array().unwrap().len(), 40_001);
    let (summary, chains) = told(&[line("[-1,1]"), spur("[5,5]")].join("\n"), &[]);
    assert_eq!((chains.len(), summary.contains("laid  1 chain of more")), (1, true));
    assert_eq!(chains[0]["geometry"]["coordinates"].as_array().unwrap().len(), 40_002);
}

/// Streets one block long between the corners of a square of so many.
fn town(side: usize) -> String {
    let mut text = String::new();
    for corner in 0..side * side {
        let (x, y) = (corner % side, corner / side);
        for (to_x, to_y) in [(x + 1, y), (x, y + 1)] {
            let coordinates = format!("[[{x},{y}],[{to_x},{to_y}]]");
            writeln!(text, "{}", feature("LineString", &coordinates)).unwrap();
        }
    }
    text
}

#[test]
fn a_town_is_one_component() {
    let (_, chains) = told(&town(60), &[]);
    // At its outer corners two streets meet, or one ends.
    assert_eq!(chains.len(), 2 * 60 * 60 - 1);
    let (summary, chains) = told(&town(60), &["--bend", "0.5"]);
    assert_eq!(chains.len(), 2 * 60 - 1);
    assert!(summary.contains("7,080 at junctions"), "{summary}");
}

#[test]
fn more_ends_than_can_be_paired() {
    let star: Vec<String> =
        (0..8_193).map(|k| feature("LineString", &format!("[[7,8],[{k},10000]]"))).collect();
    let star = star.join("\n");
    assert_eq!(features(&joined(&star, &[])).len(), 8_193);
    let run = run(&["join", "-", "-o", "-", "--bend", "60"], &star);
    assert_eq!((run.status, &run.out[..]), (1, ""));
    let wanted =
        "lovasuku: standard input: all lines: 8193 ends meet at 7 8, and no more than 8192 can be \
                  paired (without --limit, --bend and --offset no ends are)\n";
    assert_eq!(run.err, wanted);
}
