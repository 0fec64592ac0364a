//! The tolerance: a cell is not a distance, and what that comes to is told.

mod common;

use common::{feature, features, run, Folder};
use serde_json::{json, Value};

/// A line from one x to another, at a height.
fn line(from: f64, to: f64, y: f64) -> String {
    feature("LineString", &format!("[[{from},{y}],[{to},{y}]]"))
}

/// The summary and the bridges of a text.
fn told(text: &str, args: &[&str]) -> (String, Vec<Value>) {
    let folder = Folder::new("tolerance");
    let bridges = folder.path("bridges");
    let all = [&["join", "-", "-o", "/dev/null", "--bridges", &bridges], args].concat();
    let run = run(&all, text);
    assert_eq!(run.status, 0, "{}", run.err);
    (run.err, features(&folder.text("bridges")))
}

/// The properties of a bridge or a gap, with its two ends.
fn of_kind<'a>(all: &'a [Value], kind: &str) -> Vec<(&'a Value, &'a Value)> {
    let one = |feature: &'a Value| (&feature["properties"], &feature["geometry"]["coordinates"]);
    all.iter().map(one).filter(|(properties, _)| properties["kind"] == kind).collect()
}

#[test]
fn a_gap_between_two_cells_and_a_bridge_across_one() {
    let text = [
        line(500.0, 509.999, 5.0),
        line(510.001, 530.0, 5.0),
        feature("LineString", "[[700.1,700.1],[690,690]]"),
        feature("LineString", "[[709.9,709.9],[720,720]]"),
    ];
    let (summary, all) = told(&text.join("\n"), &["--tolerance", "10"]);
    let [bridges, gaps] = ["bridge", "gap"].map(|kind| of_kind(&all, kind));
    assert_eq!((bridges.len(), gaps.len()), (1, 1));
    let length = bridges[0].0["length"].as_f64().unwrap();
    assert!((length - 13.859).abs() < 0.001);
    assert_eq!((&bridges[0].0["longer"], &bridges[0].0["chain"]), (&json!(true), &json!(2)));
    assert_eq!(gaps[0].0["lines"], json!([0, 1]));
    assert_eq!(gaps[0].0["chains"], json!([0, 1]));
    assert_eq!(gaps[0].0["why"], "cells");
    assert_eq!(*gaps[0].1, json!([[509.999, 5.0], [510.001, 5.0]]));
    assert!(summary.contains("; 1 longer than the tolerance, since a cell is up to 14.1421 across"));
    let gap =
        "     gaps  1 below the tolerance stayed open (1 between two cells); the shortest is \
               0.002 units long, from line 0 to line 1 at 509.999 5\n";
    assert!(summary.contains(gap), "{summary}");
}

#[test]
fn why_gaps_stay_open() {
    // Three ends in one cell, and a ring that does not close.
    // The first line is shorter than the tolerance, and its far end is no gap to the others.
    let three = [line(500.0, 505.0, 5.0), line(506.0, 530.0, 5.0), line(505.0, 560.0, 6.0)];
    let (_, all) = told(&three.join("\n"), &["--tolerance", "10"]);
    let why: Vec<&Value> = of_kind(&all, "gap").iter().map(|(gap, _)| &gap["why"]).collect();
    assert_eq!(why, ["junction", "junction"]);
    let ring = feature("LineString", "[[501,1],[590,1],[590,90],[502,2]]");
    let (summary, all) = told(&ring, &["--tolerance", "10"]);
    assert_eq!(of_kind(&all, "gap")[0].0["why"], "ring");
    assert_eq!(of_kind(&all, "gap")[0].0["chains"], json!([0, 0]));
    assert!(summary.contains("(1 of one chain)"), "{summary}");
}

#[test]
fn what_is_no_gap() {
    let none = |text: &[String], args: &[&str]| {
        let (summary, all) = told(&text.join("\n"), args);
        assert!(of_kind(&all, "gap").is_empty(), "{all:?}");
        let none = "     gaps  none below the tolerance stayed open\n";
        assert_eq!(summary.contains(none), !args.is_empty(), "{summary}");
        assert_eq!(summary.contains("     gaps  "), !args.is_empty(), "{summary}");
    };
    let ten = ["--tolerance", "10"];
    // A short line alone, lines that meet exactly at a junction, and ends a tolerance apart.
    none(&[line(505.0, 512.0, 5.0)], &ten);
    let star = ["[[500,5],[470,5]]", "[[500,5],[530,5]]", "[[500,5],[500,90]]"];
    none(&star.map(|star| feature("LineString", star)), &ten);
    none(&[line(470.0, 505.0, 5.0), line(515.0, 540.0, 5.0)], &ten);
    // Lines of two classes, which are never joined.
    let mut two = [line(470.0, 509.0, 5.0), line(511.0, 540.0, 5.0)];
    for (k, line) in two.iter_mut().enumerate() {
        let kind = format!("\"properties\":{{\"kind\":{k}}},\"geometry\"");
        *line = line.replace("\"geometry\"", &kind);
    }
    none(&two, &["--tolerance", "10", "--class", "kind"]);
    let (_, all) = told(&two.join("\n"), &ten);
    assert_eq!(of_kind(&all, "gap").len(), 1);
    // Without a tolerance nothing is a gap.
    none(&two, &[]);
}

#[test]
fn the_help_tells_what_a_cell_is() {
    let help = run(&["join", "--help"], "").out;
    for words in ["floor(x / T)", "9.999 and 10.001 do not", "14.1 apart"] {
        assert!(help.contains(words), "{words}: {help}");
    }
}

#[test]
fn a_tolerance_in_degrees_is_warned_of() {
    let text = feature("LineString", "[[25.0,62.0],[25.02,62.01]]");
    let warning =
        "  warning  the coordinates are degrees, so a tolerance of 10 is cells of some 1112 km";
    assert!(told(&text, &["--tolerance", "10"]).0.contains(warning));
    for args in [&["--tolerance", "0.1"][..], &["--tolerance", "10", "--units", "m"], &[]] {
        assert!(!told(&text, args).0.contains("warning"), "{args:?}");
    }
    let collection = |crs: &str| {
        format!(
            r#"{{"type":"FeatureCollection","crs":{{"type":"name","properties":{{"name":"{crs}"}}}},"features":[{text}]}}"#
        )
    };
    let ten = ["--tolerance", "10"];
    assert!(told(&collection("urn:ogc:def:crs:OGC:1.3:CRS84"), &ten).0.contains(warning));
    assert!(told(&collection("urn:ogc:def:crs:EPSG::4326"), &ten).0.contains(warning));
    assert!(!told(&collection("urn:ogc:def:crs:EPSG::3067"), &ten).0.contains("warning"));
}

#[test]
fn lengths_of_degrees_are_metres_on_the_sphere() {
    let text =
        [feature("LineString", "[[0,0],[0.4,0]]"), feature("LineString", "[[0.41,0],[1,0]]")];
    let (summary, all) = told(&text.join("\n"), &["--tolerance", "0.05"]);
    assert!(summary.contains("2 lines, 111195 m long"), "{summary}");
    assert!(summary.contains("  lengths  metres on the sphere, for degrees"), "{summary}");
    let (bridge, _) = of_kind(&all, "bridge")[0];
    assert!((bridge["length"].as_f64().unwrap() - 1111.95).abs() < 0.01);
    assert_eq!((&bridge["unit"], &bridge["longer"]), (&json!("m"), &json!(false)));
    let (summary, all) = told(&text.join("\n"), &["--tolerance", "0.05", "--units", "ft"]);
    assert!(summary.contains("2 lines, 1 ft long"), "{summary}");
    assert!(!summary.contains("sphere"), "{summary}");
    assert!((of_kind(&all, "bridge")[0].0["length"].as_f64().unwrap() - 0.01).abs() < 1e-12);
    let far = feature("LineString", "[[0,0],[200,0]]");
    assert!(told(&far, &[]).0.contains("200 units long"));
    assert!(told(&far, &["--units", "degrees"]).0.contains("m long"));
}

#[test]
fn no_length_is_minus_zero() {
    let text = feature("LineString", "[[500,5]]");
    let (summary, _) = told(&text, &[]);
    assert!(summary.contains("1 line, 0 units long"), "{summary}");
}
