//! The samples, joined by the command and compared with what is expected.

mod common;

use common::{features, joined, members, run, sample, sample_text, Folder};
use serde_json::Value;

const FINE: [&str; 8] = ["--class", "kind", "--bend", "60", "--tolerance", "2", "--units", "m"];
const COARSE: [&str; 8] = ["--class", "kind", "--bend", "60", "--tolerance", "10", "--units", "m"];

/// Joins a sample and compares the chains, the bridges and the map with the expected files.
fn compare(name: &str, expected: &str, args: &[&str]) -> String {
    let folder = Folder::new(expected);
    let [out, bridges, map] = ["chains.geojson", "bridges.geojson", "map.svg"];
    let paths = [out, bridges, map].map(|name| folder.path(name));
    let input = sample(name);
    let mut all = vec!["join", input.to_str().unwrap(), "-o", &paths[0]];
    all.extend(["--bridges", &paths[1], "--map", &paths[2]]);
    all.extend(args);
    let run = run(&all, "");
    assert_eq!((run.status, &run.out[..]), (0, ""), "{}", run.err);
    for name in [out, bridges, map] {
        let file = format!("expected/{expected}-{name}");
        let hint = format!("{file} differs; it is made by: lovasuku {}", all.join(" "));
        assert!(folder.text(name) == sample_text(&file), "{hint}");
    }
    assert_eq!(folder.names().len(), 3);
    run.err
}

#[test]
fn the_yard_as_it_is() {
    let summary = compare("yard.geojson", "yard-exact", &[]);
    assert!(summary.contains("  bridges  none: every segment is of the input\n"), "{summary}");
}

#[test]
fn the_yard_at_a_fine_tolerance() {
    compare("yard.geojson", "yard-fine", &FINE);
}

#[test]
fn the_yard_at_a_coarse_tolerance() {
    let summary = compare("yard.geojson", "yard-coarse", &COARSE);
    let rows: Vec<&str> = summary.lines().collect();
    let wanted = [
        "    lines  23, of which 1 MultiLineString passed through (--explode joins their parts), \
         in 2 classes by \"kind\"",
        "   chains  10, of which 2 loops; the longest is chain 0: 6 lines, 2331.4 m long",
        "   joined  7 at nodes, 4 at junctions, 2 by the tolerance",
        "  bridges  2 segments made by the tolerance; the longest is 7.02922 m long, \
         from line \"S2\" to line \"S3\" at 933.2 1083.4 in chain 1",
        "     gaps  none below the tolerance stayed open",
        "    limit  -0.5, which a bend of 60 degrees stands for",
    ];
    assert_eq!(rows[..6], wanted);
    assert!(rows[6].starts_with("     took  ") && rows[6].ends_with(" seconds"));
    assert_eq!(rows.len(), 7);
}

#[test]
fn the_berm() {
    compare("berm.geojsonl", "berm-fine", &["--tolerance", "5"]);
    compare("berm.geojsonl", "berm-coarse", &["--tolerance", "10"]);
}

/// True where two lines of the yard are in one chain.
fn together(text: &str, a: &str, b: &str) -> bool {
    members(text).iter().any(|members| members.contains(a) && members.contains(b))
}

#[test]
fn the_berm_is_crossed_at_the_coarse_tolerance_alone() {
    let yard = sample_text("yard.geojson");
    let [fine, coarse] = [FINE, COARSE].map(|args| joined(&yard, &args));
    assert!(!together(&fine, "\"S2\"", "\"S3\""));
    assert!(together(&coarse, "\"S2\"", "\"S3\""));
    // The gap between these is closed at both.
    assert!(together(&fine, "\"H4\"", "\"H7\"") && together(&coarse, "\"H4\"", "\"H7\""));
}

#[test]
fn the_loop_the_crossing_and_the_classes() {
    let yard = sample_text("yard.geojson");
    let classes = joined(&yard, &FINE);
    assert!(members(&classes).contains(&r#"["Y1","Y2","Y3"]"#.to_owned()));
    assert!(together(&classes, "\"H3\"", "\"H4\"") && together(&classes, "\"H5\"", "\"H6\""));
    assert!(!together(&classes, "\"H3\"", "\"H5\""));
    for members in members(&classes) {
        assert!(!(members.contains("\"H") && members.contains("\"S")), "{members}");
    }
    let plain = joined(&yard, &["--class", "kind"]);
    assert!(!together(&plain, "\"H3\"", "\"H4\""), "no junction is paired without a limit");
}

#[test]
fn every_line_is_in_one_chain_and_counts_are_right() {
    let chains = features(&joined(&sample_text("yard.geojson"), &COARSE));
    let mut all: Vec<String> = Vec::new();
    for chain in &chains {
        let members = chain["properties"]["members"].as_array().unwrap();
        assert_eq!(chain["properties"]["count"], members.len());
        assert_eq!(chain["properties"]["path"].as_array().unwrap().len(), members.len());
        all.extend(members.iter().map(Value::to_string));
    }
    let input = features(&sample_text("yard.geojson"));
    let mut ids: Vec<String> = input.iter().map(|feature| feature["id"].to_string()).collect();
    all.sort();
    ids.sort();
    assert_eq!(all, ids);
}

#[test]
fn a_series_of_features_gives_what_a_collection_gives() {
    let yard = sample_text("yard.geojson");
    let series: Vec<String> = features(&yard).iter().map(Value::to_string).collect();
    let marked: String = series.iter().map(|feature| format!("\u{1e}{feature}\n")).collect();
    let collection = members(&joined(&yard, &COARSE));
    assert_eq!(members(&joined(&series.join("\n"), &COARSE)), collection);
    assert_eq!(members(&joined(&marked, &COARSE)), collection);
}

#[test]
fn the_limit_of_a_bend_is_the_limit() {
    let yard = sample_text("yard.geojson");
    assert_eq!(joined(&yard, &["--bend", "90"]), joined(&yard, &["--limit", "0"]));
    assert_eq!(joined(&yard, &["--bend", "180"]), joined(&yard, &["--limit", "1"]));
    assert_eq!(joined(&yard, &["--bend", "0"]), joined(&yard, &[]));
    assert_ne!(joined(&yard, &["--bend", "180"]), joined(&yard, &[]));
}

#[test]
fn the_limit_of_an_offset_is_the_limit() {
    let yard = sample_text("yard.geojson");
    let by = |word: &str, value: &str| joined(&yard, &[word, value]);
    assert_eq!(by("--offset", "0"), by("--limit", "-1"));
    assert_eq!(by("--offset", "577"), by("--limit", "-0.86615674475890528"));
    assert_eq!(by("--offset", "1000"), by("--limit", "-0.70710678118654746"));
    assert_ne!(by("--offset", "1000"), by("--offset", "0"));
}

#[test]
fn an_offset_is_told_with_its_limit_and_degrees() {
    let folder = Folder::new("offset");
    let map = folder.path("map.svg");
    let args = ["join", "-", "-o", "-", "--offset", "577", "--map", &map];
    let told = run(&args, &sample_text("yard.geojson"));
    let row = "    limit  -0.8661567447589053, which an offset of 577 mm per metre stands for, \
               a bend of 29.9849 degrees";
    assert!(told.err.lines().any(|line| line == row), "{}", told.err);
    let words =
        "junctions paired up to an offset of 577 mm per metre (limit -0.8661567447589053, 30°)";
    assert!(folder.text("map.svg").contains(words));
}
