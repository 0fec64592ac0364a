//! What is passed by: MultiLineStrings, lines without length, and what is no line.

mod common;

use common::{feature, features, joined, members, run};

/// The summary of a text.
fn summary(text: &[String], args: &[&str]) -> String {
    let run = run(&[&["join", "-", "-o", "/dev/null"], args].concat(), &text.join("\n"));
    assert_eq!(run.status, 0, "{}", run.err);
    run.err
}

/// A line with an id.
fn with_id(id: &str, feature: &str) -> String {
    feature.replacen('{', &format!("{{\"id\":\"{id}\","), 1)
}

fn parted() -> [String; 3] {
    [
        with_id("a", &feature("LineString", "[[500,0],[501,0]]")),
        with_id(
            "m",
            &feature("MultiLineString", "[[[501,0],[502,0]],[[503,0],[502,0]],[[0,9],[1,9]]]"),
        ),
        with_id("b", &feature("LineString", "[[503,0],[504,0]]")),
    ]
}

#[test]
fn parts_of_multi_line_strings_are_joined_where_asked() {
    let text = parted().join("\n");
    let passed = joined(&text, &[]);
    assert_eq!(members(&passed), [r#"["a"]"#, r#"["b"]"#, r#"["m"]"#]);
    assert!(!passed.contains("parts"), "{passed}");
    let exploded = joined(&text, &["--explode"]);
    assert_eq!(members(&exploded), [r#"["a","m","m","b"]"#, r#"["m"]"#]);
    let chains = features(&exploded);
    assert_eq!(chains[0]["properties"]["parts"].to_string(), "[0,0,1,0]");
    let path = chains[0]["properties"]["path"].as_array().unwrap();
    let turned: Vec<bool> = path.iter().map(|step| step["turned"] == true).collect();
    assert_eq!(turned, [false, false, true, false]);
    assert_eq!(chains[1]["properties"]["parts"].to_string(), "[2]");
    assert_eq!(chains[1]["geometry"]["type"], "LineString");
    // Without ids a part is named by the position of its feature.
    let plain = text.replace("\"id\"", "\"no\"");
    assert_eq!(members(&joined(&plain, &["--explode"])), ["[0,1,1,2]", "[1]"]);
}

#[test]
fn the_summary_tells_how_parts_are_joined() {
    let words = "3, of which 1 MultiLineString passed through (--explode joins their parts)\n";
    assert!(summary(&parted(), &[]).contains(words));
    let exploded = summary(&parted(), &["--explode"]);
    assert!(exploded.contains("    lines  5\n"), "{exploded}");
    // Parts of one feature have its id, which is no fault of the ids.
    assert!(!exploded.contains("warning"), "{exploded}");
}

#[test]
fn lines_without_length_block_joins_and_are_dropped_where_asked() {
    let text = [
        feature("LineString", "[[500,0],[501,0]]"),
        feature("LineString", "[[501,0],[501,0]]"),
        feature("LineString", "[[501,0],[502,0]]"),
        feature("LineString", "[[700,0],[700,0],[700,0]]"),
        feature("LineString", "[[800,0]]"),
    ];
    assert_eq!(members(&joined(&text.join("\n"), &[])).len(), 5);
    let words = "    empty  3 lines without length, of which 1 at nodes that they keep from being \
                 joined (--drop-empty leaves them out)\n";
    assert!(summary(&text, &[]).contains(words), "{}", summary(&text, &[]));
    // Positions are those of the input.
    assert_eq!(members(&joined(&text.join("\n"), &["--drop-empty"])), ["[0,2]"]);
    let dropped = summary(&text, &["--drop-empty"]);
    assert!(dropped.contains(" left out  3 lines without length\n"), "{dropped}");
    assert!(!dropped.contains("    empty  "), "{dropped}");
}

#[test]
fn empty_coordinates_are_a_fault_or_dropped() {
    let line = feature("LineString", "[[500,0],[501,0]]");
    for (kind, coordinates) in
        [("LineString", "[]"), ("MultiLineString", "[]"), ("MultiLineString", "[[],[]]")]
    {
        let text = format!("{line}\n{}\n", feature(kind, coordinates));
        let refused = run(&["join", "-", "-o", "-"], &text);
        let told = "lovasuku: standard input: feature 1 (line 2): its coordinates are empty \
                    (--drop-empty leaves such lines out)\n";
        assert_eq!((refused.status, &refused.out[..], &refused.err[..]), (1, "", told));
        assert_eq!(members(&joined(&text, &["--drop-empty"])), ["[0]"]);
    }
    let parts = feature("MultiLineString", "[[[501,0],[502,0]],[]]");
    let text = format!("{line}\n{parts}\n");
    assert_eq!(members(&joined(&text, &[])), ["[0]", "[1]"]);
    assert_eq!(run(&["join", "-", "-o", "-", "--explode"], &text).status, 1);
    assert_eq!(members(&joined(&text, &["--explode", "--drop-empty"])), ["[0,1]"]);
}

#[test]
fn what_is_no_line_is_skipped_where_asked() {
    let text = [
        feature("Point", "[0,0]"),
        feature("LineString", "[[500,0],[501,0]]"),
        feature("Polygon", "[[[0,0],[1,0],[1,1],[0,0]]]"),
        r#"{"type":"Feature","properties":null,"geometry":null}"#.to_owned(),
        feature("LineString", "[[501,0],[502,0]]"),
        feature("Polygon", "[]"),
    ];
    let skipped = summary(&text, &["--skip-other"]);
    let words = " left out  1 Point, 2 Polygons, 1 feature without geometry\n";
    assert!(skipped.contains(words), "{skipped}");
    assert!(skipped.contains("    lines  2\n"), "{skipped}");
    assert_eq!(members(&joined(&text.join("\n"), &["--skip-other"])), ["[1,4]"]);
    // What is no geometry of GeoJSON at all stays a fault.
    let broken = [feature("LineString", "[[0,0],[1]]"), feature("Circle", "[0,0]")];
    for text in broken {
        assert_eq!(run(&["join", "-", "-o", "-", "--skip-other"], &text).status, 1, "{text}");
    }
}
