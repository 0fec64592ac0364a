//! Loops: chains of three positions or more whose first and last are the same bit for bit.

mod common;

use common::{feature, features, joined, run, sample_text};

/// The property `loop` of every chain.
fn loops(text: &str, args: &[&str]) -> Vec<bool> {
    let chains = features(&joined(text, args));
    chains.iter().map(|chain| chain["properties"]["loop"].as_bool().unwrap()).collect()
}

fn line(coordinates: &str) -> String {
    feature("LineString", coordinates)
}

#[test]
fn a_line_by_itself_and_lines_that_close() {
    let text = [
        line("[[500,0],[510,0],[510,10],[500,0]]"),
        line("[[600,0],[610,0],[610,10]]"),
        line("[[610,10],[600,10],[600,0]]"),
        line("[[700,0],[710,0]]"),
    ];
    assert_eq!(loops(&text.join("\n"), &[]), [true, true, false]);
}

#[test]
fn what_is_no_loop_and_what_is_one() {
    let one = |coordinates: &str| loops(&line(coordinates), &[])[0];
    assert!(!one("[[500,0]]") && !one("[[500,0],[500,0]]"));
    assert!(one("[[500,0],[500,0],[500,0]]") && one("[[500,0],[510,0],[500,0]]"));
    // Zeros of both signs are two.
    assert!(!one("[[500,0],[510,0],[500,-0.0]]") && one("[[500,-0.0],[510,0],[500,-0.0]]"));
    // A gap that a cell closes leaves two ends, and heights decide nothing.
    assert_eq!(loops(&line("[[501,1],[510,1],[502,2]]"), &["--tolerance", "5"]), [false]);
    assert!(one("[[500,0,7],[510,0,8],[500,0,9]]"));
    // A MultiLineString passes through and is none, its parts may be.
    let parts = feature("MultiLineString", "[[[500,0],[510,0],[500,0]],[[600,0],[610,0]]]");
    assert_eq!(loops(&parts, &[]), [false]);
    assert_eq!(loops(&parts, &["--explode"]), [true, false]);
}

#[test]
fn the_yard_has_two() {
    let args = ["--class", "kind", "--bend", "60"];
    let chains = features(&joined(&sample_text("yard.geojson"), &args));
    let of = |chain: &&serde_json::Value| chain["properties"]["loop"] == true;
    let looped: Vec<String> =
        chains.iter().filter(of).map(|chain| chain["properties"]["members"].to_string()).collect();
    assert_eq!(looped, [r#"["Y1","Y2","Y3"]"#, r#"["T1"]"#]);
    let told = run(&["join", "-", "-o", "-"], &sample_text("yard.geojson"));
    assert!(told.err.contains(", of which 2 loops; the longest is"), "{}", told.err);
}

/// The map of a text.
fn map(text: &str, args: &[&str]) -> String {
    let run = run(&[&["join", "-", "-o", "/dev/null", "-q", "--map", "-"], args].concat(), text);
    assert_eq!(run.status, 0, "{}", run.err);
    run.out
}

#[test]
fn the_map_marks_loops_and_its_legend_says_so() {
    let yard = sample_text("yard.geojson");
    let svg = map(&yard, &["--class", "kind", "--units", "m"]);
    assert_eq!(svg.matches("<title>loop: chain ").count(), 2);
    assert!(svg.contains(", 1134.57 m long\nfrom 1150 430 back to it</title>"), "{svg}");
    assert!(svg.contains(">loop: it ends where it begins</text>"));
    let none = map(&line("[[500,0],[510,0]]"), &[]);
    assert!(!none.contains("<title>loop") && !none.contains(">loop: it"));
}

#[test]
fn a_property_of_that_name_gives_way() {
    let named = line("[[500,0],[510,0],[500,0]]")
        .replace("\"geometry\"", "\"properties\":{\"loop\":\"north\"},\"geometry\"");
    let run = run(&["join", "-", "-o", "-"], &named);
    assert!(run.err.contains("named like one of members, path, count, loop"), "{}", run.err);
    assert_eq!(features(&run.out)[0]["properties"]["loop"], true);
    let chains = features(&joined(&named, &["--prefix", "x_"]));
    let properties = &chains[0]["properties"];
    assert_eq!((&properties["loop"], &properties["x_loop"]), (&"north".into(), &true.into()));
}
