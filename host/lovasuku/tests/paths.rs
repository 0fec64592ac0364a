//! Paths: the lines of a chain in the order of travel, and the way each was drawn.

mod common;

use common::{feature, features, joined, run, sample_text};
use serde_json::{json, Value};

fn line(from: f64, to: f64) -> String {
    feature("LineString", &format!("[[{from},500],[{to},500]]"))
}

/// The properties of the only chain.
fn chain(lines: &[String], args: &[&str]) -> Value {
    let chains = features(&joined(&lines.join("\n"), args));
    assert_eq!(chains.len(), 1);
    chains[0]["properties"].clone()
}

fn path(steps: &[(u32, bool)]) -> Value {
    steps.iter().map(|&(line, turned)| json!({"line": line, "turned": turned})).collect()
}

const ONE: [&str; 2] = ["--tolerance", "1"];

#[test]
fn a_piece_that_round_two_turns() {
    let lines = [line(0.0, 1.25), line(4.5, 3.5), line(3.5, 1.75)];
    let properties = chain(&lines, &ONE);
    assert_eq!(properties["members"], json!([0, 1, 2]));
    assert_eq!(properties["path"], path(&[(0, false), (2, true), (1, true)]));
    assert!(properties.get("turned").is_none());
}

#[test]
fn a_line_is_turned_where_one_round_turns_it_and_not_where_both_do() {
    let once = [line(0.0, 1.25), line(1.75, 3.5), line(4.5, 3.5)];
    assert_eq!(chain(&once, &ONE)["path"], path(&[(0, false), (1, false), (2, true)]));
    let twice = [line(0.0, 1.25), line(4.5, 3.5), line(1.75, 3.5)];
    assert_eq!(chain(&twice, &ONE)["path"], path(&[(0, false), (2, false), (1, true)]));
    // The path does not change with a tolerance that joins nothing.
    let exact = [line(0.0, 1.0), line(2.0, 1.0), line(2.0, 3.0)];
    let wanted = path(&[(0, false), (1, true), (2, false)]);
    for args in [&[][..], &["--tolerance", "0.1"], &["--tolerance", "0.001"]] {
        assert_eq!(chain(&exact, args)["path"], wanted, "{args:?}");
    }
}

/// The positions of a chain by its path: its lines laid end to end, each backwards where it is turned,
/// without repeats.
fn laid(path: &Value, line: &dyn Fn(&Value) -> Vec<[f64; 2]>) -> Vec<[f64; 2]> {
    let mut laid: Vec<[f64; 2]> = Vec::new();
    for step in path.as_array().unwrap() {
        let mut points = line(&step["line"]);
        if step["turned"] == true {
            points.reverse();
        }
        for point in points {
            if laid.last() != Some(&point) {
                laid.push(point);
            }
        }
    }
    laid
}

fn points(geometry: &Value) -> Vec<[f64; 2]> {
    let number = |value: &Value| value.as_f64().unwrap();
    let positions = geometry["coordinates"].as_array().unwrap();
    positions.iter().map(|position| [number(&position[0]), number(&position[1])]).collect()
}

#[test]
fn the_lines_of_the_yard_laid_by_their_paths_are_its_chains() {
    let yard = sample_text("yard.geojson");
    let input = features(&yard);
    let line = |id: &Value| {
        points(&input.iter().find(|feature| feature["id"] == *id).unwrap()["geometry"])
    };
    let mut turned = 0;
    for tolerance in ["0", "0.5", "2", "5", "10", "25", "60"] {
        for bend in ["0", "60", "180"] {
            let args = ["--class", "kind", "--bend", bend, "--tolerance", tolerance];
            for chain in features(&joined(&yard, &args)) {
                let path = &chain["properties"]["path"];
                if chain["geometry"]["type"] == "LineString" {
                    assert_eq!(laid(path, &line), points(&chain["geometry"]), "{args:?} {path}");
                }
                turned += path.to_string().matches("true").count();
            }
        }
    }
    assert!(turned > 50, "{turned}");
}

#[test]
fn a_path_names_lines_as_the_members_are_named() {
    let parts = feature("MultiLineString", "[[[1,500],[0,500]],[[1,500],[2,500]]]");
    let named = parts.replacen('{', r#"{"id":"m","#, 1);
    let properties = chain(&[named], &["--explode"]);
    assert_eq!(properties["members"], json!(["m", "m"]));
    let wanted = r#"[{"line":"m","part":1,"turned":true},{"line":"m","part":0,"turned":false}]"#;
    assert_eq!(properties["path"].to_string(), wanted);
    let prefixed = chain(&[line(0.0, 1.0)], &["--prefix", "chain_"]);
    assert_eq!(prefixed["chain_path"], path(&[(0, false)]));
}

/// The map of a text.
fn map(text: &str, args: &[&str]) -> String {
    let run = run(&[&["join", "-", "-o", "/dev/null", "-q", "--map", "-"], args].concat(), text);
    assert_eq!(run.status, 0, "{}", run.err);
    run.out
}

#[test]
fn arrows_show_the_way_each_line_was_drawn() {
    // From 500 to 700 over 736 pixels from 64 on: the lines' middles are at 248 and 616.
    let text = [line(500.0, 600.0), line(700.0, 600.0)].join("\n");
    let svg = map(&text, &["--arrows"]);
    let wanted = [
        "<path class=\"arrow along\" d=\"M252.5 324L243.5 320L243.5 328z\"/>",
        "<path class=\"arrow against\" d=\"M611.5 324L620.5 328L620.5 320z\"/>",
    ];
    assert!(wanted.iter().all(|path| svg.contains(path)), "{svg}");
    assert!(svg.contains(">line drawn against it: turned</text>"));
    assert!(!map(&text, &[]).contains("class=\"arrow"));
    // A line too short on the page has none, and neither has one without length.
    let short = [line(500.0, 9000.0), line(9001.0, 9000.5), line(7.0, 7.0)].join("\n");
    assert!(!map(&short, &["--arrows"]).contains("arrow against\" d=\"M8"));
}

#[test]
fn arrows_are_of_a_map() {
    let refused = run(&["join", "-", "-o", "-", "--arrows"], &line(0.0, 1.0));
    assert_eq!(refused.status, 2);
    assert!(refused.err.contains("--map"), "{}", refused.err);
}
