//! Heights: they ride along with their positions, bit for bit, and decide nothing.

mod common;

use common::{features, joined, run};
use serde_json::{json, Value};

/// A line as a feature, by its coordinates as they are written.
fn line(coordinates: &str) -> String {
    format!(
        r#"{{"type":"Feature","geometry":{{"type":"LineString","coordinates":{coordinates}}}}}"#
    )
}

/// The coordinates of each chain of the lines.
fn chains(lines: &[&str], args: &[&str]) -> Vec<Value> {
    let text: Vec<String> = lines.iter().map(|coordinates| line(coordinates)).collect();
    let out = joined(&text.join("\n"), args);
    features(&out).iter().map(|chain| chain["geometry"]["coordinates"].clone()).collect()
}

#[test]
fn a_chain_has_the_heights_of_its_lines() {
    let lines = ["[[0,0,210.5],[1,0,211]]", "[[2,0,214],[1,0,213]]", "[[5,5,-1],[6,5,-2]]"];
    let wanted = [
        json!([[0.0, 0.0, 210.5], [1.0, 0.0, 211.0], [2.0, 0.0, 214.0]]),
        json!([[5.0, 5.0, -1.0], [6.0, 5.0, -2.0]]),
    ];
    assert_eq!(chains(&lines, &[]), wanted);
    let flat = [json!([[0.0, 0.0], [1.0, 0.0], [2.0, 0.0]]), json!([[5.0, 5.0], [6.0, 5.0]])];
    assert_eq!(chains(&lines, &["--drop-heights"]), flat);
}

#[test]
fn a_position_without_a_height_stays_without_one() {
    let lines = ["[[0,0],[1,0]]", "[[1,0,7],[2,0],[3,0,9]]", "[[8,8],[9,8]]"];
    let wanted = [
        json!([[0.0, 0.0], [1.0, 0.0], [2.0, 0.0], [3.0, 0.0, 9.0]]),
        json!([[8.0, 8.0], [9.0, 8.0]]),
    ];
    assert_eq!(chains(&lines, &[]), wanted);
}

#[test]
fn heights_decide_nothing() {
    // Ends that meet in x and y at heights far apart are joined, as at a bridge that is no joint.
    assert_eq!(chains(&["[[0,0,0],[1,0,0]]", "[[1,0,900],[2,0,900]]"], &[]).len(), 1);
    // Ends at one height and apart in y are not, and a cell is of x and y.
    let apart = ["[[0,0,5],[1,0.25,5]]", "[[1,0.75,5],[2,0,5]]"];
    assert_eq!(chains(&apart, &[]).len(), 2);
    let bridged = [json!([[0.0, 0.0, 5.0], [1.0, 0.25, 5.0], [1.0, 0.75, 5.0], [2.0, 0.0, 5.0]])];
    assert_eq!(chains(&apart, &["--tolerance", "1"]), bridged);
}

#[test]
fn a_piece_that_is_walked_backwards_keeps_the_heights_that_it_had() {
    // Round one lays the second line and then the third, turned, and keeps the second's height.
    let lines = ["[[0,0,1],[1.25,0,2]]", "[[4.5,0,3],[3.5,0,4]]", "[[3.5,0,5],[1.75,0,6]]"];
    let heights = [[0.0, 1.0], [1.25, 2.0], [1.75, 6.0], [3.5, 4.0], [4.5, 3.0]];
    let wanted: Vec<Value> = heights.iter().map(|[x, z]| json!([x, 0.0, z])).collect();
    assert_eq!(chains(&lines, &["--tolerance", "1"]), [Value::from(wanted)]);
}

#[test]
fn every_bit_of_a_height_is_kept() {
    let heights = ["5e-324", "-0.0", "1.7976931348623157e308", "0.30000000000000004"];
    let [a, b, c, d] = heights;
    let lines = [format!("[[0,0,{a}],[1,0,{b}]]"), format!("[[1,0,7],[2,0,{c}],[3,0,{d}]]")];
    let text = [line(&lines[0]), line(&lines[1])].join("\n");
    let out = joined(&text, &[]);
    let written = format!("[[0.0,0.0,{a}],[1.0,0.0,{b}],[2.0,0.0,{c}],[3.0,0.0,{d}]]");
    assert!(out.contains(&written), "{out}");
}

#[test]
fn multi_lines_keep_their_heights() {
    let parts = "[[[0,0,1],[1,0,2]],[[1,0],[2,0,4]]]";
    let text = line(parts).replace("LineString", "MultiLineString");
    let out = joined(&text, &[]);
    assert!(out.contains("[[[0.0,0.0,1.0],[1.0,0.0,2.0]],[[1.0,0.0],[2.0,0.0,4.0]]]"), "{out}");
    let out = joined(&text, &["--explode"]);
    assert!(out.contains("[[0.0,0.0,1.0],[1.0,0.0,2.0],[2.0,0.0,4.0]]"), "{out}");
    let out = joined(&text, &["--drop-heights"]);
    assert!(out.contains("[[[0.0,0.0],[1.0,0.0]],[[1.0,0.0],[2.0,0.0]]]"), "{out}");
}

#[test]
fn the_box_of_a_collection_with_heights_is_left_out() {
    let features = [line("[[0,0,1],[1,0,2]]"), line("[[1,0,9],[2,0,3]]")].join(",");
    let text = format!(
        r#"{{"type":"FeatureCollection","bbox":[0,0,1,2,0,9],"name":"n","features":[{features}]}}"#
    );
    let out: Value = serde_json::from_str(&joined(&text, &[])).unwrap();
    assert_eq!((out.get("bbox"), &out["name"]), (None, &json!("n")));
}

#[test]
fn a_fourth_number_is_a_fault() {
    let text = [line("[[0,0,1],[1,0,2]]"), line("[[0,0,1],[1,0,2,3]]")].join("\n");
    let told = "lovasuku: standard input: feature 1 (line 2): its position 1 has more than three \
                numbers (--drop-heights leaves all but x and y out)\n";
    let out = run(&["join", "-", "-o", "-", "-q"], &text);
    assert_eq!((out.status, &out.out[..], &out.err[..]), (1, "", told));
    assert_eq!(run(&["join", "-", "-o", "-", "-q", "--drop-heights"], &text).status, 0);
}

#[test]
fn inputs_beyond_one_call_keep_their_heights() {
    // 5,000 places, each with two lines that meet.
    let mut text = String::new();
    for place in 0..5_000 {
        let y = 2 * place;
        text += &line(&format!("[[0,{y},{place}.25],[1,{y},{place}.5]]"));
        text += &line(&format!("[[2,{y},{place}.75],[1,{y},-1]]"));
    }
    let out = features(&joined(&text, &[]));
    assert_eq!(out.len(), 5_000);
    for (place, chain) in out.iter().enumerate() {
        let (y, z) = (2.0 * place as f64, place as f64);
        let wanted = json!([[0.0, y, z + 0.25], [1.0, y, z + 0.5], [2.0, y, z + 0.75]]);
        assert_eq!(chain["geometry"]["coordinates"], wanted);
    }
}
