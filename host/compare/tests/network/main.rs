//! Networks out of files: what is read, what is refused, and that what differs is told.

use answers::{model, BuildCall, Built};
use compare::network::comparing::compare;
use compare::network::{compare_forms, forms, open, reading};
use compare::Judge;
use std::path::Path;

/// A junction of three roads as GDAL writes them, a row of two lines, one with heights, and a road of
/// another group beside them.
const ROADS: &str = r#"
{ "type": "Feature", "properties": { "name": "a" }, "geometry": { "type": "LineString", "coordinates": [ [ -1.5, 0.0 ], [ 0.0, 0.0 ] ] } }
{"type":"Feature","properties":{},"geometry":{"type":"MultiLineString","coordinates":[[[0,0],[1e1,0.1],[20,0]],[[0,0,7],[0,5,8]]]}}
{"type":"Feature","properties":{"group":3},"geometry":{"type":"LineString","coordinates":[[20,0],[30,0]]}}
{"type":"LineString","coordinates":[[20,0],[20,-4]]}
{"type":"LineString","coordinates":[]}
"#;

fn roads() -> BuildCall {
    reading::read(ROADS.as_bytes()).unwrap()
}

#[test]
fn lines_are_read_bit_for_bit() {
    let roads = roads();
    assert_eq!(roads.counts, [2, 3, 2, 2, 2, 0]);
    assert_eq!(roads.groups, [0, 0, 0, 3, 0, 0]);
    let numbers: Vec<f64> = roads.coordinates.iter().map(|&bits| f64::from_bits(bits)).collect();
    let first = [-1.5, 0.0, 0.0, 0.0, 0.0, 0.0, 10.0, 0.1, 20.0, 0.0, 0.0, 0.0, 0.0, 5.0];
    assert_eq!(numbers[..14], first);
    assert_eq!(numbers.len(), 22);
}

#[test]
fn rows_that_have_no_lines_are_refused_with_their_number() {
    let broken = [
        (r#"{"type":"Polygon","coordinates":[[[0,0],[1,0],[0,1],[0,0]]]}"#, "this is no line"),
        (r#"{"type":"Feature","geometry":null}"#, "there are no coordinates"),
        (r#"{"type":"LineString","coordinates":[[0,0],[1]]}"#, "a position has no x and y"),
        (r#"{"type":"LineString","coordinates":[[0,0],[1,NaN]]}"#, "what is no number"),
        (r#"{"type":"LineString","coordinates":[[0,0],[1,1e999]]}"#, "what is no number"),
        (r#"{"type":"LineString","coordinates":[[0,0],[1,2"#, "a list does not begin or end"),
        (r#"{"type":"LineString","coordinates":[[0,0] [1,2]]}"#, "a list does not begin or end"),
        (r#"{"type":"MultiLineString","coordinates":[[0,0],[1,2]]}"#, "a list does not begin"),
        (r#"{"group":-1,"type":"LineString","coordinates":[[0,0],[1,2]]}"#, "no whole number"),
    ];
    for (row, why) in broken {
        let fault = reading::read(format!("{}\n\n{row}", ROADS.trim()).as_bytes()).unwrap_err();
        assert!(fault.starts_with("row 7: ") && fault.contains(why), "{row}: {fault}");
    }
}

#[test]
fn a_file_that_is_not_there_or_empty_is_named() {
    let fault = open(Path::new("no/such.geojsonl")).unwrap_err();
    assert!(fault.starts_with("no/such.geojsonl: "), "{fault}");
    let empty = std::env::temp_dir().join(format!("compare-empty-{}", std::process::id()));
    std::fs::write(&empty, "\n\n").unwrap();
    let fault = open(&empty);
    std::fs::remove_file(&empty).unwrap();
    assert!(fault.unwrap_err().ends_with(": there are no lines"));
}

#[test]
fn cutting_and_mixing_keep_every_segment() {
    let cut = forms::cut(&roads(), 2);
    assert_eq!(cut.lines(), 7);
    let mixed = forms::mixed(&cut);
    assert_ne!(mixed.coordinates, cut.coordinates);
    assert_eq!(sorted_segments(&mixed), sorted_segments(&roads()));
}

/// The segments of all lines, in one order and the same way drawn.
fn sorted_segments(call: &BuildCall) -> Vec<[[u64; 2]; 2]> {
    let mut all = Vec::new();
    for (line, first) in call.firsts().into_iter().enumerate() {
        let points = call.points(line, first);
        all.extend(points.windows(2).map(|two| [two[0].min(two[1]), two[0].max(two[1])]));
    }
    all.sort_unstable();
    all
}

#[test]
fn every_form_of_a_network_has_the_chains_of_the_judge() {
    let (judge, _) = Judge::find();
    let told = std::cell::RefCell::new(Vec::new());
    let sum = compare_forms(judge, &roads(), &|form, tally| {
        told.borrow_mut().push((form.to_string(), tally.deliveries, tally.lines));
    });
    let wanted = [("as it is", 1, 6), ("cut", 1, 6), ("patches", 2, 12)];
    assert!(told.take().iter().map(|(a, b, c)| (&a[..], *b, *c)).eq(wanted));
    assert_eq!((sum.differ.len(), sum.deliveries, sum.settings), (0, 4, 100));
    assert_eq!((sum.answers, sum.in_one), (500, 500));
}

#[test]
fn an_answer_that_is_not_the_wanted_one_is_told() {
    let wrong = |call: &BuildCall| {
        let mut built: Built = model::built(call);
        built.marks.iter_mut().for_each(|mark| *mark ^= 1);
        built
    };
    let tally = compare(&roads(), &wrong);
    assert_eq!(tally.differ.len(), tally.answers);
    assert!(tally.differ[0].starts_with("the marks differ"), "{}", tally.differ[0]);
}
