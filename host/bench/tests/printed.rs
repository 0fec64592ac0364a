//! What is printed, what is asked for, and when the gate is shut.

use bench::about::civil;
use bench::options::Options;
use bench::summary::Summary;
use bench::table::{head, measured, row, time, whole, Column, Form};

const COLUMNS: [Column; 2] = [Column::words("name", 6), Column::numbers("ratio", 15)];

fn options(words: &str) -> Option<Options> {
    Options::of(words.split_whitespace().map(str::to_string))
}

#[test]
fn a_table_in_both_forms() {
    let rows = |form| {
        let cells = ["road".to_string(), measured(form, 0.314, 1_320_000.0)];
        [head(form, &COLUMNS), row(form, &COLUMNS, &cells)].join("\n")
    };
    assert_eq!(rows(Form::Text), "name              ratio\nroad      0.31   1.3 ms");
    let markdown = "| name | ratio |\n|---|---:|\n| road | 0.31 (1.3 ms) |";
    assert_eq!(rows(Form::Markdown), markdown);
}

#[test]
fn times_and_whole_numbers() {
    let times = [7.0, 85.0, 1_500.0, 9_960.0, 412_000.0, 999_800.0, 2_340_000_000.0].map(time);
    assert_eq!(times, ["7 ns", "85 ns", "1.5 µs", "10 µs", "412 µs", "1.0 ms", "2.3 s"]);
    assert_eq!([7, 256, 4_096, 1_065_536].map(whole), ["7", "256", "4,096", "1,065,536"]);
}

#[test]
fn dates() {
    assert_eq!(civil(0), (1970, 1, 1));
    assert_eq!(civil(19_782), (2024, 2, 29));
    assert_eq!(civil(20_088), (2024, 12, 31));
}

#[test]
fn the_words_of_the_command() {
    let all = options("").unwrap();
    assert!(all.asks_for("road") && !all.gate);
    let some = options("--quick --only road --gate --markdown").unwrap();
    assert!(some.asks_for("shuffled road") && !some.asks_for("star"));
    assert_eq!(some.sizes(&[256, 1_024, 4_096]), [256, 4_096]);
    assert_eq!((some.gate, some.form), (true, Form::Markdown));
    assert_eq!([options("--only"), options("--fast")], [None, None]);
}

#[test]
fn the_gate() {
    let mut summary = Summary::default();
    summary.building.push("road".to_string(), 0.25);
    summary.building.push("star".to_string(), 1.0);
    assert_eq!(summary.building.mean(), Some(0.5));
    assert!(summary.within());
    summary.pairing.push("pairs".to_string(), 1.25);
    assert!(!summary.within());
    let lines = [
        "building: 2 ratios, geometric mean 0.50, worst 1.00 (star)",
        "pairing: 1 ratios, geometric mean 1.25, worst 1.25 (pairs)",
        "above 1.00: 1.25 (pairs)",
    ];
    assert_eq!(summary.lines(), lines);
}
