//! The page, read back without a browser: its policy, its data bit for bit, and its size.

#[path = "../common/mod.rs"]
mod common;
mod hostile;
mod reader;
mod sizes;

use common::{feature, features, run, sample, sample_text, Folder};
use reader::{checksum, source, Page};
use serde_json::Value;
use std::fs;

const COARSE: [&str; 8] = ["--class", "kind", "--bend", "60", "--tolerance", "10", "--units", "m"];

/// The page of a text.
fn page(text: &str, args: &[&str]) -> Page {
    let run = run(&[&["join", "-", "-o", "/dev/null", "-q", "--page", "-"], args].concat(), text);
    assert_eq!((run.status, &run.err[..]), (0, ""));
    Page::of(&run.out)
}

/// The points of each line of the input.
fn points(feature: &Value) -> Vec<Vec<[f64; 2]>> {
    let point = |point: &Value| [point[0].as_f64().unwrap(), point[1].as_f64().unwrap()];
    let run = |run: &Value| run.as_array().unwrap().iter().map(point).collect();
    let coordinates = &feature["geometry"]["coordinates"];
    match feature["geometry"]["type"].as_str() {
        Some("MultiLineString") => coordinates.as_array().unwrap().iter().map(run).collect(),
        _ => vec![run(coordinates)],
    }
}

fn bits(lines: &[Vec<Vec<[f64; 2]>>]) -> Vec<Vec<Vec<[u64; 2]>>> {
    let run = |run: &Vec<[f64; 2]>| run.iter().map(|point| point.map(f64::to_bits)).collect();
    lines.iter().map(|line| line.iter().map(run).collect()).collect()
}

#[test]
fn the_yard_with_all_its_reasons() {
    let folder = Folder::new("page");
    let [out, html] = ["chains.geojson", "page.html"].map(|name| folder.path(name));
    let input = sample("yard.geojson");
    let args = ["join", input.to_str().unwrap(), "-o", &out, "--page", &html];
    assert_eq!(run(&[&args[..], &COARSE].concat(), "").status, 0);
    let page = Page::of(&folder.text("page.html"));
    let yard = features(&sample_text("yard.geojson"));
    let wanted: Vec<_> = yard.iter().map(points).collect();
    assert_eq!(bits(&page.lines()), bits(&wanted));
    assert_eq!(page.data["shapes"]["decimals"], 2);
    // The chains are those of the output.
    let names: Vec<&str> =
        page.data["names"].as_array().unwrap().iter().map(|name| name.as_str().unwrap()).collect();
    for (path, chain) in page.paths().iter().zip(features(&folder.text("chains.geojson"))) {
        let step =
            |step: &Value| (step["line"].as_str().unwrap().to_owned(), step["turned"] == true);
        let wanted: Vec<_> =
            chain["properties"]["path"].as_array().unwrap().iter().map(step).collect();
        let path: Vec<_> =
            path.iter().map(|&(line, turned)| (names[line as usize].to_owned(), turned)).collect();
        assert_eq!(path, wanted);
    }
    // Of 13 joints 7 are at nodes of two ends, 4 of junctions, and 2 are bridges.
    let mut joints = page.bytes(&["chains", "joints"]);
    joints.sort_unstable();
    assert_eq!(joints, [0, 0, 0, 0, 0, 0, 0, 1, 1, 2, 2, 2, 2]);
    let input = &page.data["input"];
    assert_eq!(input["name"], "yard.geojson");
    assert_eq!(input["checksum"], checksum(&fs::read(sample("yard.geojson")).unwrap()));
    assert_eq!(page.data["version"], env!("CARGO_PKG_VERSION"));
}

#[test]
fn a_junction_with_every_pair_and_its_reason() {
    let page = page(&sample_text("yard.geojson"), &COARSE);
    let junctions = page.junctions();
    assert_eq!(junctions.len(), 3);
    let crossing = &junctions[0];
    let name = |line: u64| page.data["names"][line as usize].as_str().unwrap();
    let ends: Vec<_> = crossing.ends.iter().map(|&(line, last, _)| (name(line), last)).collect();
    assert_eq!(ends, [("H3", true), ("H4", false), ("H5", false), ("H6", false)]);
    assert_eq!(
        (crossing.round, crossing.whole, &crossing.selected),
        (0, true, &vec![[0, 1], [2, 3]])
    );
    // The pairs 01, 02, 03, 12, 13 and 23: two are selected, and the others bend too far.
    assert_eq!(crossing.reasons, [0, 3, 3, 3, 3, 0]);
    assert_eq!(crossing.measures[0], -0.999_941_476_356_516_1);
    // Of a fork one pair is selected, one is blocked by it, and one bends too far.
    assert_eq!((&junctions[1].selected, &junctions[1].reasons), (&vec![[0, 2]], &vec![4, 0, 3]));
}

#[test]
fn the_policy_allows_the_own_scripts_and_nothing_else() {
    let page = page(&sample_text("yard.geojson"), &[]);
    assert!(page.scripts.len() > 5, "{}", page.scripts.len());
    let sources: Vec<String> = page.scripts.iter().map(|script| source(script)).collect();
    assert_eq!(page.allowed("script-src"), sources);
    assert_eq!(page.allowed("style-src"), [source(&page.style)]);
    for (directive, value) in [
        ("default-src", "'none'"),
        ("base-uri", "'none'"),
        ("form-action", "'none'"),
        ("require-trusted-types-for", "'script'"),
        ("trusted-types", "'none'"),
    ] {
        assert_eq!(page.allowed(directive), [value], "{directive}");
    }
    assert!(!page.policy.contains("unsafe"), "{}", page.policy);
}

#[test]
fn every_bit_of_every_double() {
    let numbers =
        ["0.1", "-0.0", "5e-324", "1e300", "0.30000000000000004", "-123456.789012345", "7"];
    let line = |k: usize| {
        let number = |k: usize| numbers[k % numbers.len()];
        let [a, b, c, d] = [k, k + 1, k + 2, 3 * k].map(number);
        feature("LineString", &format!("[[{a},{b}],[{c},{d}],[{a},{d}]]"))
    };
    let text: Vec<String> = (0..40).map(line).collect();
    let read = |text: &str| -> Vec<Vec<Vec<[f64; 2]>>> {
        text.lines().map(|line| points(&serde_json::from_str(line).unwrap())).collect()
    };
    let wild = page(&text.join("\n"), &["--units", "m"]);
    assert_eq!(wild.data["shapes"]["decimals"], Value::Null);
    assert_eq!(bits(&wild.lines()), bits(&read(&text.join("\n"))));
    let tame = text.join("\n").replace("5e-324", "12.125").replace("1e300", "-0.5");
    let tame = tame.replace("-0.0", "0.0").replace("0.30000000000000004", "0.3");
    let decimal = page(&tame, &["--units", "m"]);
    assert_eq!(decimal.data["shapes"]["decimals"], 9);
    assert_eq!(bits(&decimal.lines()), bits(&read(&tame)));
}

#[test]
fn names_positions_and_parts() {
    let lines =
        [feature("LineString", "[[0,500],[1,500]]"), feature("LineString", "[[1,500],[2,500]]")];
    assert_eq!(page(&lines.join("\n"), &[]).data["names"], Value::Null);
    let parts = feature("MultiLineString", "[[[9,500],[8,500]],[[8,500],[7,500],[6,501]]]");
    let text = [&lines[0], &parts, &lines[1]].map(String::as_str).join("\n");
    let whole = page(&text, &[]);
    assert_eq!(whole.lines()[1].len(), 2);
    assert_eq!(whole.data["parts"], Value::Null);
    let exploded = page(&text, &["--explode"]);
    assert_eq!(exploded.data["names"], serde_json::json!(["0", "1", "1", "2"]));
    assert_eq!(exploded.data["parts"], serde_json::json!([0, 0, 1, 0]));
    let point = feature("Point", "[0,0]");
    let skipped = page(&format!("{point}\n{}", lines[1]), &["--skip-other"]);
    assert_eq!(skipped.data["names"], serde_json::json!(["1"]));
}

#[test]
fn any_input_has_a_page() {
    let all = [
        r#"{"type":"FeatureCollection","features":[]}"#.to_owned(),
        feature("LineString", "[[5,5]]"),
        feature("LineString", "[[5,5],[5,5]]"),
        feature("LineString", "[[-1.7e308,-1.7e308],[1.7e308,1.7e308]]"),
        feature("LineString", "[[5e-324,0],[0,5e-324]]"),
        feature("MultiLineString", "[[[5,5],[6,6]],[]]"),
    ];
    for text in all {
        for args in [&["--tolerance", "3", "--bend", "90"][..], &[]] {
            let page = page(&text, args);
            assert_eq!(page.lines().len(), page.paths().concat().len());
        }
    }
}

#[test]
fn a_page_is_an_output_like_others() {
    let folder = Folder::new("page-places");
    let input = sample("yard.geojson");
    let [out, html] = ["out", "page.html"].map(|name| folder.path(name));
    let join = |more: &[&str]| {
        run(&[&["join", input.to_str().unwrap(), "-o", &out, "-q"], more].concat(), "")
    };
    let twice = join(&["--page", &out]);
    assert_eq!(twice.status, 2);
    assert!(twice.err.contains("two outputs have the same place"), "{}", twice.err);
    let nowhere = folder.path("no/page.html");
    let fault = join(&["--page", &nowhere]);
    assert_eq!(fault.status, 1);
    assert!(fault.err.contains("no/page.html cannot be written"), "{}", fault.err);
    assert!(folder.names().is_empty(), "{:?}", folder.names());
    // The same run gives the same page.
    assert_eq!(join(&["--page", &html, "--tolerance", "10"]).status, 0);
    let first = folder.text("page.html");
    assert_eq!(join(&["--page", &html, "--tolerance", "10"]).status, 0);
    assert!(first == folder.text("page.html"));
}

#[test]
fn the_settings_in_words() {
    let row = |args: &[&str], name: &str| {
        let page = page(&sample_text("yard.geojson"), args);
        let rows = page.data["rows"].as_array().unwrap().clone();
        let found = rows.iter().find(|row| row[0] == name);
        found.map(|row| row[1].as_str().unwrap().to_owned()).unwrap_or_default()
    };
    assert_eq!(row(&[], "Tolerance"), "none: only what meets exactly is joined");
    assert_eq!(row(&[], "Junctions"), "not paired");
    let from = ["--tolerance", "2", "--origin", "5,-7", "--units", "m"];
    assert_eq!(row(&from, "Tolerance"), "cells of side 2 m, counted from 5 -7");
    assert_eq!(row(&["--bend", "60"], "Junctions"), "paired up to a bend of 60°, limit -0.5");
    assert_eq!(row(&["--limit", "0"], "Junctions"), "paired up to limit 0 (90°)");
    let offset = "paired up to an offset of 577 mm per metre, limit -0.8661567447589053 (29.9849°)";
    assert_eq!(row(&["--offset", "577"], "Junctions"), offset);
    let district = ["--district", "kind=spur", "--class", "surface", "--explode"];
    assert_eq!(row(&district, "Second district"), "kind=spur");
    assert_eq!(row(&district, "Reading"), "parts of MultiLineStrings are joined");
    let page = page(&sample_text("yard.geojson"), &district);
    let classes = page.data["classes"]["names"].as_array().unwrap();
    assert!(classes.contains(&"class \"asphalt\" of the second district".into()), "{classes:?}");
}
