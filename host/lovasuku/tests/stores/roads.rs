//! The same roads by all ways in and out: the same chains, bit for bit.

use crate::common::{features, joined, sample, sample_text, Folder};
use crate::gdal::{self, made, quiet, summary, told, FORMATS};
use serde_json::{json, Value};
use std::fs;

/// Settings by which the yard has junctions, bridges and classes.
const SETTINGS: [&str; 8] =
    ["--class", "kind", "--bend", "60", "--tolerance", "10", "--units", "m"];

/// The yard as a store of each format.
fn yards(folder: &Folder) -> Vec<String> {
    let yard = sample("yard.geojson");
    let made = |(ending, args): (&str, &[&str])| {
        made(folder, yard.to_str().unwrap(), &format!("yard.{ending}"), args)
    };
    FORMATS.into_iter().map(made).collect()
}

/// The chains without their ids, which are names of lines in GeoJSON and a field in stores.
fn chains(text: &str) -> Vec<Value> {
    let mut features = features(text);
    for feature in &mut features {
        feature["properties"].as_object_mut().unwrap().remove("id");
    }
    features
}

#[test]
fn the_same_roads_give_the_same_chains() {
    if !gdal::is_there() {
        return;
    }
    let folder = Folder::new("roads");
    let wanted = chains(&joined(&sample_text("yard.geojson"), &SETTINGS));
    for yard in yards(&folder) {
        let args = [&["join", &yard, "-o", "-", "--id", "id"], &SETTINGS[..]].concat();
        assert_eq!(chains(&quiet(&args)), wanted, "{yard}");
    }
}

#[test]
fn chains_go_into_all_stores() {
    if !gdal::is_there() {
        return;
    }
    let folder = Folder::new("chains");
    let wanted = features(&joined(&sample_text("yard.geojson"), &SETTINGS));
    let yard = sample("yard.geojson");
    for (ending, _) in FORMATS {
        let (out, bridges) =
            (folder.path(&format!("out.{ending}")), folder.path(&format!("bridges.{ending}")));
        let args = ["join", yard.to_str().unwrap(), "-o", &out, "--bridges", &bridges];
        quiet(&[&args[..], &SETTINGS].concat());
        let found = gdal::features(&out);
        assert_eq!(found.len(), wanted.len());
        for (chain, wanted) in found.iter().zip(&wanted) {
            assert_eq!(chain["geometry"], wanted["geometry"], "{ending}");
            assert_eq!(chain["properties"]["chain"], wanted["id"]);
            for (name, value) in wanted["properties"].as_object().unwrap() {
                let found = &chain["properties"][name];
                // Lists are texts of JSON here, and truths of Shapefiles numbers.
                let same = match value {
                    Value::Array(_) => *found == *value || *found == json!(value.to_string()),
                    Value::Bool(truth) if ending == "shp" => *found == json!(i32::from(*truth)),
                    _ => found == value,
                };
                assert!(same, "{ending}: {name}: {found} {value}");
            }
        }
        let told = told(&bridges);
        assert!(told.contains("Feature Count: 2") && told.contains("kind (String) = bridge"));
        assert!(told.contains("LINESTRING (933.2 1083.4,938.6 1087.9)"), "{told}");
    }
}

/// Lines whose coordinates are all kinds of doubles, none of which meet.
fn wild() -> (String, Vec<Vec<[u64; 2]>>) {
    let mut bits: u64 = 0x9e37_79b9_7f4a_7c15;
    let mut number = || loop {
        bits = bits.wrapping_mul(6_364_136_223_846_793_005).wrapping_add(1_442_695_040_888_963_407);
        let x = f64::from_bits(bits ^ bits >> 29);
        if x.is_finite() {
            return x;
        }
    };
    let mut lines: Vec<Vec<[f64; 2]>> =
        (0..200).map(|k| (0..2 + k % 7).map(|_| [number(), number()]).collect()).collect();
    lines.push(vec![[-0.0, 5e-324], [0.0, -0.0], [0.1 + 0.2, 1.0 / 3.0]]);
    let line = |points: &Vec<[f64; 2]>| {
        let geometry = json!({"type": "LineString", "coordinates": points});
        json!({"type": "Feature", "properties": {"name": "å"}, "geometry": geometry}).to_string()
    };
    let text = lines.iter().map(line).collect::<Vec<_>>().join("\n");
    (text, lines.iter().map(|line| bits_of(line)).collect())
}

fn bits_of(points: &[[f64; 2]]) -> Vec<[u64; 2]> {
    points.iter().map(|point| point.map(f64::to_bits)).collect()
}

/// The bits of the points of each chain.
fn bits(text: &str) -> Vec<Vec<[u64; 2]>> {
    let points = |feature: &Value| -> Vec<[f64; 2]> {
        serde_json::from_value(feature["geometry"]["coordinates"].clone()).unwrap()
    };
    features(text).iter().map(|feature| bits_of(&points(feature))).collect()
}

#[test]
fn every_bit_of_a_coordinate_is_kept() {
    if !gdal::is_there() {
        return;
    }
    let folder = Folder::new("bits");
    let (text, lines) = wild();
    let from = folder.path("wild.geojsonl");
    fs::write(&from, text).unwrap();
    for (ending, _) in FORMATS {
        let store = folder.path(&format!("wild.{ending}"));
        quiet(&["join", &from, "-o", &store, "--units", "m"]);
        // FlatGeobuf sorts its features by their places, and a query puts them in order again.
        let sql = "SELECT * FROM wild ORDER BY chain";
        let back = quiet(&["join", &store, "--sql", sql, "-o", "-", "--prefix", "p_"]);
        assert_eq!(bits(&back), lines, "{ending}");
        assert!(back.contains("\"name\":\"å\""), "{ending}");
    }
}

#[test]
fn a_chain_is_told_in_full_by_a_store() {
    if !gdal::is_there() {
        return;
    }
    let folder = Folder::new("told");
    let out = folder.path("chains.gpkg");
    let yard = sample("yard.geojson");
    let words = summary(&["join", yard.to_str().unwrap(), "-o", &out]);
    assert!(
        words.starts_with("    lines  23, of which 1 MultiLineString passed through"),
        "{words}"
    );
    assert!(!words.contains("warning"), "{words}");
    let told = told(&out);
    for wanted in [
        "Layer name: chains",
        "Geometry: Unknown (any)",
        "Feature Count: 20",
        "OGRFeature(chains):3\n  chain (Integer) = 3\n  members (String(JSON)) = [\"S1\",\"S2\"]\n  \
         path (String(JSON)) = [{\"line\":\"S1\",\"turned\":false},{\"line\":\"S2\",\"turned\":false}]\n  \
         count (Integer) = 2\n  loop (Integer(Boolean)) = 0\n",
        "  year (Integer) = 2014\n",
        "  MULTILINESTRING ((1500 420,1620 470,1700 440),",
    ] {
        assert!(told.contains(wanted), "{wanted}: {told}");
    }
}

#[test]
fn parts_are_joined_where_that_is_asked_for() {
    if !gdal::is_there() {
        return;
    }
    let folder = Folder::new("parts");
    let wanted = joined(&sample_text("yard.geojson"), &["--explode"]);
    for yard in yards(&folder) {
        let out = quiet(&["join", &yard, "-o", "-", "--explode", "--id", "id"]);
        assert_eq!(chains(&out), chains(&wanted), "{yard}");
    }
    // A layer of MultiLineStrings alone, as many stores are.
    let yard = sample("yard.geojson");
    let multi = made(&folder, yard.to_str().unwrap(), "multi.gpkg", &["-nlt", "PROMOTE_TO_MULTI"]);
    let out = quiet(&["join", &multi, "-o", "-", "--explode", "--id", "id"]);
    assert_eq!(chains(&out), chains(&wanted));
    let passed = folder.path("passed.gpkg");
    let words = summary(&["join", &multi, "-o", &passed]);
    assert!(
        words.starts_with("    lines  23, of which 23 MultiLineStrings passed through"),
        "{words}"
    );
    assert!(told(&passed).contains("Geometry: Multi Line String"));
}

#[test]
fn some_rows_of_a_layer() {
    if !gdal::is_there() {
        return;
    }
    let folder = Folder::new("rows");
    for yard in yards(&folder) {
        let members = |args: &[&str]| {
            crate::common::members(&quiet(
                &[&["join", &yard, "-o", "-", "--id", "id"], args].concat(),
            ))
        };
        let some = members(&["--where", "road = 'Log yard'"]);
        assert_eq!(some, [r#"["Y1","Y2","Y3"]"#], "{yard}");
        let sql = "SELECT * FROM yard WHERE id IN ('S4', 'S9') ORDER BY id DESC";
        assert_eq!(members(&["--sql", sql]), [r#"["S9"]"#, r#"["S4"]"#], "{yard}");
        assert_eq!(members(&["--layer", "yard", "--where", "id = 'S9'"]), [r#"["S9"]"#]);
    }
}

#[test]
fn lines_are_named_by_the_ids_of_a_store() {
    if !gdal::is_there() {
        return;
    }
    let folder = Folder::new("ids");
    let ids = yards(&folder).into_iter().map(|yard| {
        let out = quiet(&["join", &yard, "-o", "-", "--where", "id IN ('S1', 'S2')"]);
        crate::common::members(&out)
    });
    assert!(ids.eq([["[4,5]"], ["[3,4]"], ["[3,4]"], ["[4,5]"]]));
}
