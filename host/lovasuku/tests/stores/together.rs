//! Stores with all else that the command does: several tolerances, pages, why, and checks.

use crate::common::{run, sample, Folder};
use crate::gdal::{self, made, quiet, summary};
use serde_json::Value;
use std::fs;

const SETTINGS: [&str; 8] =
    ["--class", "kind", "--bend", "60", "--tolerance", "10", "--units", "m"];

/// The yard as GeoJSON and as a GeoPackage.
fn yards(folder: &Folder) -> [String; 2] {
    let yard = sample("yard.geojson").to_str().unwrap().to_owned();
    let store = made(folder, &yard, "yard.gpkg", &[]);
    [yard, store]
}

#[test]
fn several_tolerances_into_stores() {
    if !gdal::is_there() {
        return;
    }
    let folder = Folder::new("zooms-in-stores");
    let [_, yard] = yards(&folder);
    let outputs = ["all-{tolerance}.gpkg", "all-{tolerance}-bridges.fgb"];
    let [out, bridges] = outputs.map(|name| folder.path(name));
    let args = ["join", &yard, "-o", &out, "--bridges", &bridges, "--class", "kind"];
    let told = summary(&[&args[..], &["--tolerance", "0,2,10"]].concat());
    assert_eq!(told.matches("tolerance  ").count(), 3, "{told}");
    for tolerance in ["0", "2", "10"] {
        let named = |path: &String| path.replace("{tolerance}", tolerance);
        let alone = [&out, &bridges].map(|path| named(path).replace("all", "alone"));
        let args = ["join", &yard, "-o", &alone[0], "--bridges", &alone[1], "--class", "kind"];
        quiet(&[&args[..], &["--tolerance", tolerance]].concat());
        for (all, alone) in [named(&out), named(&bridges)].iter().zip(&alone) {
            assert_eq!(gdal::features(all), gdal::features(alone), "{tolerance}");
        }
    }
}

#[test]
fn tables_of_several_tolerances_have_names_of_their_own() {
    let args = ["join", "-", "-o", "PG:dbname=none", "--tolerance", "0,2"];
    let run = run(&args, "");
    assert_eq!((run.status, &run.out[..]), (2, ""));
    let fault = "--into chains has no {tolerance} for several tolerances";
    assert!(run.err.contains(fault), "{}", run.err);
}

/// What a page tells.
fn page(input: &str, args: &[&str]) -> Value {
    let folder = Folder::new("page");
    let path = folder.path("page.html");
    quiet(&[&["join", input, "-o", "/dev/null", "--page", &path], args].concat());
    let html = folder.text("page.html");
    let (_, data) = html.split_once("id=\"data\">").unwrap();
    serde_json::from_str(data.split_once("</script>").unwrap().0).unwrap()
}

#[test]
fn a_page_of_a_layer_is_that_of_geojson() {
    if !gdal::is_there() {
        return;
    }
    let folder = Folder::new("page-of-a-layer");
    let [text, store] = yards(&folder);
    let settings = [&SETTINGS[..], &["--id", "id"]].concat();
    let (wanted, found) = (page(&text, &SETTINGS), page(&store, &settings));
    for name in ["shapes", "chains", "junctions", "gaps", "names", "rows", "classes"] {
        assert!(!wanted[name].is_null(), "{name}");
        assert_eq!(found[name], wanted[name], "{name}");
    }
    assert_eq!(found["input"]["name"], "yard.gpkg");
    let sum = gdal::output("sha256sum", &[&store]);
    assert!(sum.starts_with(found["input"]["checksum"].as_str().unwrap()), "{sum}");
}

#[test]
fn the_checksum_of_a_layer_that_is_no_file_is_of_what_was_read() {
    if !gdal::is_there() {
        return;
    }
    let folder = Folder::new("page-of-a-folder");
    let [text, _] = yards(&folder);
    let sum = |name: &str, scale: &str, args: &[&str]| {
        let layer = folder.path(name);
        fs::create_dir(&layer).unwrap();
        let sql = format!("SELECT ScaleCoords(geometry, {scale}), * FROM yard");
        let args_of_layer = ["-dialect", "SQLite", "-sql", &sql, "-nln", "yard"];
        made(&folder, &text, &format!("{name}/yard.shp"), &args_of_layer);
        let found = page(&layer, args);
        assert_eq!(found["input"]["name"], name);
        found["input"]["checksum"].as_str().unwrap().to_owned()
    };
    let all = [
        sum("one", "1", &[]),
        sum("other", "1.5", &[]),
        sum("fewer", "1", &["--where", "kind = 'haul'"]),
    ];
    assert_eq!(all[0], sum("same", "1", &[]));
    assert!(all[0] != all[1] && all[0] != all[2] && all[0].len() == 64, "{all:?}");
}

#[test]
fn why_two_lines_of_a_layer_are_joined_or_not() {
    if !gdal::is_there() {
        return;
    }
    let folder = Folder::new("why-of-a-layer");
    let [text, store] = yards(&folder);
    for [one, other] in [["H1", "H2"], ["H3", "H5"], ["S4", "S5"], ["H1", "S5"]] {
        let told = |input: &str, args: &[&str]| {
            let run = run(&[&["why", input, one, other], &SETTINGS[..], args].concat(), "");
            assert_eq!((run.status, &run.err[..]), (0, ""), "{one} {other}");
            run.out
        };
        let layer = ["--id", "id", "--layer", "yard"];
        assert_eq!(told(&store, &layer), told(&text, &[]), "{one} {other}");
    }
}

#[test]
fn chains_of_a_layer_are_checked() {
    if !gdal::is_there() {
        return;
    }
    let folder = Folder::new("checks-of-layers");
    let [text, store] = yards(&folder);
    let [chains, layer] = ["chains.geojson", "chains.gpkg"].map(|name| folder.path(name));
    for out in [&chains, &layer] {
        quiet(&[&["join", &store, "-o", out, "--id", "id"], &SETTINGS[..]].concat());
    }
    let check = |chains: &str, of: &str, args: &[&str]| {
        let run = run(&[&["check", chains, "--of", of, "--id", "id"], args].concat(), "");
        (run.status, run.out)
    };
    let args = &["--tolerance", "10", "--class", "kind"][..];
    for chains in [&chains, &layer] {
        let (status, out) = check(chains, &store, args);
        assert_eq!(status, 0, "{out}");
        let layer = [args, &["--layer", "yard"]].concat();
        assert_eq!(check(chains, &store, &layer), (0, out));
        let (status, out) = check(chains, &store, &["--class", "kind"]);
        assert!(status == 1 && out.starts_with("not accepted: chain "), "{out}");
        let some = [args, &["--where", "id <> 'H2'"]].concat();
        let (status, out) = check(chains, &store, &some);
        assert!(status == 1 && out.contains("\"H2\", which is no line of "), "{out}");
    }
    let run = run(&[&["check", &layer, "--of", &text], args].concat(), "");
    assert_eq!(run.status, 0, "{}{}", run.out, run.err);
}
