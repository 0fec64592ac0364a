//! GDAL's own programs.

use crate::common::{run, Folder};
use serde_json::Value;
use std::fs;
use std::process::Command;

/// The endings of the formats that the tests are about, and how ogr2ogr makes layers of them that keep
/// the order of their features.
pub const FORMATS: [(&str, &[&str]); 4] = [
    ("gpkg", &[]),
    ("fgb", &["-lco", "SPATIAL_INDEX=NO"]),
    ("shp", &["-lco", "ENCODING=UTF-8"]),
    ("sqlite", &[]),
];

/// True where GDAL's programs are there.
pub fn is_there() -> bool {
    let there = Command::new("ogrinfo").arg("--version").output().is_ok();
    if !there {
        eprintln!("ogrinfo is not installed (gdal-bin), so that stores are not tested");
    }
    there
}

/// What a program of GDAL's writes, which succeeds.
pub fn output(program: &str, args: &[&str]) -> String {
    let output = Command::new(program).args(args).output().unwrap();
    let [out, err] = [output.stdout, output.stderr].map(|text| String::from_utf8(text).unwrap());
    assert!(output.status.success(), "{program} {args:?}: {out}{err}");
    out
}

/// Makes a layer of a format from a file, under the name of the file, in a folder.
pub fn made(folder: &Folder, from: &str, name: &str, args: &[&str]) -> String {
    let path = folder.path(name);
    output("ogr2ogr", &[args, &[&path, from]].concat());
    path
}

/// A GeoPackage of geometries that are written as WKT, which GDAL reads.
pub fn of_wkt(folder: &Folder, name: &str, rows: &[&str]) -> String {
    let rows = rows.iter().enumerate().map(|(k, row)| format!("{k},\"{row}\"\n"));
    let path = folder.path("rows.csv");
    fs::write(&path, format!("number,WKT\n{}", rows.collect::<String>())).unwrap();
    let options = ["-oo", "GEOM_POSSIBLE_NAMES=WKT", "-oo", "KEEP_GEOM_COLUMNS=NO"];
    made(folder, &path, name, &[&options[..], &["-overwrite"]].concat())
}

/// What ogrinfo tells of all features.
pub fn told(path: &str) -> String {
    output("ogrinfo", &["-ro", "-al", path])
}

/// The features of a store as GDAL reads them, by their numbers in the field `chain`.
pub fn features(path: &str) -> Vec<Value> {
    let args = ["-f", "GeoJSON", "-lco", "RFC7946=NO", "-lco", "SIGNIFICANT_FIGURES=17"];
    let text = output("ogr2ogr", &[&args[..], &["/vsistdout/", path]].concat());
    let mut features = crate::common::features(&text);
    features.sort_by_key(|feature| feature["properties"]["chain"].as_u64());
    features
}

/// The standard output of a run of the command that succeeds without a word.
pub fn quiet(args: &[&str]) -> String {
    let run = run(&[args, &["-q"]].concat(), "");
    assert_eq!((run.status, &run.err[..]), (0, ""), "{args:?}");
    run.out
}

/// The summary of a run of the command that succeeds.
pub fn summary(args: &[&str]) -> String {
    let run = run(args, "");
    assert_eq!((run.status, &run.out[..]), (0, ""), "{args:?}: {}", run.err);
    run.err
}

/// What is told of a fault of the command.
pub fn fault(args: &[&str]) -> String {
    let run = run(args, "");
    assert_eq!((run.status, &run.out[..]), (1, ""), "{args:?}: {}", run.err);
    run.err
}
