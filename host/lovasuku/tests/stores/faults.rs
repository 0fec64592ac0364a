//! Faults: what is told of a store that cannot be read, and of the row that it is about.

use crate::common::{feature, sample, Folder};
use crate::gdal::{self, fault, made, of_wkt, output, summary};
use std::fs;
use std::process::Command;

fn yard(folder: &Folder) -> String {
    made(folder, sample("yard.geojson").to_str().unwrap(), "yard.gpkg", &["-nln", "yard"])
}

#[test]
fn a_library_that_is_missing_is_named_with_its_package() {
    let folder = Folder::new("missing");
    let store = folder.path("a.fgb");
    fs::write(&store, b"fgb\x03fgb\x00").unwrap();
    for (input, out) in [(&store[..], "-"), (sample("yard.geojson").to_str().unwrap(), &store)] {
        let mut command = Command::new(env!("CARGO_BIN_EXE_lovasuku"));
        command.args(["join", input, "-o", out]).env("LOVASUKU_GDAL", "/nowhere/libgdal.so");
        let run = command.output().unwrap();
        let told = String::from_utf8(run.stderr).unwrap();
        assert_eq!(run.status.code(), Some(1), "{told}");
        assert!(told.contains("GDAL, which LOVASUKU_GDAL names, is not found"), "{told}");
        assert!(told.contains("apt-get install libgdal32"), "{told}");
    }
    // Another library is not taken for it.
    let mut command = Command::new(env!("CARGO_BIN_EXE_lovasuku"));
    command.args(["join", &store, "-o", "-"]).env("LOVASUKU_GDAL", "libc.so.6");
    let told = String::from_utf8(command.output().unwrap().stderr).unwrap();
    assert!(told.contains("GDAL is older than 3.6 or is another library: "), "{told}");
}

#[test]
fn geojson_needs_no_library() {
    let mut command = Command::new(env!("CARGO_BIN_EXE_lovasuku"));
    let yard = sample("yard.geojson");
    command.args(["join", yard.to_str().unwrap(), "-o", "-", "-q"]);
    let run = command.env("LOVASUKU_GDAL", "/nowhere").output().unwrap();
    assert!(run.status.success() && run.stderr.is_empty());
}

#[test]
fn what_is_asked_of_a_store_is_there() {
    if !gdal::is_there() {
        return;
    }
    let folder = Folder::new("asked");
    let store = yard(&folder);
    let told = |args: &[&str]| fault(&[&["join", &store, "-o", "-"], args].concat());
    assert!(told(&["--layer", "x"]).ends_with("it has no layer \"x\"; it has \"yard\"\n"));
    assert!(told(&["--geometry", "x"]).ends_with("it has no geometry \"x\"; it has \"geom\"\n"));
    assert!(told(&["--where", "x = 1"]).contains("--where \"x = 1\": GDAL: "));
    assert!(told(&["--sql", "SELECT"]).contains("--sql \"SELECT\": GDAL: "));
    assert!(told(&["--sql", "DELETE FROM yard"]).contains("--sql \"DELETE FROM yard\": "));
    let table = told(&["--sql", "SELECT id FROM yard"]);
    assert!(table.contains("has no geometry"), "{table}");
    output(
        "ogr2ogr",
        &["-update", "-nln", "two", &store, sample("berm.geojsonl").to_str().unwrap()],
    );
    let told = told(&[]);
    assert!(
        told.ends_with("it has 2 layers, and --layer names one: \"yard\", \"two\"\n"),
        "{told}"
    );
}

#[test]
fn files_that_gdal_does_not_read() {
    if !gdal::is_there() {
        return;
    }
    let folder = Folder::new("unread");
    let store = folder.path("a.gpkg");
    fs::write(&store, b"SQLite format 3\0 and no more").unwrap();
    let told = fault(&["join", &store, "-o", "-"]);
    let wanted = format!(
        "lovasuku: {store}: it is an SQLite database, as a GeoPackage is, which GDAL reads: GDAL: "
    );
    assert!(told.starts_with(&wanted), "{told}");
    let told = fault(&["join", &folder.path("."), "-o", "-"]);
    assert!(told.contains("it is a folder, which GDAL reads: "), "{told}");
}

#[test]
fn the_row_at_fault_is_named() {
    if !gdal::is_there() {
        return;
    }
    let folder = Folder::new("rows");
    let line = "LINESTRING (0 0,1 0)";
    for (row, wanted) in [
        (
            "POINT (1 2)",
            "its geometry is a Point, not a line (--skip-other leaves such features out)",
        ),
        (
            "POLYGON Z ((0 0 1,1 0 1,1 1 1,0 0 1))",
            "its geometry is a Polygon, not a line (--skip-other leaves such features out)",
        ),
        (
            "CIRCULARSTRING (0 0,1 1,2 0)",
            "its geometry is a CircularString, not a line (--skip-other leaves such features out)",
        ),
        ("LINESTRING EMPTY", "its coordinates are empty (--drop-empty leaves such lines out)"),
        ("MULTILINESTRING EMPTY", "its coordinates are empty (--drop-empty leaves such lines out)"),
        (
            "LINESTRING (0 0,-nan 1)",
            "a number of its coordinates is NaN or infinite, so that it is no place",
        ),
        (
            "MULTILINESTRING ((0 0,1 1),(0 0,-nan 1))",
            "a number of its coordinates is NaN or infinite, so that it is no place",
        ),
    ] {
        let store = of_wkt(&folder, "rows.gpkg", &[line, line, row, line]);
        let told = fault(&["join", &store, "-o", "-"]);
        let wanted = format!("lovasuku: STORE: feature 2 (id 3): {wanted}\n");
        assert_eq!(told.replace(&store, "STORE"), wanted);
    }
}

#[test]
fn what_is_no_line_is_left_out_where_that_is_asked_for() {
    if !gdal::is_there() {
        return;
    }
    let folder = Folder::new("others");
    let store = of_wkt(
        &folder,
        "rows.gpkg",
        &["POINT (1 2)", "LINESTRING (0 0,1 0)", "TIN EMPTY", "LINESTRING EMPTY"],
    );
    output("ogrinfo", &["-q", &store, "-sql", "INSERT INTO rows (geom) VALUES (NULL)"]);
    let out = folder.path("out.geojson");
    let words = summary(&["join", &store, "-o", &out, "--skip-other", "--drop-empty"]);
    assert!(
        words.contains(
            "left out  1 Point, 1 TIN, 1 feature without geometry, 1 line without length"
        ),
        "{words}"
    );
}

#[test]
fn stores_have_names() {
    let told = crate::common::run(
        &["join", "-", "--layer", "x", "-o", "-"],
        &feature("LineString", "[[0,0],[1,0]]"),
    );
    assert_eq!(told.status, 1);
    assert!(told.err.contains("are for files and databases"), "{}", told.err);
}
