//! Help, usage and what is told of files of other formats.

mod common;

use common::{feature, members, run, Folder};
use std::fs;
use std::process::Command;

#[test]
fn the_usage_is_that_of_the_subcommand() {
    for args in [
        &["join", "-", "-o", "-", "--map", "-"][..],
        &["join", "-", "-o", "-", "--nothing"],
        &["join", "-"],
        &["why", "-", "H1"],
    ] {
        let run = run(args, "");
        assert_eq!(run.status, 2);
        let usage = format!("Usage: lovasuku {} ", args[0]);
        assert!(run.err.contains(&usage), "{args:?}: {}", run.err);
    }
}

#[test]
fn the_help_shows_stores() {
    let help = run(&["join", "--help"], "").out;
    for words in [
        "lovasuku join roads.gpkg -o chains.gpkg",
        "lovasuku join 'PG:dbname=roads' --sql 'SELECT * FROM roads ORDER BY id'",
        "libgdal32",
    ] {
        assert!(help.contains(words), "{words}: {help}");
    }
}

/// What is told of a file of these bytes where there is no GDAL.
fn told(name: &str, bytes: &[u8]) -> String {
    let folder = Folder::new("formats");
    let path = folder.path(name);
    fs::write(&path, bytes).unwrap();
    let mut command = Command::new(env!("CARGO_BIN_EXE_lovasuku"));
    command.args(["join", &path, "-o", "-"]).env("LOVASUKU_GDAL", "/nowhere");
    let run = command.output().unwrap();
    assert_eq!((run.status.code(), &run.stdout[..]), (Some(1), &b""[..]), "{name}");
    String::from_utf8(run.stderr).unwrap().replace(&path, name)
}

#[test]
fn other_formats_are_named_with_what_reads_them() {
    let all: [(&str, &[u8], &str); 11] = [
        ("a.gpkg", b"SQLite format 3\0\x10\0", "an SQLite database, as a GeoPackage is"),
        ("a.shp", b"\0\0\x27\x0a\0\0\0\0", "a Shapefile"),
        ("a.zip", b"PK\x03\x04\x14\0", "a ZIP archive"),
        ("a.fgb", b"fgb\x03fgb\x00", "a FlatGeobuf"),
        ("a.parquet", b"PAR1\x15\x04", "a Parquet file"),
        ("a.osm.pbf", b"\0\0\0\x0e\x0a\x09OSMHeader", "an OSM PBF file"),
        ("a.kml", b"<?xml version=\"1.0\"?><kml>", "XML, as GML, KML, GPX and OSM are"),
        ("a.wkt", b"LINESTRING (0 0, 1 1)", "WKT"),
        ("a.topojson", b"{\"type\": \"Topology\", \"arcs\": []}", "TopoJSON"),
        ("a.bin", b"{\0\0\0\x01", "a binary file"),
        ("a.json", b"{\"geometryType\":\"esriGeometryPolyline\"}", "Esri JSON"),
    ];
    for (name, bytes, what) in all {
        let told = told(name, bytes);
        let wanted = format!("lovasuku: {name}: it is {what}, which GDAL reads: GDAL, which ");
        assert!(told.starts_with(&wanted) && told.contains("libgdal32"), "{told}");
    }
    let told = run(&["join", "-", "-o", "-"], "LINESTRING (0 0, 1 1)").err;
    let wanted = "lovasuku: standard input: it is WKT, which is read by its name; try: lovasuku join FILE -o OUT\n";
    assert_eq!(told, wanted);
}

#[test]
fn what_is_compressed_is_named_with_what_writes_it_out() {
    for (bytes, what, command) in [
        (&b"\x1f\x8b\x08\0"[..], "compressed by gzip", "gzip -dc"),
        (b"BZh91AY", "compressed by bzip2", "bzip2 -dc"),
        (b"\xfd7zXZ\0\0", "compressed by xz", "xz -dc"),
        (b"\x28\xb5\x2f\xfd\x04", "compressed by zstd", "zstd -dc"),
        (b"\xff\xfe{\0", "text in UTF-16", "iconv -f UTF-16 -t UTF-8"),
    ] {
        let told = told("a.x", bytes);
        let wanted = format!(
            "lovasuku: a.x: it is {what}, and what is read is GeoJSON; try: {command} a.x | lovasuku join - -o OUT\n"
        );
        assert_eq!(told, wanted);
    }
}

#[test]
fn a_folder_and_a_text_that_is_none() {
    let folder = Folder::new("a-folder");
    let read = run(&["join", &folder.path("."), "-o", "-"], "");
    assert_eq!(read.status, 1);
    assert!(read.err.contains("it is a folder"), "{}", read.err);
    assert!(
        told("a.geojson", b"{\"a\": \"\xe4\"}").ends_with("it is not UTF-8 text, from byte 7 on\n")
    );
}

#[test]
fn record_separators_are_no_features() {
    let lines =
        [feature("LineString", "[[0,500],[1,500]]"), feature("LineString", "[[1,500],[2,500]]")];
    for marks in ["\u{1e}", "\u{1e}\u{1e}", " \u{1e}\u{1e}\u{1e}"] {
        let text: String = lines.iter().map(|line| format!("{marks}{line}\n")).collect();
        assert_eq!(members(&common::joined(&text, &[])), ["[0,1]"], "{marks:?}");
    }
    let text = format!("\u{feff}{}\n\u{1e}\u{1e}{{\n", lines[0]);
    let fault = run(&["join", "-", "-o", "-"], &text).err;
    assert!(fault.contains("feature 1: bad JSON"), "{fault}");
}

#[test]
fn the_manual_has_every_option_of_the_help() {
    let run_of = |args: &[&str]| {
        let run = run(args, "");
        assert_eq!((run.status, &run.err[..]), (0, ""), "{args:?}");
        run.out
    };
    for (name, most) in [("join", 15), ("why", 10)] {
        let (page, help) = (run_of(&["manual", name]), run_of(&[name, "--help"]));
        assert!(page.contains(&format!(".TH LOVASUKU-{} 1", name.to_uppercase())), "{page}");
        let options: Vec<&str> = help
            .split_whitespace()
            .filter(|word| word.starts_with("--") && word.len() > 2)
            .map(|word| word.trim_end_matches([',', ')', '.', ':', ']', ';', '`']))
            .collect();
        assert!(options.len() > most, "{options:?}");
        for option in options {
            assert!(page.contains(&option.replace('-', "\\-")), "{option}: {page}");
        }
    }
    let page = run_of(&["manual", "join"]);
    for words in [".SH NAME", ".SH SYNOPSIS", ".SH DESCRIPTION", ".SH JOINING", "14.1 apart"] {
        assert!(page.contains(words), "{words}: {page}");
    }
    let whole = run_of(&["manual"]);
    assert!(whole.contains(".TH LOVASUKU 1") && whole.contains(".SH SUBCOMMANDS"), "{whole}");
    assert!(whole.contains(r"\fBlovasuku\fR \fICOMMAND\fR [OPTIONS]"), "{whole}");
}
