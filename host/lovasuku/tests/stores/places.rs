//! Where stores are written: all outputs or none, and nothing is lost that was there.

use crate::common::{feature, run, sample, Folder};
use crate::gdal::{self, fault, made, output, quiet, told};
use std::fs;

fn yard() -> String {
    sample("yard.geojson").to_str().unwrap().to_owned()
}

fn names(folder: &Folder) -> Vec<String> {
    let mut names = folder.names();
    names.sort();
    names
}

#[test]
fn nothing_is_left_beside_what_was_written() {
    if !gdal::is_there() {
        return;
    }
    let folder = Folder::new("beside");
    for _ in 0..2 {
        for name in ["a.gpkg", "a.fgb", "a.shp"] {
            quiet(&["join", &yard(), "-o", &folder.path(name)]);
        }
    }
    let wanted = ["a.cpg", "a.dbf", "a.fgb", "a.gpkg", "a.shp", "a.shx"];
    assert_eq!(names(&folder), wanted);
}

#[test]
fn what_is_there_stays_where_a_run_fails() {
    if !gdal::is_there() {
        return;
    }
    let folder = Folder::new("stays");
    let (out, nowhere) = (folder.path("a.gpkg"), folder.path("nowhere/b.gpkg"));
    fs::write(&out, "as before").unwrap();
    let told = fault(&["join", &yard(), "-o", &out, "--bridges", &nowhere]);
    assert!(told.contains("nowhere/b.gpkg cannot be written"), "{told}");
    assert_eq!(folder.text("a.gpkg"), "as before");
    // A driver that refuses what it is given, after the chains were written beside their place.
    let told = fault(&["join", &yard(), "-o", &out, "--bridges", &folder.path("b"), "-f", "GPX"]);
    assert!(told.contains("GDAL: "), "{told}");
    assert_eq!(folder.text("a.gpkg"), "as before");
    assert_eq!(names(&folder), ["a.gpkg"]);
    quiet(&["join", &yard(), "-o", &out]);
    assert!(gdal::told(&out).contains("Feature Count: 20"));
}

#[test]
fn layers_that_would_be_lost_are_told_of() {
    if !gdal::is_there() {
        return;
    }
    let folder = Folder::new("layers");
    let out = made(&folder, &yard(), "a.gpkg", &["-nln", "one"]);
    quiet(&["join", &yard(), "-o", &out]);
    output("ogr2ogr", &["-update", "-nln", "two", &out, &yard()]);
    let told = fault(&["join", &yard(), "-o", &out]);
    assert!(
        told.contains("it has the layers \"a\", \"two\", which would be lost with it"),
        "{told}"
    );
    assert!(gdal::told(&out).contains("Layer name: two"));
    let open = folder.path("b.gpkg");
    fs::write(folder.path("b.gpkg-wal"), "").unwrap();
    let told = fault(&["join", &yard(), "-o", &open]);
    assert!(told.contains("it is open elsewhere: there is "), "{told}");
}

#[test]
fn files_of_a_shapefile_that_was_there_go_with_it() {
    if !gdal::is_there() {
        return;
    }
    let folder = Folder::new("stale");
    let out =
        made(&folder, &yard(), "a.shp", &["-a_srs", "EPSG:3067", "-lco", "SPATIAL_INDEX=YES"]);
    fs::write(folder.path("a.txt"), "other").unwrap();
    assert!(names(&folder).contains(&"a.qix".to_owned()), "{:?}", names(&folder));
    quiet(&["join", &yard(), "-o", &out]);
    assert_eq!(names(&folder), ["a.cpg", "a.dbf", "a.shp", "a.shx", "a.txt"]);
    assert!(told(&out).contains("Feature Count: 20"));
}

#[test]
fn a_store_is_a_file() {
    if !gdal::is_there() {
        return;
    }
    let told = fault(&["join", &yard(), "-o", "-", "-f", "GPKG"]);
    let wanted = "lovasuku: - cannot be written: a store is written to a file or into a database\n";
    assert_eq!(told, wanted);
    let folder = Folder::new("drivers");
    let (roads, out) = (folder.path("roads.geojsonl"), folder.path("a.kml"));
    fs::write(&roads, feature("LineString", "[[24.5,67.25],[24.5,67.5]]")).unwrap();
    quiet(&["join", &roads, "-o", &out, "-f", "KML"]);
    let text = folder.text("a.kml");
    assert!(text.contains("<coordinates>24.5,67.25 24.5,67.5</coordinates>"), "{text}");
    // A layer of KML has fields of its own before those of chains.
    assert!(text.contains(r#"<SimpleData name="count">1</SimpleData>"#), "{text}");
    let told = fault(&["join", &yard(), "-o", &out, "-f", "KML"]);
    assert!(told.contains("a.kml cannot be written: chain 0: GDAL: Latitude 620"), "{told}");
    let told = fault(&["join", &yard(), "-o", &out, "-f", "geojsn"]);
    assert!(told.contains("GDAL has no driver \"geojsn\""), "{told}");
    quiet(&["join", &yard(), "-o", &folder.path("b.gpkg"), "-f", "GeoJSON"]);
    assert!(folder.text("b.gpkg").starts_with("{\"type\":\"FeatureCollection\""));
    let same = run(&["join", &out, "-o", &out, "-f", "GPKG"], "");
    assert!(same.status == 2 && same.err.contains("is the input"), "{}", same.err);
}

#[test]
fn endings_of_other_formats_are_not_geojson() {
    let folder = Folder::new("endings");
    let told = fault(&["join", &yard(), "-o", &folder.path("a.KML")]);
    assert!(told.contains("a.KML cannot be written: .kml is another format: -f DRIVER"), "{told}");
    let bridges = folder.path("b.gpx");
    let told = fault(&["join", &yard(), "-o", &folder.path("a.geojson"), "--bridges", &bridges]);
    assert!(told.contains("b.gpx cannot be written: .gpx is another format: "), "{told}");
    assert!(folder.names().is_empty());
    quiet(&["join", &yard(), "-o", &folder.path("a.kml"), "-f", "geojson"]);
    assert!(folder.text("a.kml").starts_with("{\"type\":\"FeatureCollection\""));
}

#[test]
fn formats_without_geometry_without_files_and_with_ids_from_1() {
    if !gdal::is_there() {
        return;
    }
    let folder = Folder::new("others");
    let told = |driver: &str| fault(&["join", &yard(), "-o", &folder.path("a"), "-f", driver]);
    assert!(told("CSV").ends_with("a cannot be written: this format has no place for geometry\n"));
    assert!(told("Memory").ends_with("a cannot be written: this format makes no such file\n"));
    assert!(folder.names().is_empty(), "{:?}", folder.names());
    let out = folder.path("a.tab");
    quiet(&["join", &yard(), "-o", &out, "-f", "MapInfo File"]);
    assert!(gdal::told(&out).contains("Feature Count: 20"));
}
