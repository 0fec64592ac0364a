//! What is asked of the joining and of its outputs holds for stores as it does for GeoJSON.

use crate::common::{features, joined, sample, sample_text, Folder};
use crate::gdal::{self, made, quiet, told, FORMATS};
use serde_json::Value;

/// The yard as a GeoPackage.
fn yard(folder: &Folder) -> String {
    made(folder, sample("yard.geojson").to_str().unwrap(), "yard.gpkg", &[])
}

/// The ids and the geometry of chains, and which lines they travel.
fn chains(text: &str) -> Vec<[Value; 3]> {
    let chain = |feature: Value| {
        [&feature["id"], &feature["geometry"], &feature["properties"]["path"]].map(Clone::clone)
    };
    features(text).into_iter().map(chain).collect()
}

#[test]
fn districts_classes_and_corners() {
    if !gdal::is_there() {
        return;
    }
    let folder = Folder::new("settings");
    let store = yard(&folder);
    let tolerance = ["--tolerance", "10", "--units", "m"];
    for settings in [
        &["--district", "kind=haul"][..],
        &["--district", "year=2014", "--bend", "60"],
        &["--class", "surface", "--offset", "268"],
        &["--origin", "5,7.5"],
        &["--window", "900,900,1200,1300"],
        &["--explode"],
    ] {
        let settings = [settings, &tolerance].concat();
        let wanted = joined(&sample_text("yard.geojson"), &settings);
        let args = [&["join", &store, "-o", "-", "--id", "id"], &settings[..]].concat();
        assert_eq!(chains(&quiet(&args)), chains(&wanted), "{settings:?}");
    }
}

#[test]
fn a_window_leaves_out_chains_of_a_store() {
    if !gdal::is_there() {
        return;
    }
    let folder = Folder::new("windows");
    let store = yard(&folder);
    let settings = ["--tolerance", "10", "--window", "900,900,1100,1300"];
    let wanted = features(&joined(&sample_text("yard.geojson"), &settings));
    let ids: Vec<&Value> = wanted.iter().map(|feature| &feature["id"]).collect();
    assert!(!ids.is_empty() && *ids[0] != 0, "{ids:?}");
    for (ending, _) in FORMATS {
        let [out, bridges] =
            ["out", "bridges"].map(|name| folder.path(&format!("{name}.{ending}")));
        let args = ["join", &store, "-o", &out, "--bridges", &bridges];
        quiet(&[&args[..], &settings].concat());
        let found = gdal::features(&out);
        let found: Vec<&Value> = found.iter().map(|each| &each["properties"]["chain"]).collect();
        assert_eq!(found, ids, "{ending}");
        let told = told(&bridges);
        assert!(told.contains("Feature Count: 1\n"), "{ending}: {told}");
    }
    // Where a format has ids, they are those of the chains.
    let told = told(&folder.path("out.gpkg"));
    assert!(ids.iter().all(|id| told.contains(&format!("OGRFeature(out):{id}\n"))), "{told}");
}

#[test]
fn the_map_of_a_store_is_that_of_its_roads() {
    if !gdal::is_there() {
        return;
    }
    let folder = Folder::new("maps");
    let store = yard(&folder);
    let geojson = sample("yard.geojson");
    let settings = ["--tolerance", "10", "--units", "m", "--arrows", "--id", "id"];
    let map = |from: &str| {
        let path = folder.path("map.svg");
        // The ids of GeoJSON are no properties.
        let settings = &settings[..settings.len() - if from == store { 0 } else { 2 }];
        quiet(&[&["join", from, "-o", "/dev/null", "--map", &path], settings].concat());
        folder.text("map.svg")
    };
    let (of_store, of_text) = (map(&store), map(geojson.to_str().unwrap()));
    assert!(of_text.contains("yard.geojson"));
    assert_eq!(of_store, of_text.replace("yard.geojson", "yard.gpkg"));
}
