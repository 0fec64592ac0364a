//! Fields: what a store tells of lines beside their geometry, in and out.

use crate::common::{features, Folder};
use crate::gdal::{self, made, output, quiet, summary, told};
use serde_json::json;
use std::fs;

/// A line as a feature with properties.
fn line(x: i32, properties: &str) -> String {
    format!(
        r#"{{"type":"Feature","properties":{properties},"geometry":{{"type":"LineString","coordinates":[[{x},0],[{},0]]}}}}"#,
        x + 1
    )
}

/// Lines as a file of GeoJSON.
fn written(folder: &Folder, lines: &[String]) -> String {
    let path = folder.path("lines.geojsonl");
    fs::write(&path, lines.join("\n")).unwrap();
    path
}

/// A GeoPackage with fields of all types, made by a query.
fn typed(folder: &Folder) -> String {
    let lines = written(folder, &[line(0, r#"{"k":1}"#), line(1, r#"{"k":2}"#)]);
    let store = made(folder, &lines, "typed.gpkg", &["-nln", "typed"]);
    for sql in [
        "ALTER TABLE typed ADD COLUMN day DATE",
        "ALTER TABLE typed ADD COLUMN moment DATETIME",
        "ALTER TABLE typed ADD COLUMN big INTEGER",
        "ALTER TABLE typed ADD COLUMN real DOUBLE",
        "ALTER TABLE typed ADD COLUMN truth BOOLEAN",
        "ALTER TABLE typed ADD COLUMN bytes BLOB",
        "ALTER TABLE typed ADD COLUMN none TEXT",
        "ALTER TABLE typed ADD COLUMN short TEXT(9)",
        "ALTER TABLE typed ADD COLUMN old DATE",
        "UPDATE typed SET day = '2024-02-29', old = '1969-12-31', moment = '2024-05-01T12:30:00.250Z', \
         big = 9007199254740993, real = 0.1, truth = 1, bytes = X'00FF1A', short = 'å \"b\"'",
    ] {
        output("ogrinfo", &["-q", &store, "-sql", sql]);
    }
    store
}

#[test]
fn fields_are_properties() {
    if !gdal::is_there() {
        return;
    }
    let folder = Folder::new("fields");
    let store = typed(&folder);
    let out = quiet(&["join", &store, "-o", "-"]);
    let wanted = json!({"day": "2024-02-29", "old": "1969-12-31", "moment": "2024-05-01T12:30:00.25Z",
        "big": 9_007_199_254_740_993i64, "real": 0.1, "truth": true, "bytes": "00ff1a",
        "short": "å \"b\""});
    let chain = &features(&out)[0]["properties"];
    for (name, value) in wanted.as_object().unwrap() {
        assert_eq!(&chain[name], value, "{name}");
    }
    assert_eq!((chain.get("none"), chain.get("k")), (None, None));
    let out = quiet(&["join", &store, "-o", "-", "--keep", "list"]);
    assert_eq!(features(&out)[0]["properties"]["k"], json!([1, 2]));
}

#[test]
fn fields_keep_their_types() {
    if !gdal::is_there() {
        return;
    }
    let folder = Folder::new("types");
    let store = typed(&folder);
    for keep in ["shared", "longest"] {
        let out = folder.path(&format!("{keep}.gpkg"));
        quiet(&["join", &store, "-o", &out, "--keep", keep]);
        let told = told(&out);
        for wanted in [
            "  day (Date) = 2024/02/29\n",
            "  old (Date) = 1969/12/31\n",
            "  moment (DateTime) = 2024/05/01 12:30:00.250+00\n",
            "  big (Integer64) = 9007199254740993\n",
            "  real (Real) = 0.1\n",
            "  truth (Integer(Boolean)) = 1\n",
            "  bytes (Binary) = 00FF1A\n",
            "  short (String) = å \"b\"\n",
            "  none (String) = (null)\n",
            "short: String (9.0)\n",
        ] {
            assert!(told.contains(wanted), "{keep}: {wanted}: {told}");
        }
        assert_eq!(told.contains("  k (Integer) = (null)"), keep == "shared", "{told}");
    }
}

#[test]
fn truths_and_dates_are_those_of_their_rows() {
    if !gdal::is_there() {
        return;
    }
    let folder = Folder::new("truths");
    let days = ["1850-01-01", "1969-12-30", "1969-12-31", "1970-01-01", "1970-01-02", "2024-02-29"];
    let row = |k: usize| {
        let (truth, day) = (k % 3 != 1, days[k % days.len()]);
        line(10 * k as i32, &format!(r#"{{"k":{k},"truth":{truth},"day":"{day}"}}"#))
    };
    let rows: Vec<String> = (0..40).map(row).collect();
    let path = written(&folder, &rows);
    for (ending, args) in gdal::FORMATS {
        let store = made(&folder, &path, &format!("rows.{ending}"), args);
        let out = quiet(&["join", &store, "-o", "-"]);
        for (k, feature) in features(&out).iter().enumerate() {
            let properties = &feature["properties"];
            assert_eq!(properties["k"], k);
            // A Shapefile has numbers in place of truths, and a FlatGeobuf moments in place of dates.
            let truth = &properties["truth"];
            assert!(
                *truth == json!(k % 3 != 1) || *truth == json!(i32::from(k % 3 != 1)),
                "{k} {truth}"
            );
            let day = properties["day"].as_str().unwrap();
            assert!(day.starts_with(days[k % days.len()]), "{ending}: {k} {day}");
        }
    }
}

#[test]
fn a_format_has_the_types_that_it_has() {
    if !gdal::is_there() {
        return;
    }
    let folder = Folder::new("formats");
    let store = typed(&folder);
    let out = folder.path("out.shp");
    quiet(&["join", &store, "-o", &out]);
    let told = told(&out);
    for wanted in [
        "  day (Date) = 2024/02/29\n",
        "  moment (String) = 2024-05-01T12:30:00.25Z\n",
        "  big (Integer64) = 9007199254740993\n",
        "  truth (Integer) = 1\n",
        "  bytes (String) = 00ff1a\n",
        "  members (String) = [1,2]\n",
        "  short (String) = å \"b\"\n",
    ] {
        assert!(told.contains(wanted), "{wanted}: {told}");
    }
}

#[test]
fn properties_of_geojson_become_fields() {
    if !gdal::is_there() {
        return;
    }
    let folder = Folder::new("properties");
    let properties = r#"{"a":1,"b":2.5,"c":"x","d":true,"e":[1,2],"f":{"g":null},"A":"other","fid":"y","geom":7}"#;
    let lines =
        written(&folder, &[line(0, properties), line(5, r#"{"a":3000000000,"c":null,"h":1}"#)]);
    let out = folder.path("out.gpkg");
    quiet(&["join", &lines, "-o", &out]);
    let told = told(&out);
    for wanted in [
        "a (Integer64) = 1\n",
        "b (Real) = 2.5\n",
        "c (String) = x\n",
        "d (Integer(Boolean)) = 1\n",
        "e (String(JSON)) = [1,2]\n",
        "f (String(JSON)) = {\"g\":null}\n",
        "A_2 (String) = other\n",
        "fid (String) = y\n",
        "geom (Integer) = 7\n",
        "a (Integer64) = 3000000000\n",
        "c (String) = (null)\n",
        "h (Integer) = 1\n",
        "FID Column = ogc_fid\n",
        "Geometry Column = geometry\n",
    ] {
        assert!(told.contains(wanted), "{wanted}: {told}");
    }
    // What was JSON comes back as such.
    let back = quiet(&["join", &out, "-o", "-", "--prefix", "p_"]);
    let first = features(&back)[0]["properties"].clone();
    assert_eq!((&first["e"], &first["f"]), (&json!([1, 2]), &json!({"g": null})));
    assert_eq!((&first["d"], &first["members"]), (&json!(true), &json!([0])));
}

#[test]
fn a_layer_without_chains_has_their_fields() {
    if !gdal::is_there() {
        return;
    }
    let folder = Folder::new("none");
    let store = typed(&folder);
    let (out, bridges) = (folder.path("out.gpkg"), folder.path("bridges.gpkg"));
    let args = ["join", &store, "-o", &out, "--bridges", &bridges, "--explode"];
    quiet(&[&args[..], &["--where", "k = 7"]].concat());
    let of = |path: &str, fields: &[&str]| {
        let told = told(path);
        let wanted = format!("\n{}\n", fields.join("\n"));
        assert!(told.contains("Feature Count: 0\n") && told.contains(&wanted), "{told}");
    };
    let lists = ["members", "path"].map(|name| format!("{name}: String(JSON) (0.0)"));
    let own = ["count: Integer (0.0)", "loop: Integer(Boolean) (0.0)", "parts: String(JSON) (0.0)"];
    of(&out, &[&["chain: Integer (0.0)", &lists[0], &lists[1]], &own[..]].concat());
    of(&out, &["k: Integer (0.0)", "day: Date (0.0)", "moment: DateTime (0.0)"]);
    of(&bridges, &["length: Real (0.0)", "unit: String (0.0)", "longer: Integer(Boolean) (0.0)"]);
}

#[test]
fn a_property_named_like_the_chain_is_told_of() {
    if !gdal::is_there() {
        return;
    }
    let folder = Folder::new("clash");
    let lines = written(&folder, &[line(0, r#"{"chain":"x"}"#)]);
    let out = folder.path("out.gpkg");
    let words = summary(&["join", &lines, "-o", &out]);
    assert!(
        words.contains("warning  properties of the input named like one of chain, members"),
        "{words}"
    );
    assert!(told(&out).contains("chain (Integer) = 0\n"));
    let words = summary(&["join", &lines, "-o", &out, "--prefix", "p_"]);
    assert!(!words.contains("warning"), "{words}");
    assert!(
        told(&out).contains("  p_chain (Integer) = 0\n")
            && told(&out).contains("  chain (String) = x\n")
    );
}

#[test]
fn a_shapefile_has_short_names_and_short_texts() {
    if !gdal::is_there() {
        return;
    }
    let folder = Folder::new("short");
    let text = "å".repeat(128);
    let properties =
        format!(r#"{{"a long name of a field":1,"text":"{text}","fits":"{}"}}"#, &text[2..]);
    let lines = written(&folder, &[line(0, &properties)]);
    let out = folder.path("out.shp");
    let words = summary(&["join", &lines, "-o", &out]);
    assert!(words.contains("warning  Normalized/laundered field name"), "{words}");
    let long = "warning  left out: 1 text beyond the 254 bytes that a field holds";
    assert!(words.contains(long), "{words}");
    let told = told(&out);
    assert!(
        told.contains("a long nam (Integer) = 1") && told.contains("text (String) = (null)"),
        "{told}"
    );
    assert!(told.contains(&format!("fits (String) = {}\n", &text[2..])), "{told}");
}

#[test]
fn the_reference_system_is_kept() {
    if !gdal::is_there() {
        return;
    }
    let folder = Folder::new("crs");
    let lines = written(&folder, &[line(500_000, "{}"), line(500_001, "{}")]);
    for ending in ["gpkg", "fgb", "shp", "sqlite"] {
        let store = made(&folder, &lines, &format!("in.{ending}"), &["-a_srs", "EPSG:3067"]);
        let out = folder.path(&format!("out.{ending}"));
        let words = summary(&["join", &store, "-o", &out]);
        assert!(
            words.contains("1: 2 lines, 2 m long") || words.contains("2 lines, 2 m long"),
            "{words}"
        );
        let told = told(&out);
        assert!(told.contains("TM35FIN") && told.contains("Feature Count: 1"), "{told}");
        let text = quiet(&["join", &out, "-o", "-", "--prefix", "p_"]);
        assert!(text.contains(r#""name":"urn:ogc:def:crs:EPSG::3067""#), "{ending}: {text}");
        let path = folder.path(&format!("again{ending}.geojson"));
        fs::write(&path, &text).unwrap();
        let again = folder.path(&format!("again{ending}.gpkg"));
        quiet(&["join", &path, "-o", &again, "--prefix", "q_"]);
        assert!(gdal::told(&again).contains("ID[\"EPSG\",3067]"), "{ending}");
    }
}
