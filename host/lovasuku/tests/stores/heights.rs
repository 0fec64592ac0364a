//! Heights and measures go through stores as they are.

use crate::common::Folder;
use crate::gdal::{self, of_wkt, quiet, summary, told};

/// Two lines that meet, and one apart.
fn lines(folder: &Folder, kind: &str, positions: [[&str; 2]; 3]) -> String {
    let rows = positions.map(|[a, b]| format!("LINESTRING {kind} ({a}, {b})"));
    let name = format!("{}.gpkg", if kind.is_empty() { "plain" } else { kind });
    of_wkt(folder, &name, &[&rows[0], &rows[1], &rows[2]])
}

#[test]
fn measures_ride_along() {
    if !gdal::is_there() {
        return;
    }
    let folder = Folder::new("measures");
    let all = [
        (
            "Z",
            [["0 0 1", "1 0 2"], ["1 0 7", "2 0 3"], ["5 5 -1", "6 5 0.5"]],
            "LINESTRING Z (0 0 1,1 0 2,2 0 3)",
        ),
        (
            "M",
            [["0 0 1", "1 0 2"], ["1 0 7", "2 0 3"], ["5 5 -1", "6 5 0.5"]],
            "LINESTRING M (0 0 1,1 0 2,2 0 3)",
        ),
        (
            "ZM",
            [["0 0 1 8", "1 0 2 9"], ["1 0 7 7", "2 0 3 10"], ["5 5 -1 0", "6 5 0.5 0"]],
            "LINESTRING ZM (0 0 1 8,1 0 2 9,2 0 3 10)",
        ),
        ("", [["0 0", "1 0"], ["1 0", "2 0"], ["5 5", "6 5"]], "LINESTRING (0 0,1 0,2 0)"),
    ];
    for (kind, positions, wanted) in all {
        let store = lines(&folder, kind, positions);
        for ending in ["gpkg", "fgb", "shp", "sqlite"] {
            let out = folder.path(&format!("out{kind}.{ending}"));
            quiet(&["join", &store, "-o", &out]);
            let told = told(&out);
            assert!(told.contains(wanted) && told.contains("Feature Count: 2"), "{ending}: {told}");
        }
        let flat = folder.path(&format!("flat{kind}.gpkg"));
        quiet(&["join", &store, "-o", &flat, "--drop-heights"]);
        assert!(told(&flat).contains("  LINESTRING (0 0,1 0,2 0)"));
        assert!(told(&flat).contains("Geometry: Line String\n"));
    }
}

#[test]
fn geojson_has_heights_and_no_measures() {
    if !gdal::is_there() {
        return;
    }
    let folder = Folder::new("no-measures");
    let positions = [["0 0 1 8", "1 0 2 9"], ["1 0 7 7", "2 0 3 10"], ["5 5 -nan 0", "6 5 0.5 0"]];
    let store = lines(&folder, "ZM", positions);
    let out = folder.path("out.geojson");
    let words = summary(&["join", &store, "-o", &out]);
    assert!(words.contains("warning  GeoJSON has no place for measures"), "{words}");
    let text = folder.text("out.geojson");
    assert!(text.contains("[[0.0,0.0,1.0],[1.0,0.0,2.0],[2.0,0.0,3.0]]"), "{text}");
}

#[test]
fn lines_of_several_dimensions_have_all_numbers_that_any_has() {
    if !gdal::is_there() {
        return;
    }
    let folder = Folder::new("mixed");
    let rows = ["LINESTRING Z (0 0 1,1 0 2)", "LINESTRING (1 0,2 0)", "LINESTRING M (5 5 8,6 5 9)"];
    let store = of_wkt(&folder, "mixed.gpkg", &rows);
    let out = quiet(&["join", &store, "-o", "-"]);
    assert!(out.contains("[[0.0,0.0,1.0],[1.0,0.0,2.0],[2.0,0.0]]"), "{out}");
    assert!(out.contains("[[5.0,5.0],[6.0,5.0]]"), "{out}");
    let kept = folder.path("kept.gpkg");
    quiet(&["join", &store, "-o", &kept]);
    let told = told(&kept);
    assert!(told.contains("LINESTRING ZM (0 0 1 nan,1 0 2 nan,2 0 nan nan)"), "{told}");
    assert!(told.contains("LINESTRING ZM (5 5 nan 8,6 5 nan 9)"), "{told}");
}
