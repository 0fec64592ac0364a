//! The spatial index of a GeoPackage is as good as GDAL's own.

use crate::common::Folder;
use crate::gdal::{self, made, output, quiet};
use std::fs;

/// Lines that nothing meets, of some lengths, at places that come in no order.
fn lines(count: usize) -> String {
    let line = |k: usize| {
        let [x, y] = [k * 7_919 % 3_001, k * 104_729 % 2_999].map(|at| at as f64 - 1_000.3);
        let [to_x, to_y] = [x + 0.1 + (k % 7) as f64, y + 0.7];
        format!(
            "{{\"type\":\"Feature\",\"properties\":{{}},\"geometry\":{{\"type\":\"LineString\",\
             \"coordinates\":[[{x},{y}],[{to_x},{to_y}]]}}}}"
        )
    };
    let lines: Vec<String> = (0..count).map(line).collect();
    format!("{{\"type\":\"FeatureCollection\",\"features\":[{}]}}", lines.join(","))
}

/// The rows of a query as CSV.
fn rows(store: &str, sql: &str) -> String {
    output("ogr2ogr", &["-f", "CSV", "/vsistdout/", store, "-sql", sql])
}

fn is_sound(store: &str) {
    assert!(rows(store, "SELECT rtreecheck('rtree_chains_geom')").ends_with("\nok\n"), "{store}");
}

#[test]
fn an_index_has_the_boxes_that_gdal_gives_it() {
    if !gdal::is_there() {
        return;
    }
    let folder = Folder::new("indexes");
    for count in [0, 1, 51, 52, 3_000] {
        let input = folder.path("lines.geojson");
        fs::write(&input, lines(count)).unwrap();
        let store = folder.path("chains.gpkg");
        quiet(&["join", &input, "-o", &store, "--units", "m"]);
        is_sound(&store);
        let copy = made(&folder, &store, "copy.gpkg", &["-preserve_fid", "-overwrite"]);
        let boxes = "SELECT * FROM rtree_chains_geom ORDER BY id";
        assert_eq!(rows(&store, boxes), rows(&copy, boxes));
        assert_eq!(rows(&store, boxes).lines().count(), 1 + count);
        let near = ["-spat", "0", "0", "300", "400", "-f", "CSV", "-select", "chain"];
        let [found, wanted] = [&store, &copy].map(|store| {
            let found = output("ogr2ogr", &[&near[..], &["/vsistdout/", store]].concat());
            let mut found: Vec<String> = found.lines().map(str::to_owned).collect();
            found.sort();
            found
        });
        assert_eq!(found, wanted);
        assert!(count < 3_000 || found.len() > 10 && found.len() < 300, "{}", found.len());
        // The index stays with what is done to the chains.
        let counted = |sql: &str| -> usize {
            output("ogrinfo", &["-q", &store, "-sql", sql]);
            is_sound(&store);
            let count = rows(&store, "SELECT count(*) FROM rtree_chains_geom");
            count.lines().last().unwrap().trim_matches('"').parse().unwrap()
        };
        let fewer = count - (count + 2) / 3;
        assert_eq!(counted("DELETE FROM chains WHERE fid % 3 = 0"), fewer);
        let again = "INSERT INTO chains (fid, geom) SELECT 10000 + fid, geom FROM chains";
        assert_eq!(counted(again), 2 * fewer);
    }
}
