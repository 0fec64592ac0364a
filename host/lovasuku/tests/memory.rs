//! What the command asks of the memory for a delivery of many lines.

use std::fs;
use std::io::Write;
use std::path::Path;
use std::process::{Command, Stdio};
use std::time::Duration;

/// Streets between corners that are not quite those of a grid of so many columns and rows, each with an
/// id and properties.
fn town(side: usize) -> Vec<u8> {
    let mut bits: u64 = 1;
    let mut next = |bound: u64| {
        bits = bits.wrapping_mul(6_364_136_223_846_793_005).wrapping_add(1);
        (bits >> 33) % bound
    };
    let corners: Vec<[f64; 2]> = (0..(side + 1) * (side + 1))
        .map(|k| {
            let [x, y] = [k % (side + 1), k / (side + 1)].map(|at| 100 * at as u64);
            [500_000 + x + next(40), 7_000_000 + y + next(40)].map(|at| at as f64 + 0.125)
        })
        .collect();
    let mut text = b"{\"type\":\"FeatureCollection\",\"features\":[\n".to_vec();
    for corner in 0..side * side {
        let from = corner % side + corner / side * (side + 1);
        for to in [from + 1, from + side + 1] {
            let between = if corner + to > 1 { ",\n" } else { "" };
            let [[x, y], [to_x, to_y]] = [corners[from], corners[to]];
            let middle = [(x + to_x) / 2.0 + 1.5, (y + to_y) / 2.0];
            let feature = format!(
                "{between}{{\"type\":\"Feature\",\"id\":\"street {corner}.{to}\",\"properties\":{{\"kind\":\
                 \"street\",\"width\":4.5,\"name\":\"Street {}\"}},\"geometry\":{{\"type\":\"LineString\",\
                 \"coordinates\":[[{x},{y}],[{},{}],[{to_x},{to_y}]]}}}}",
                corner % 977,
                middle[0],
                middle[1]
            );
            text.extend(feature.bytes());
        }
    }
    text.extend(b"\n]}\n");
    text
}

/// The most memory that a run on a file holds, in bytes, as the system tells it while it runs.
fn held(args: &[&str]) -> usize {
    let mut command = Command::new(env!("CARGO_BIN_EXE_lovasuku"));
    let mut child = command.args(args).stderr(Stdio::null()).spawn().unwrap();
    let status = format!("/proc/{}/status", child.id());
    let mut most = 0;
    while child.try_wait().unwrap().is_none() {
        let text = fs::read_to_string(&status).unwrap_or_default();
        let line = text.lines().find_map(|line| line.strip_prefix("VmHWM:")).unwrap_or_default();
        let kilobytes = line.trim().trim_end_matches(" kB").parse().unwrap_or(0);
        most = most.max(1_024 * kilobytes);
        std::thread::sleep(Duration::from_millis(2));
    }
    assert!(child.wait().unwrap().success());
    most
}

#[test]
fn four_times_the_file() {
    let folder = tempfile::tempdir().unwrap();
    let [input, output] = ["town.geojson", "chains.geojson"].map(|name| folder.path().join(name));
    let text = town(400);
    fs::File::create(&input).unwrap().write_all(&text).unwrap();
    let [input, output] = [&input, &output].map(|path| path.to_str().unwrap());
    for args in [&[][..], &["--bend", "60"], &["--bend", "60", "--tolerance", "5"]] {
        let held = held(&[&["join", input, "-o", output, "-q"], args].concat());
        assert!(held <= 4 * text.len(), "{held} bytes for a file of {}, {args:?}", text.len());
        // What was seen is more than the text itself.
        assert!(held > text.len(), "{held}");
    }
}

/// The roads that `host/store/speed` measures, so many villages of 1,000 lines each, as features.
fn villages(count: usize) -> Vec<u8> {
    let program = concat!(env!("CARGO_MANIFEST_DIR"), "/../store/roads.awk");
    let villages = format!("villages={count}");
    Command::new("awk").args(["-v", &villages, "-f", program]).output().unwrap().stdout
}

/// The bytes of a line of six points as WKB.
const WKB: usize = 9 + 6 * 16;

/// Makes a GeoPackage of features, and gives the most memory that a run on it holds.
fn held_of_store(folder: &Path, features: &[u8], args: &[&str]) -> usize {
    let path = |name: &str| folder.join(name).to_str().unwrap().to_owned();
    let [text, store, out] = ["roads.geojsonl", "roads.gpkg", "chains.gpkg"].map(path);
    fs::write(&text, features).unwrap();
    let made = Command::new("ogr2ogr")
        .args(["-f", "GPKG", "-overwrite", "-a_srs", "EPSG:3067", &store, &text])
        .output();
    assert!(made.unwrap().status.success());
    held(&[&["join", &store, "-o", &out, "-q"], args].concat())
}

#[test]
fn a_store_takes_three_times_its_wkb() {
    if Command::new("ogr2ogr").arg("--version").output().is_err() {
        return eprintln!("ogr2ogr is not installed (gdal-bin), so that stores are not tested");
    }
    let folder = tempfile::tempdir().unwrap();
    let roads = villages(320);
    let lines = roads.iter().filter(|&&byte| byte == b'\n').count();
    assert_eq!(lines, 320_000);
    let few: Vec<u8> =
        roads.split_inclusive(|&byte| byte == b'\n').take(10).flatten().copied().collect();
    for args in [&[][..], &["--bend", "60"]] {
        // What ten lines take is GDAL's own and that of its libraries, however many there are.
        let own = held_of_store(folder.path(), &few, args);
        let held = held_of_store(folder.path(), &roads, args);
        assert!(own > 0 && held > own + lines * WKB, "{held} and {own} bytes, {args:?}");
        let beside = held - own;
        assert!(beside <= 3 * lines * WKB, "{beside} bytes for WKB of {}, {args:?}", lines * WKB);
    }
}
