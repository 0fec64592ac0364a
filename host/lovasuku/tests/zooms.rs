//! Several tolerances in one run: each has the outputs of a run by itself.

mod common;

use common::{feature, run, sample, sample_text, Folder};
use std::fs;

/// The outputs of a run for one tolerance, or for several, by name.
fn outputs(input: &str, tolerances: &str, args: &[&str]) -> (Folder, String) {
    let folder = Folder::new("zooms");
    let paths = ["chains-{tolerance}.geojson", "bridges-{tolerance}.geojsonl", "{tolerance}.svg"];
    let [chains, bridges, map] = paths.map(|name| folder.path(name));
    let words = ["join", "-", "-o", &chains, "--bridges", &bridges, "--map", &map];
    let run = run(&[&words, &["--tolerance", tolerances][..], args].concat(), input);
    assert_eq!((run.status, &run.out[..]), (0, ""), "{}", run.err);
    (folder, run.err)
}

/// Tests that several tolerances have the outputs of each by itself, byte for byte.
fn assert_alike(input: &str, tolerances: &[&str], args: &[&str]) {
    let (all, summary) = outputs(input, &tolerances.join(","), args);
    assert_eq!(all.names().len(), 3 * tolerances.len());
    for tolerance in tolerances {
        let (one, alone) = outputs(input, tolerance, args);
        for name in one.names() {
            assert_eq!(all.text(&name), one.text(&name), "{name} {args:?}");
        }
        let number: f64 = tolerance.parse().unwrap();
        assert!(summary.contains(&format!("tolerance  {number}\n")), "{summary}");
        let chains = alone.lines().find(|row| row.contains("   chains  ")).unwrap();
        assert!(summary.contains(chains) && !alone.contains("tolerance  "), "{summary}{alone}");
    }
}

#[test]
fn the_yard_at_many_zooms() {
    let yard = sample_text("yard.geojson");
    let tolerances = ["0", "2", "5.0", "10", "25"];
    assert_alike(&yard, &tolerances, &[]);
    assert_alike(&yard, &tolerances, &["--bend", "60", "--class", "kind", "--arrows"]);
    assert_alike(&yard, &tolerances, &["--origin", "3.5,-1", "--explode", "--offset", "300"]);
    assert_alike(&yard, &["10", "0"], &["--window", "900,800,1500,1100", "--keep", "list"]);
    assert_alike(&sample_text("berm.geojsonl"), &["2", "7", "1e1"], &["--units", "m"]);
}

/// Roads of many lines, each with a gap in it, far apart from one another.
#[test]
fn more_lines_than_a_call_holds() {
    let mut input = String::new();
    for road in 0..300 {
        for k in 0..20 {
            let (x, y) = (f64::from(k) * 4.0, f64::from(road) * 100.0);
            let gap = if k % 7 == 3 { 0.6 } else { 0.0 };
            let coordinates = format!("[[{},{y}],[{},{y}]]", x + gap, x + 4.0);
            input += &feature("LineString", &coordinates);
            input.push('\n');
        }
    }
    assert_alike(&input, &["0", "1.5", "30"], &["--units", "m"]);
}

#[test]
fn names_are_made_of_tolerances_as_they_are_written() {
    let folder = Folder::new("names");
    let input = sample("berm.geojsonl").to_str().unwrap().to_owned();
    fs::create_dir(folder.path("z2.50")).unwrap();
    fs::create_dir(folder.path("z0")).unwrap();
    let out = folder.path("z{tolerance}/{tolerance}.geojson");
    let run = run(&["join", &input, "-o", &out, "--tolerance", "0,2.50", "-q"], "");
    assert_eq!((run.status, &run.err[..]), (0, ""));
    for name in ["z0/0.geojson", "z2.50/2.50.geojson"] {
        assert!(folder.text(name).contains("FeatureCollection"), "{name}");
    }
}

#[test]
fn arguments_at_fault() {
    let folder = Folder::new("fault");
    let [out, map] = ["{tolerance}.geojson", "{tolerance}.svg"].map(|name| folder.path(name));
    let plain = folder.path("chains.geojson");
    let input = sample("berm.geojsonl").to_str().unwrap().to_owned();
    for (args, wanted) in [
        (
            &["-o", &plain, "--tolerance", "0,2"][..],
            "chains.geojson has no {tolerance} for several tolerances",
        ),
        (
            &["-o", "-", "--tolerance", "0,2"],
            "--output - has no {tolerance} for several tolerances",
        ),
        (&["-o", &out, "--map", &plain, "--tolerance", "0,2"], "--map "),
        (&["-o", &out, "--bridges", &plain, "--tolerance", "0,2"], "--bridges "),
        (&["-o", &out, "--tolerance", "2,2"], "two outputs have the same place"),
        (&["-o", &out, "--map", &out, "--tolerance", "2"], "two outputs have the same place"),
        (&["-o", &out, "--map", &map, "--tolerance", "0,x"], "not numbers from 0 up with commas"),
        (&["-o", &out, "--tolerance=-1"], "not a number from 0 up"),
    ] {
        let run = run(&[&["join", &input][..], args].concat(), "");
        assert_eq!((run.status, &run.out[..]), (2, ""), "{args:?} {}", run.err);
        assert!(run.err.contains(wanted), "{args:?} {}", run.err);
        assert!(folder.names().is_empty());
    }
}

#[test]
fn all_are_put_in_their_places_or_none_is() {
    let folder = Folder::new("places");
    let input = sample("berm.geojsonl").to_str().unwrap().to_owned();
    fs::create_dir(folder.path("5.geojson")).unwrap();
    let out = folder.path("{tolerance}.geojson");
    let run = run(&["join", &input, "-o", &out, "--tolerance", "0,2,5"], "");
    assert_eq!(run.status, 1, "{}", run.err);
    assert!(run.err.contains("5.geojson cannot be written: it is a folder"), "{}", run.err);
    assert_eq!(folder.names(), ["5.geojson"]);
}
