//! Faults: what is told, that the status is not 0, and that nothing is written.

mod common;

use common::{feature, run, sample_text, Folder};

const LINE: &str = "[[0,0],[1,0]]";

/// Runs a join of a text that is at fault and gives what is told.
fn fault(name: &str, text: &str, args: &[&str]) -> String {
    let folder = Folder::new(name);
    let paths = ["out", "map", "bridges"].map(|name| folder.path(name));
    let outputs = ["join", "-", "-o", &paths[0], "--map", &paths[1], "--bridges", &paths[2]];
    let run = run(&[&outputs[..], args].concat(), text);
    assert_eq!((run.status, &run.out[..]), (1, ""), "{}", run.err);
    assert!(folder.names().is_empty(), "{:?}", folder.names());
    run.err
}

/// Three features, of which the one in the middle is given.
fn three(middle: &str) -> String {
    let line = feature("LineString", LINE);
    format!("{line}\n{middle}\n{line}\n")
}

#[test]
fn geometry_that_is_no_line() {
    let null = r#"{"type":"Feature","id":7,"geometry":null}"#;
    let all = [
        (null.into(), "feature 1 (id 7, line 2): its geometry is null, not a line (--skip-other leaves such features out)"),
        (r#"{"type":"Feature"}"#.into(), "feature 1 (line 2): it has no geometry"),
        (feature("Polygon", "[]"), "feature 1 (line 2): its geometry is a Polygon, not a line (--skip-other leaves such features out)"),
        (feature("Point", "[0,0]"), "feature 1 (line 2): its geometry is a Point, not a line (--skip-other leaves such features out)"),
        (feature("Circle", "[0,0]"), "feature 1 (line 2): its geometry is a Circle, which is none of GeoJSON"),
        ("[]".into(), "feature 1 (line 2): it is not an object with readable names"),
        (
            r#"{"type":"LineString"}"#.into(),
            r#"feature 1 (line 2): its type is "LineString", not "Feature""#,
        ),
        ("{}".into(), "feature 1 (line 2): it has no type"),
    ];
    for (feature, wanted) in all {
        assert_eq!(
            fault("geometry", &three(&feature), &[]),
            format!("lovasuku: standard input: {wanted}\n")
        );
    }
}

#[test]
fn positions_that_are_none() {
    let told =
        "lovasuku: standard input: feature 1 (line 2): its coordinates are not positions of finite numbers\n";
    for positions in ["[[0,0],[1]]", "[[0,0],[1,null]]", "[0,0]", "null", "[[\"0\",0]]"] {
        let text = three(&feature("LineString", positions));
        assert_eq!(fault("positions", &text, &[]), told, "{positions}");
    }
}

#[test]
fn places_that_are_none() {
    let told = "a number of its coordinates is too large for a double, so that it is no place";
    let all = [
        ("LineString", "[[0,0],[1,1e999]]"),
        ("LineString", "[[-1e999,0],[1,0]]"),
        ("LineString", "[[0,1e309]]"),
        ("MultiLineString", "[[[0,0],[1,0]],[[1e999,0]]]"),
    ];
    for (kind, positions) in all {
        let lost = feature(kind, positions);
        let named = lost.replacen('{', r#"{"id":"spur 7","#, 1);
        for (lost, place) in [(lost, "line 2"), (named, r#"id "spur 7", line 2"#)] {
            let wanted = format!("lovasuku: standard input: feature 1 ({place}): {told}\n");
            assert_eq!(fault("nowhere", &three(&lost), &[]), wanted);
        }
    }
    for word in ["NaN", "Infinity"] {
        let lost = feature("LineString", &format!("[[0,0],[1,{word}]]"));
        let told = fault("words", &three(&lost), &[]);
        assert!(told.starts_with("lovasuku: standard input: feature 1: bad JSON: "), "{told}");
    }
}

#[test]
fn the_greatest_places_are_places() {
    let far = "[[1.7976931348623157e308,0],[-1.7976931348623157e308,0]]";
    let run = run(&["join", "-", "-o", "-", "-q"], &three(&feature("LineString", far)));
    assert_eq!((run.status, &run.err[..]), (0, ""));
    assert!(run.out.contains("1.7976931348623157e308"), "{}", run.out);
}

#[test]
fn bad_json_is_placed() {
    let told = fault("json", &three("{\"type\":\"Feature\",}"), &[]);
    assert_eq!(
        told,
        "lovasuku: standard input: feature 1: bad JSON: key must be a string at line 2 column 19\n"
    );
    let cut = sample_text("yard.geojson");
    let cut = &cut[..cut.find("\"S2\"").unwrap()];
    let told = fault("cut", cut, &[]);
    let wanted =
        "lovasuku: standard input: feature 4: bad JSON: EOF while parsing a value at line 6 column 26\n";
    assert_eq!(told, wanted);
    assert_eq!(fault("empty", " \n", &[]), "lovasuku: standard input: the input is empty\n");
}

#[test]
fn a_class_that_no_feature_has() {
    let told = fault("class", &sample_text("yard.geojson"), &["--class", "kinds"]);
    assert_eq!(told, "lovasuku: standard input: no feature has a property \"kinds\" for --class\n");
}

#[test]
fn files_that_cannot_be_read_or_written() {
    let folder = Folder::new("files");
    let missing = folder.path("missing");
    let read = run(&["join", &missing, "-o", "-"], "");
    assert_eq!((read.status, &read.out[..]), (1, ""));
    assert!(
        read.err.starts_with(&format!("lovasuku: {missing}: it cannot be read: ")),
        "{}",
        read.err
    );

    let (out, nowhere) = (folder.path("out"), folder.path("nowhere/map.svg"));
    let text = sample_text("berm.geojsonl");
    let written = run(&["join", "-", "-o", &out, "--map", &nowhere], &text);
    assert_eq!(written.status, 1);
    assert!(written.err.starts_with(&format!("lovasuku: {nowhere} cannot be written: ")));
    assert!(folder.names().is_empty(), "{:?}", folder.names());
}

#[test]
fn an_output_that_is_there_stays_where_a_run_fails() {
    let folder = Folder::new("stays");
    let out = folder.path("out");
    std::fs::write(&out, "as before").unwrap();
    assert_eq!(run(&["join", "-", "-o", &out], "{").status, 1);
    assert_eq!(folder.text("out"), "as before");
    assert_eq!(run(&["join", "-", "-o", &out], &sample_text("berm.geojsonl")).status, 0);
    assert!(folder.text("out").starts_with("{\"type\":\"FeatureCollection\""));
    assert_eq!(folder.names(), ["out"]);
}

#[test]
fn arguments() {
    let two = "not two numbers with a comma between them";
    let all: [(&[&str], &str); 18] = [
        (&["join", "-", "-o", "-", "--limit", "-1.5"], "not a number from -1 to 1"),
        (&["join", "-", "-o", "-", "--limit", "NaN"], "not a number from -1 to 1"),
        (&["join", "-", "-o", "-", "--bend", "181"], "not a number from 0 to 180"),
        (&["join", "-", "-o", "-", "--tolerance", "-1"], "not a number from 0 up"),
        (&["join", "-", "-o", "-", "--tolerance", "inf"], "not a number from 0 up"),
        (&["join", "-", "-o", "-", "--origin", "1"], two),
        (&["join", "-", "-o", "-", "--origin", "1,2,3"], two),
        (&["join", "-", "-o", "-", "--origin", "1,NaN"], two),
        (&["join", "-", "-o", "-", "--origin", "-inf,0"], two),
        (&["join", "-", "-o", "-", "--origin", "1 2"], two),
        (&["join", "-", "-o", "-", "--limit", "0", "--bend", "1"], "cannot be used with"),
        (&["join", "-", "-o", "-", "--offset", "1001"], "not a whole number from 0 to 1000"),
        (&["join", "-", "-o", "-", "--offset", "-1"], "not a whole number from 0 to 1000"),
        (&["join", "-", "-o", "-", "--offset", "1.5"], "not a whole number from 0 to 1000"),
        (&["join", "-", "-o", "-", "--offset", "1", "--bend", "1"], "cannot be used with"),
        (&["join", "-", "-o", "-", "--offset", "1", "--limit", "0"], "cannot be used with"),
        (&["join", "-", "-o", "-", "--map", "-"], "two outputs have the same place: -"),
        (&["join", "-"], "required arguments were not provided"),
    ];
    for (args, wanted) in all {
        let run = run(args, "");
        assert_eq!((run.status, &run.out[..]), (2, ""), "{args:?}");
        assert!(run.err.contains(wanted), "{args:?}: {}", run.err);
    }
}

#[test]
fn the_input_is_not_overwritten() {
    let folder = Folder::new("input");
    let path = folder.path("in");
    std::fs::write(&path, sample_text("berm.geojsonl")).unwrap();
    let run = run(&["join", &path, "-o", &path], "");
    assert_eq!(run.status, 2);
    assert!(run.err.contains("is the input"), "{}", run.err);
    assert_eq!(folder.text("in"), sample_text("berm.geojsonl"));
}
