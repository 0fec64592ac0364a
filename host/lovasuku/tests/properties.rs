//! Properties, names and members: nothing of the input is lost without a word.

mod common;

use common::{features, members, run, Folder};
use serde_json::{json, Value};

/// A line from one x to the next, with properties and more before them.
fn line(x: i32, length: i32, properties: &str, more: &str) -> String {
    let to = x + length;
    format!(
        r#"{{"type":"Feature",{more}"properties":{{{properties}}},"geometry":{{"type":"LineString","coordinates":[[{x},500],[{to},500]]}}}}"#
    )
}

/// The output and the summary of lines.
fn join(lines: &[String], args: &[&str]) -> (String, String) {
    let run = run(&[&["join", "-", "-o", "-"], args].concat(), &lines.join("\n"));
    assert_eq!(run.status, 0, "{}", run.err);
    (run.out, run.err)
}

/// The properties of the first chain.
fn properties(lines: &[String], args: &[&str]) -> Value {
    features(&join(lines, args).0)[0]["properties"].clone()
}

fn three() -> [String; 3] {
    [
        line(0, 1, r#""road":"A","lanes":1,"from":7"#, ""),
        line(1, 5, r#""road":"A","lanes":2"#, ""),
        line(6, 2, r#""road":"A","lanes":1.0"#, ""),
    ]
}

#[test]
fn what_a_chain_keeps() {
    let own = |more: Value| {
        let path = [0, 1, 2].map(|line| json!({"line": line, "turned": false}));
        let mut all = json!({"members": [0, 1, 2], "path": path, "count": 3, "loop": false});
        all.as_object_mut().unwrap().extend(more.as_object().unwrap().clone());
        all
    };
    let keep = |how: &str| properties(&three(), &["--keep", how]);
    assert_eq!(properties(&three(), &[]), own(json!({"road": "A"})));
    assert_eq!(keep("shared"), own(json!({"road": "A"})));
    assert_eq!(keep("first"), own(json!({"road": "A", "lanes": 1, "from": 7})));
    assert_eq!(keep("longest"), own(json!({"road": "A", "lanes": 2})));
    let lists = json!({"road": ["A", "A", "A"], "lanes": [1, 2, 1.0], "from": [7, null, null]});
    assert_eq!(keep("list"), own(lists));
    let refused = run(&["join", "-", "-o", "-", "--keep", "all"], "");
    assert_eq!(refused.status, 2);
    assert!(refused.err.contains("shared, first, longest, list"), "{}", refused.err);
}

#[test]
fn properties_named_like_those_of_chains_are_told_of() {
    let lines = [line(0, 1, r#""count":9,"a":1"#, ""), line(1, 1, r#""count":9,"a":1"#, "")];
    let (out, told) = join(&lines, &[]);
    assert_eq!(features(&out)[0]["properties"]["count"], 2);
    let warning =
        "  warning  properties of the input named like one of members, path, count, loop are \
                   left out of 1 chain (--prefix PREFIX gives those of chains other names)\n";
    assert!(told.contains(warning), "{told}");
    let (out, told) = join(&lines, &["--prefix", "chain_"]);
    assert!(!told.contains("warning"), "{told}");
    let path = [0, 1].map(|line| json!({"line": line, "turned": false}));
    let wanted = json!({"chain_members": [0, 1], "chain_path": path, "chain_count": 2, "chain_loop": false,
        "count": 9, "a": 1});
    assert_eq!(features(&out)[0]["properties"], wanted);
    for how in ["first", "longest", "list"] {
        assert!(join(&lines, &["--keep", how]).1.contains("warning"), "{how}");
    }
}

#[test]
fn foreign_members_are_kept() {
    let more = r#""tippecanoe":{"minzoom" : 5},"bbox":[0,500,1,500],"#;
    let lines = [line(0, 1, "", more), line(1, 1, "", more), line(700, 1, "", more)];
    let chains = features(&join(&lines, &[]).0);
    assert_eq!(chains[0]["tippecanoe"], json!({"minzoom": 5}));
    assert_eq!(chains[0].get("bbox"), None);
    assert_eq!(chains[1]["bbox"], json!([0, 500, 1, 500]));
    // A box is that of the geometry as it was written: not of a part, and not without heights.
    let high = lines[2].replace("[700,500]", "[700,500,3]");
    assert_eq!(features(&join(&[high], &["--drop-heights"]).0)[0].get("bbox"), None);
    let parts = lines[2].replace("LineString", "MultiLineString").replace("[[700", "[[[700");
    let parts = parts.replace("500]]}", "500]],[[0,0],[1,0]]]}");
    assert_eq!(features(&join(&[parts.clone()], &["--explode"]).0)[0].get("bbox"), None);
    assert_eq!(features(&join(&[parts], &[]).0)[0]["bbox"], json!([0, 500, 1, 500]));
}

#[test]
fn the_collection_keeps_its_members() {
    let crs = r#"{"type": "name", "properties": {"name": "urn:ogc:def:crs:EPSG::3067"}}"#;
    let collection = |lines: &[String]| {
        format!(
            r#"{{"name":"roads","type":"FeatureCollection","crs":{crs},"bbox":[0,500,2,500],"features":[{}],"survey":{{"year" :2020}}}}"#,
            lines.join(",")
        )
    };
    let text = collection(&[line(0, 1, "", ""), line(1, 1, "", "")]);
    let (out, _) = join(&[text.clone()], &[]);
    let head = format!(
        "{{\"type\":\"FeatureCollection\",\n\"name\":\"roads\",\n\"crs\":{crs},\n\"bbox\":[0,500,2,500],\n\
         \"survey\":{{\"year\" :2020}},\n\"features\":[\n"
    );
    assert!(out.starts_with(&head), "{out}");
    // The box is not that of the chains where something was left out.
    let other = r#"{"type":"Feature","geometry":null}"#.to_owned();
    let (out, _) = join(&[collection(&[line(0, 1, "", ""), other])], &["--skip-other"]);
    assert!(out.contains("\"name\":\"roads\"") && !out.contains("bbox"), "{out}");
    // Bridges are in the same reference system, but are no roads.
    let folder = Folder::new("members");
    let bridges = folder.path("bridges");
    join(&[text], &["--bridges", &bridges]);
    let start = format!("{{\"type\":\"FeatureCollection\",\n\"crs\":{crs},\n\"features\"");
    assert!(folder.text("bridges").starts_with(&start), "{}", folder.text("bridges"));
}

#[test]
fn a_feature_a_line() {
    let folder = Folder::new("lines");
    let nested = "\"a\":{\n\"b\":\r\n1}";
    let lines = [line(0, 1, nested, ""), line(700, 1, nested, "")].join("\n");
    let text = format!(
        r#"{{"type":"FeatureCollection","name":"roads","features":[{}]}}"#,
        lines.replace("}}\n{", "}},{")
    );
    let plain = ["0", "1"].map(|id| {
        let x = if id == "0" { [0, 1] } else { [700, 701] };
        format!(
            r#"{{"type":"Feature","id":{id},"properties":{{"members":[{id}],"path":[{{"line":{id},"turned":false}}],"count":1,"loop":false,"a":{{ "b":  1}}}},"geometry":{{"type":"LineString","coordinates":[[{:.1},500.0],[{:.1},500.0]]}}}}"#,
            x[0] as f64, x[1] as f64
        )
    });
    let series = format!("{}\n{}\n", plain[0], plain[1]);
    let marked = format!("\u{1e}{}\n\u{1e}{}\n", plain[0], plain[1]);
    let all = [
        ("chains.geojsonl", &[][..], &series),
        ("chains.NDJSON", &[], &series),
        ("chains.geojsons", &[], &marked),
        ("chains.geojson", &["-f", "geojsonl"], &series),
        ("chains", &["--format", "geojsonseq"], &marked),
    ];
    for (name, args, wanted) in all {
        let path = folder.path(name);
        let told = run(&[&["join", "-", "-o", &path], args].concat(), &text);
        assert_eq!(told.status, 0, "{}", told.err);
        assert_eq!(folder.text(name), *wanted, "{name}");
        let warning =
            "a series of features has no place for members of the collection: left out are name";
        assert!(told.err.contains(warning), "{}", told.err);
        // What is written is read again.
        let again = run(&["join", &path, "-q", "-o", "-"], "");
        assert_eq!(members(&again.out), ["[0]", "[1]"], "{}", again.err);
    }
}

#[test]
fn the_format_that_is_asked_for_goes_before_the_name() {
    let folder = Folder::new("asked");
    let text = format!(
        r#"{{"type":"FeatureCollection","name":"roads","features":[{}]}}"#,
        line(0, 1, "", "")
    );
    let whole = run(&["join", "-", "-o", &folder.path("x.geojsonl"), "-f", "geojson"], &text);
    assert!(!whole.err.contains("warning"), "{}", whole.err);
    assert!(folder.text("x.geojsonl").starts_with("{\"type\":\"FeatureCollection\""));
}

#[test]
fn chains_have_ids_that_bridges_name() {
    let folder = Folder::new("ids");
    let bridges = folder.path("bridges.geojsonl");
    let lines = [line(0, 1, "", ""), line(690, 11, "", ""), line(702, 8, "", "")];
    let (out, _) = join(&lines, &["--tolerance", "5", "--bridges", &bridges]);
    let ids: Vec<Value> = features(&out).iter().map(|chain| chain["id"].clone()).collect();
    assert_eq!(ids, [0, 1]);
    let bridge: Value = serde_json::from_str(folder.text("bridges.geojsonl").trim()).unwrap();
    assert_eq!(bridge["properties"]["chain"], 1);
}

#[test]
fn ids_that_do_not_name_every_line_are_told_of() {
    let ids = |ids: [&str; 3]| {
        let line = |(x, id): (i32, &str)| match id {
            "" => line(x, 1, "", ""),
            id => line(x, 1, "", &format!("\"id\":{id},")),
        };
        let (out, told) = join(&[0, 1, 2].map(|k| line((k as i32, ids[k]))), &[]);
        (members(&out).concat(), told)
    };
    let (named, told) = ids(["5", "\"b\"", "7"]);
    assert_eq!(named, r#"[5,"b",7]"#);
    assert!(!told.contains("warning"), "{told}");
    assert!(!ids(["", "", ""]).1.contains("warning"));
    let (named, told) = ids(["5", "5", "5"]);
    assert_eq!(named, "[0,1,2]");
    let warning = "  warning  ids are not unique: 5 names features 0 and 1, and so for 1 more; lines \
                   are named by their positions instead, counted from 0 (--id PROPERTY names them by \
                   a property)\n";
    assert!(told.contains(warning), "{told}");
    let (named, told) = ids(["5", "", "7"]);
    assert_eq!(named, "[0,1,2]");
    assert!(told.contains("  warning  1 of 3 lines have no id; lines are named by"), "{told}");
}

#[test]
fn lines_are_named_by_a_property_where_asked() {
    let lines = |values: [&str; 2]| {
        [0, 1].map(|k| line(k as i32, 1, &format!("\"osm\":{}", values[k]), "\"id\":0,"))
    };
    let (out, told) = join(&lines(["17", "\"w/18\""]), &["--id", "osm"]);
    assert_eq!(members(&out), [r#"[17,"w/18"]"#]);
    assert!(!told.contains("warning"), "{told}");
    let (out, told) = join(&lines(["17", "17"]), &["--id", "osm"]);
    assert_eq!(members(&out), ["[17,17]"]);
    let warning = "the values of \"osm\" do not name one line each: 17 names features 0 and 1\n";
    assert!(told.contains(warning), "{told}");
    for (value, words) in [
        ("null", "feature 1 (id 0, line 2): it has no property \"osm\" for --id"),
        ("[1]", "feature 1 (id 0, line 2): its property \"osm\" is neither a text nor a number"),
    ] {
        let text = lines(["17", value]).join("\n");
        let refused = run(&["join", "-", "-o", "-", "--id", "osm"], &text);
        assert_eq!((refused.status, &refused.out[..]), (1, ""));
        assert!(refused.err.contains(words), "{}", refused.err);
    }
}
