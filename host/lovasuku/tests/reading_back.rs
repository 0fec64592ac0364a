//! What is written reads back as what was read.

mod common;

use common::{feature, features, joined};

/// Numbers without end, from every magnitude.
struct Numbers(u64);

impl Numbers {
    fn bits(&mut self) -> u64 {
        self.0 =
            self.0.wrapping_mul(6_364_136_223_846_793_005).wrapping_add(1_442_695_040_888_963_407);
        self.0 ^ self.0 >> 31
    }

    fn finite(&mut self) -> f64 {
        loop {
            let x = f64::from_bits(self.bits());
            if x.is_finite() {
                return x;
            }
        }
    }

    /// A number as a survey has it.
    fn surveyed(&mut self) -> f64 {
        (self.bits() % 100_000_000) as f64 / 1000.0
    }
}

/// The bits of every number of the coordinates of a text, read by the standard library.
fn bits(text: &str) -> Vec<u64> {
    let mut all = Vec::new();
    for part in text.split("\"coordinates\":").skip(1) {
        let end = part.find('}').unwrap();
        let numbers = part[..end].split(['[', ']', ',']).filter(|number| !number.trim().is_empty());
        all.extend(numbers.map(|number| number.trim().parse::<f64>().unwrap().to_bits()));
    }
    all
}

fn line(points: &[[f64; 2]]) -> String {
    let position = |[x, y]: &[f64; 2]| format!("[{x:e},{y:?}]");
    let positions: Vec<String> = points.iter().map(position).collect();
    feature("LineString", &format!("[{}]", positions.join(",")))
}

#[test]
fn lone_lines_bit_for_bit() {
    let mut numbers = Numbers(1);
    let mut points: Vec<[f64; 2]> =
        (0..6_000).map(|_| [numbers.finite(), numbers.finite()]).collect();
    points.extend((0..6_000).map(|_| [numbers.surveyed(), numbers.surveyed()]));
    points.extend([[0.0, -0.0], [-0.0, 5e-324], [f64::MAX, f64::MIN_POSITIVE]]);
    let text: Vec<String> = points.chunks(3).map(line).collect();
    let out = joined(&text.join("\n"), &[]);
    let wanted: Vec<u64> = points.iter().flatten().map(|x| x.to_bits()).collect();
    assert_eq!(bits(&out), wanted);
}

#[test]
fn a_long_chain_bit_for_bit() {
    let mut numbers = Numbers(2);
    let points: Vec<[f64; 2]> =
        (0..2_001).map(|_| [numbers.finite(), numbers.surveyed()]).collect();
    let text: Vec<String> = points.windows(2).map(line).collect();
    let out = joined(&text.join("\n"), &[]);
    assert_eq!(features(&out).len(), 1);
    let wanted: Vec<u64> = points.iter().flatten().map(|x| x.to_bits()).collect();
    assert_eq!(bits(&out), wanted);
}

#[test]
fn chains_joined_again_are_the_same() {
    let yard = common::sample_text("yard.geojson");
    let once = joined(&yard, &["--class", "kind"]);
    let again = joined(&once, &["--class", "kind"]);
    assert_eq!(bits(&once), bits(&again));
}

#[test]
fn zeros_of_both_signs_are_two_ends() {
    let zero = line(&[[-1.0, 0.0], [0.0, 0.0]]);
    let same = line(&[[0.0, 0.0], [1.0, 0.0]]);
    let other = line(&[[-0.0, 0.0], [1.0, 0.0]]);
    assert_eq!(features(&joined(&[&zero[..], &same].join("\n"), &[])).len(), 1);
    let out = joined(&[&zero[..], &other].join("\n"), &[]);
    assert_eq!(features(&out).len(), 2);
    assert!(out.contains("[[-0.0,0.0],[1.0,0.0]]"), "{out}");
}

#[test]
fn properties_stay_as_they_are_written() {
    let with = |id: &str, from: f64, more: &str| {
        let (a, b) = (from, from + 1.0);
        format!(
            r#"{{"type":"Feature","id":{id},"properties":{{"big":123456789012345678901234567890,
            "zeal":1.50,"a":"\u00e9 é","nested":{{"z":1,"a":[]}},{more}"count":99}},
            "geometry":{{"type":"LineString","coordinates":[[{a},0],[{b},0]]}}}}"#
        )
    };
    let crs = r#"{"type":"name","properties":{"name":"urn:ogc:def:crs:EPSG::3067"}}"#;
    let lines = [with("\"a \\\"b\\\"\"", 0.0, "\"own\":1,"), with("-2.50", 1.0, "\"own\":2,")];
    let text =
        format!(r#"{{"type":"FeatureCollection","crs":{crs},"features":[{}]}}"#, lines.join(","));
    let out = joined(&text, &[]);
    assert!(out.contains(&format!("\"crs\":{crs},")), "{out}");
    let wanted = r#""properties":{"members":["a \"b\"",-2.50],"path":[{"line":"a \"b\"","turned":false},{"line":-2.50,"turned":false}],"count":2,"loop":false,"big":123456789012345678901234567890,"zeal":1.50,"a":"\u00e9 é","nested":{"z":1,"a":[]}}"#;
    assert!(out.contains(wanted), "{out}");
}

#[test]
fn positions_name_lines_unless_every_feature_has_an_id_of_its_own() {
    let line = |id: &str, x: i32| {
        let coordinates = format!("[[{x},0],[{},0]]", x + 1);
        feature("LineString", &coordinates).replacen('{', &format!("{{{id}"), 1)
    };
    let members = |ids: [&str; 2]| {
        let text = [line(ids[0], 0), line(ids[1], 1)].join("\n");
        common::members(&joined(&text, &[])).concat()
    };
    assert_eq!(members(["\"id\":5,", "\"id\":\"b\","]), r#"[5,"b"]"#);
    assert_eq!(members(["\"id\":5,", ""]), "[0,1]");
    assert_eq!(members(["\"id\":5,", "\"id\":5,"]), "[0,1]");
    assert_eq!(members(["\"id\":5,", "\"id\":null,"]), "[0,1]");
}

#[test]
fn other_line_geometry_passes_through() {
    let parts = "[[[1.0,0.0],[2.0,0.5]],[[2.0,0.5],[3.0,0.0]]]";
    let text = [
        feature("MultiLineString", parts),
        feature("LineString", "[[0,0],[1,0]]"),
        feature("LineString", "[[1.0,0.0]]"),
        feature("LineString", "[[1,0],[1,5]]"),
    ];
    let out = joined(&text.join("\n"), &["--tolerance", "1"]);
    assert_eq!(common::members(&out), ["[1,3]", "[0]", "[2]"]);
    assert!(out.contains(&format!("\"MultiLineString\",\"coordinates\":{parts}")), "{out}");
    assert!(out.contains("\"LineString\",\"coordinates\":[[1.0,0.0]]}"), "{out}");
}
