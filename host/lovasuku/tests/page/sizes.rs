//! How large pages are.

use super::common::run;
use super::{feature, page};
use crate::reader::Page;

/// Roads about the corners of streets, in districts of so many streets that one call holds, with points
/// between and with properties. Coordinates have so many decimals, or all that a double has.
fn roads(lines: usize, decimals: Option<usize>) -> String {
    let mut chance = 7u64;
    let mut next = move || {
        chance =
            chance.wrapping_mul(6_364_136_223_846_793_005).wrapping_add(1_442_695_040_888_963_407);
        (chance >> 11) as f64 / (1u64 << 53) as f64
    };
    let number = |x: f64| match decimals {
        Some(decimals) => format!("{x:.decimals$}"),
        None => format!("{x}"),
    };
    let mut text = String::new();
    let corners: Vec<[f64; 2]> = (0..1_600).map(|_| [next(), next()]).collect();
    for k in 0..lines {
        let (district, within) = (k / 1_500, k % 1_500);
        let [row, column] = [within / 2 / 28, within / 2 % 28];
        let corner = |row: usize, column: usize| {
            let [x, y] = corners[30 * row + column];
            let [east, north] = [district % 6 * 5_000, district / 6 * 5_000];
            [
                487_000.0 + east as f64 + 120.0 * column as f64 + 60.0 * x,
                6_901_000.0 + north as f64 + 120.0 * row as f64 + 60.0 * y,
            ]
        };
        let (from, to) = (corner(row, column), corner(row + k % 2, column + 1 - k % 2));
        let between = |part: f64, by: f64| [0, 1].map(|k| from[k] + part * (to[k] - from[k]) + by);
        let way = [from, between(0.3, 9.0 * next()), between(0.7, 9.0 * next()), to];
        let point = |[x, y]: [f64; 2]| format!("[{},{}]", number(x), number(y));
        let coordinates = format!("[{}]", way.map(point).join(","));
        let properties = format!(
            r#"{{"type":"Feature","id":"R{k}","properties":{{"kind":"{}","road":"Road {}","link":"L{:06}"}},"#,
            if next() < 0.5 { "haul" } else { "spur" },
            k / 40,
            (next() * 1e6) as u32
        );
        text +=
            &feature("LineString", &coordinates).replacen(r#"{"type":"Feature","#, &properties, 1);
        text.push('\n');
    }
    text
}

#[test]
fn fifty_thousand_lines_are_below_eight_megabytes() {
    let settings = ["--bend", "60", "--tolerance", "2"];
    for decimals in [Some(3), None] {
        let text = roads(50_000, decimals);
        let args = [&["join", "-", "-o", "/dev/null", "-q", "--page", "-"], &settings[..]].concat();
        let html = run(&args, &text).out;
        assert!((2_000_000..8_000_000).contains(&html.len()), "{} bytes", html.len());
        let page = Page::of(&html);
        assert_eq!(page.lines().len(), 50_000);
        // Every junction is told whole, and all properties are there.
        let junctions = page.junctions();
        assert!(junctions.len() > 10_000 && junctions.iter().all(|each| each.whole));
        assert_eq!(page.data["properties"]["left"], serde_json::json!([]));
    }
}

#[test]
fn properties_that_are_too_many_are_named_and_left_out() {
    let line = |k: usize| {
        let words: String = (0..60).map(|word| format!("{} ", k * 7 + word)).collect();
        let head = format!(
            r#"{{"type":"Feature","properties":{{"kind":"spur","notes":"{words}","lanes":{k}}},"#
        );
        let line = feature("LineString", &format!("[[{},500],[{},500]]", 3 * k, 3 * k + 1));
        line.replacen(r#"{"type":"Feature","#, &head, 1)
    };
    let text: Vec<String> = (0..8_000).map(line).collect();
    let page = page(&text.join("\n"), &["--class", "kind", "--limit", "0", "--tolerance", "0.1"]);
    let names = |name: &str| page.data["properties"][name].clone();
    assert_eq!(names("left"), serde_json::json!(["notes"]));
    assert_eq!(names("columns")[0]["name"], "kind");
    assert_eq!(names("columns")[1]["values"][7], "7");
    assert!(page.text.len() < 1_500_000, "{}", page.text.len());
}

#[test]
fn a_star_of_many_ends_tells_the_selected_pairs() {
    let ray = |k: usize| {
        let angle = k as f64 * 0.7;
        let [x, y] = [1000.0 + 90.0 * angle.cos(), 90.0 * angle.sin()];
        feature("LineString", &format!("[[1000,0],[{x},{y}]]"))
    };
    let star = |rays: usize| {
        let text: Vec<String> = (0..rays).map(ray).collect();
        page(&text.join("\n"), &["--limit", "-0.9"]).junctions().pop().unwrap()
    };
    let few = star(64);
    assert_eq!((few.whole, few.reasons.len(), few.measures.len()), (true, 2016, 2016));
    let many = star(65);
    assert_eq!((many.whole, many.reasons.len()), (false, 0));
    assert!(many.selected.len() > 20 && many.measures.len() == many.selected.len());
    assert!(many.measures.windows(2).all(|two| two[0] <= two[1] && two[1] <= -0.9));
}
