//! Maps: what is drawn, and that any browser can read it.

mod common;

use common::{feature, joined, run, sample_text};

/// The map of a text.
fn map(text: &str, args: &[&str]) -> String {
    let run = run(&[&["join", "-", "-o", "/dev/null", "-q", "--map", "-"], args].concat(), text);
    assert_eq!((run.status, &run.err[..]), (0, ""));
    well_formed(&run.out);
    run.out
}

/// Tests that tags are closed in order, and that no text has a character that XML would read.
fn well_formed(svg: &str) {
    let mut open = Vec::new();
    for part in svg.split('<').skip(1) {
        let (tag, text) = part.split_once('>').expect("a tag ends");
        let name = tag.split_whitespace().next().unwrap().trim_end_matches('/');
        match tag.strip_prefix('/') {
            Some(closed) => assert_eq!(open.pop(), Some(closed), "{part}"),
            None if tag.ends_with('/') => (),
            None => open.push(name),
        }
        assert_eq!(tag.matches('"').count() % 2, 0, "{part}");
        assert!(!tag.contains("NaN") && !tag.contains("inf"), "{part}");
        assert!(text.split('&').skip(1).all(|after| after.contains(';')), "{part}");
    }
    assert!(open.is_empty(), "{open:?}");
}

fn times(svg: &str, what: &str) -> usize {
    svg.matches(what).count()
}

#[test]
fn the_yard() {
    let args = ["--class", "kind", "--bend", "60", "--tolerance", "10"];
    let svg = map(&sample_text("yard.geojson"), &args);
    assert_eq!(times(&svg, "<title>chain "), 10);
    assert_eq!(times(&svg, "<title>bridge of length "), 2);
    assert_eq!(times(&svg, "<title>junction at "), 3);
    assert!(svg.contains("<title>junction at 1180.4 812.6\npaired: H3 with H4, H6 with H5</title>"));
    assert!(
        svg.contains("<title>chain 3: 3 lines, 1134.57 units long\nmembers: Y1, Y2, Y3</title>")
    );
    let bridge =
        "bridge of length 7.02922 units\nfrom line S2 at 933.2 1083.4\nto line S3 at 938.6 1087.9 \
                  in chain 1, made by the tolerance</title>";
    assert!(svg.contains(bridge), "{svg}");
    assert!(svg.contains(">Bridges, longest first</text>"));
    assert!(svg.contains(">7.03 units at 933.2 1083.4</text>"));
    assert!(svg.contains(">0.566 units at 1475.2 860.7</text>"));
    assert!(svg.contains(">500 units</text>"));
}

#[test]
fn ends_left_over_at_a_junction() {
    let ends = ["[-9,500]", "[9,500]", "[0,509]", "[9,509]"];
    let line = |end: &&str| feature("LineString", &format!("[[0,500],{end}]"));
    let text: Vec<String> = ends.iter().map(line).collect();
    let svg = map(&text.join("\n"), &["--limit", "-1", "--tolerance", "1"]);
    let wanted = "junction at 0 500\npaired: 1 with 0, 3 with 2 (by the tolerance)</title>";
    assert!(svg.contains(wanted), "{svg}");
    assert_eq!(times(&svg, "<title>bridge"), 0);
}

#[test]
fn degrees_have_a_scale_in_metres() {
    let line = feature("LineString", "[[25.0,62.0],[25.02,62.01]]");
    assert!(map(&line, &[]).contains(">200 m</text>"));
    assert!(map(&line, &[]).contains(" · metres on the sphere</text>"));
    let wide = feature("LineString", "[[-20,-30],[20,50]]");
    assert!(map(&wide, &[]).contains(">1,000,000 m</text>"));
}

#[test]
fn any_input_has_a_map() {
    let empty = r#"{"type":"FeatureCollection","features":[]}"#.to_owned();
    let all = [
        empty,
        feature("LineString", "[[5,5]]"),
        feature("LineString", "[[5,5],[5,5]]"),
        feature("LineString", "[[500,5],[600,5]]"),
        feature("LineString", "[[500,5],[500,1e300]]"),
        feature("LineString", "[[-1.7e308,-1.7e308],[1.7e308,1.7e308]]"),
        feature("LineString", "[[5e-324,0],[0,5e-324]]"),
        feature("MultiLineString", "[[[5,5],[6,6]],[]]"),
    ];
    for text in all {
        map(&text, &["--tolerance", "3"]);
    }
}

#[test]
fn names_are_not_read_as_marks() {
    let id = r#"{"id":"</title><script>\"&\u0000","#;
    let line = feature("LineString", "[[500,0],[1,1]]").replacen('{', id, 1);
    let svg = map(&line, &[]);
    assert!(!svg.contains("<script"));
    assert!(svg.contains("members: &lt;/title&gt;&lt;script&gt;&quot;&amp; </title>"), "{svg}");
}

#[test]
fn many_members_are_not_all_named() {
    let line = |x: usize| feature("LineString", &format!("[[{x},500],[{},500]]", x + 1));
    let text: Vec<String> = (0..100).map(line).collect();
    let svg = map(&text.join("\n"), &[]);
    assert!(svg.contains("58, 59 and 40 more</title>"), "{svg}");
    assert_eq!(common::features(&joined(&text.join("\n"), &[])).len(), 1);
}

#[test]
fn lengths_have_one_unit() {
    let yard = sample_text("yard.geojson");
    let args = ["--class", "kind", "--bend", "60", "--tolerance", "10", "--units", "m"];
    let svg = map(&yard, &args);
    assert!(!svg.contains("units"), "{svg}");
    for words in [">500 m<", "length 7.02922 m\n", ">7.03 m at", "1134.57 m long", "length in m:"] {
        assert!(svg.contains(words), "{words}");
    }
}

#[test]
fn gaps_that_stayed_open_are_shown() {
    let text = [
        feature("LineString", "[[500,5],[509.999,5]]"),
        feature("LineString", "[[510.001,5],[540,5]]"),
    ];
    let svg = map(&text.join("\n"), &["--tolerance", "10"]);
    let wanted =
        "gap of length 0.002 units\nfrom line 0 at 509.999 5\nto line 1 at 510.001 5, still \
                  open: its ends lie in two cells</title>";
    assert!(svg.contains(wanted), "{svg}");
    assert!(svg.contains(">gap below the tolerance, still open</text>"));
}

/// Streets of a city: rows of so many lines that the tolerance joins, and as many lines by themselves.
fn city(side: usize) -> String {
    let mut text = Vec::new();
    for (row, column) in (0..side).flat_map(|row| (0..side).map(move |column| (row, column))) {
        let [x, y] = [column as f64 * 90.0 + 1000.0, row as f64 * 90.0];
        let east = format!("[[{x},{y}],[{},{}],[{},{y}]]", x + 31.0, y + 4.0, x + 89.5);
        let north = format!("[[{},{}],[{},{}]]", x + 40.0, y + 20.0, x + 44.0, y + 80.0);
        text.extend([feature("LineString", &east), feature("LineString", &north)]);
    }
    text.join("\n")
}

#[test]
fn the_map_of_a_large_network_stays_small() {
    for (side, lines) in [(52, 5_408), (160, 51_200)] {
        let text = city(side);
        assert_eq!(text.lines().count(), lines);
        let svg = map(&text, &["--tolerance", "3", "--arrows"]);
        assert!((100_000..3_000_000).contains(&svg.len()), "{} bytes for {lines} lines", svg.len());
        // The longest chains and bridges are still drawn by themselves, and their places are told.
        let titles = ["<title>chain ", "<title>bridge of"].map(|title| times(&svg, title));
        assert_eq!(titles, [2_000, 2_000], "{lines} lines");
        let bridges = if side == 52 { "2,652" } else { "25,440" };
        assert!(svg.contains(&format!(">The longest of {bridges} bridges</text>")));
        // The other bridges are dots.
        assert!(svg.contains("<path class=\"dots\" stroke=\"#e0001b\" d=\"M"));
    }
}

#[test]
fn a_coast_of_many_points_stays_small() {
    // Spirals whose points lie nearer to each other than a pixel, but not in one place of a tenth.
    let spiral = |k: usize| {
        let point = |step: usize| {
            let angle = step as f64 * 0.01 + k as f64;
            let radius = 1000.0 + step as f64 * 0.02 + 37.0 * k as f64;
            format!("[{:.3},{:.3}]", radius * angle.cos(), radius * angle.sin())
        };
        let points: Vec<String> = (0..30_000).map(point).collect();
        feature("LineString", &format!("[{}]", points.join(",")))
    };
    let text: Vec<String> = (0..16).map(spiral).collect();
    let svg = map(&text.join("\n"), &[]);
    assert!((100_000..3_000_000).contains(&svg.len()), "{}", svg.len());
    assert_eq!(times(&svg, "<title>chain "), 16);
}
