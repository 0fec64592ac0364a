//! Windows: only the chains whose extents meet one are written, and nothing else changes.

mod common;
mod networks;

use common::{feature, features, joined, run, sample_text, Folder};
use lovasuku_chains::large::{join, Capacity, Chain, Line, Way};
use lovasuku_chains::{Dimension, Settings, Window};
use networks::network;
use serde_json::Value;

fn ids(text: &str) -> Vec<u64> {
    features(text).iter().map(|chain| chain["id"].as_u64().unwrap()).collect()
}

/// The positions of a geometry, whatever it is.
fn points(geometry: &Value) -> Vec<[f64; 2]> {
    let all = geometry["coordinates"].as_array().unwrap();
    match geometry["type"] == "LineString" {
        true => all.iter().map(|p| [0, 1].map(|k| p[k].as_f64().unwrap())).collect(),
        false => all
            .iter()
            .flat_map(|part| {
                let part = part.as_array().unwrap().clone();
                part.into_iter().map(|p| [0, 1].map(|k| p[k].as_f64().unwrap()))
            })
            .collect(),
    }
}

/// True where some position is at or beyond each bound.
fn meets(points: &[[f64; 2]], [x, y, to_x, to_y]: [f64; 4]) -> bool {
    let along = |k: usize, from: f64, to: f64| {
        points.iter().any(|p| p[k] <= to) && points.iter().any(|p| p[k] >= from)
    };
    along(0, x, to_x) && along(1, y, to_y)
}

#[test]
fn the_yard_in_windows() {
    let yard = sample_text("yard.geojson");
    let args = ["--class", "kind", "--bend", "60", "--tolerance", "10"];
    let all = features(&joined(&yard, &args));
    let mut sizes = Vec::new();
    for window in [
        [1100.0, 300.0, 1700.0, 900.0],
        [0.0, 0.0, 3000.0, 3000.0],
        [1480.0, 300.0, 1500.0, 470.0],
        [-9.0, -9.0, 0.0, 0.0],
        [933.2, 1083.4, 933.2, 1083.4],
        [2340.0, 985.0, 9000.0, 9000.0],
    ] {
        let words = window.map(|x| x.to_string()).join(",");
        let inside = features(&joined(&yard, &[&args[..], &["--window", &words]].concat()));
        let wanted: Vec<Value> = all
            .iter()
            .filter(|chain| meets(&points(&chain["geometry"]), window))
            .cloned()
            .collect();
        assert_eq!(inside, wanted, "{words}");
        sizes.push(inside.len());
    }
    assert_eq!((sizes[1], sizes[3]), (10, 0));
    assert!(sizes.iter().any(|&size| size > 1 && size < 10), "{sizes:?}");
}

#[test]
fn an_extent_is_not_a_shape() {
    let line = feature("LineString", "[[500,0],[510,0],[510,10]]");
    assert_eq!(ids(&joined(&line, &["--window", "500,8,502,9"])), [0]);
    assert_eq!(ids(&joined(&line, &["--window", "500,10.5,502,11"])), [0; 0]);
    // Touching is meeting.
    assert_eq!(ids(&joined(&line, &["--window", "510,10,600,600"])), [0]);
}

#[test]
fn multi_line_strings_are_looked_at_as_a_whole() {
    let parts = feature("MultiLineString", "[[[500,0],[510,0]],[[600,50],[610,60]]]");
    assert_eq!(ids(&joined(&parts, &["--window", "550,20,560,30"])), [0]);
    assert_eq!(ids(&joined(&parts, &["--window", "550,70,560,80"])), [0; 0]);
    assert_eq!(ids(&joined(&parts, &["--explode", "--window", "605,55,700,70"])), [1]);
}

#[test]
fn bridges_and_gaps_go_with_their_chains() {
    let folder = Folder::new("windows");
    let bridges = folder.path("bridges");
    let line =
        |from: f64, to: f64, y: f64| feature("LineString", &format!("[[{from},{y}],[{to},{y}]]"));
    let text = [
        line(500.0, 503.0, 5.0),
        line(507.0, 560.0, 5.0),
        line(500.0, 529.999, 905.0),
        line(530.001, 560.0, 905.0),
    ]
    .join("\n");
    let told = |window: &[&str]| {
        let args = ["join", "-", "-o", "-", "--bridges", &bridges, "--tolerance", "10"];
        let run = run(&[&args, window].concat(), &text);
        assert_eq!(run.status, 0, "{}", run.err);
        let kinds = features(&folder.text("bridges"));
        let kinds: Vec<String> =
            kinds.iter().map(|each| each["properties"]["kind"].to_string()).collect();
        (kinds.concat(), ids(&run.out), run.err)
    };
    assert_eq!(told(&[]).0, "\"gap\"\"gap\"");
    let (kinds, chains, summary) = told(&["--window", "0,900,9000,910"]);
    assert_eq!((&kinds[..], &chains[..]), ("\"gap\"", &[2, 3][..]));
    let row = "   window  2 chains written that meet it, from 0 900 to 9000 910\n";
    assert!(summary.contains(row), "{summary}");
    assert!(!told(&[]).2.contains("   window  "));
}

#[test]
fn the_map_shows_everything_and_the_window() {
    let yard = sample_text("yard.geojson");
    let args = ["join", "-", "-o", "/dev/null", "-q", "--map", "-", "--window", "0,0,1000,700"];
    let svg = run(&args, &yard).out;
    assert_eq!(svg.matches("<title>chain ").count(), features(&joined(&yard, &[])).len());
    assert!(svg.contains("<path class=\"window\" d=\"M"), "{svg}");
    assert!(svg.contains(">the window: "), "{svg}");
    let without = run(&args[..7], &yard).out;
    assert!(!without.contains("class=\"window\""));
}

#[test]
fn windows_that_are_none() {
    for (window, words) in [
        ("1,2,3", "not four numbers with commas between them"),
        ("1,2,3,4,5", "not four numbers"),
        ("1,2,3,NaN", "not four numbers"),
        ("a,b,c,d", "not four numbers"),
        ("5,0,1,1", "its least x and y come first, and one is above the greatest"),
        ("0,5,1,1", "its least x and y come first"),
    ] {
        let refused = run(&["join", "-", "-o", "-", "--window", window], "");
        assert_eq!((refused.status, &refused.out[..]), (2, ""), "{window}");
        assert!(refused.err.contains(words), "{window}: {}", refused.err);
    }
}

/// The positions of the chains that meet a window.
fn inside(chains: &[Chain]) -> Vec<usize> {
    (0..chains.len()).filter(|&k| chains[k].in_window).collect()
}

#[test]
fn batches_find_what_one_call_finds() {
    let mut found = 0;
    for seed in 0..80 {
        let network = network(seed, 150);
        let lines: Vec<Line> = network.lines();
        let from = (seed % 9) as f64 * 4.0;
        let window = Window { least: [from, 6.0], greatest: [from + 9.0, 20.0] };
        let settings = Settings::default().with_tolerance([0.0, 1.0][seed as usize % 2]);
        let told = |capacity| {
            let way = Way { capacity, batch: 8, ..Way::default() };
            join(Dimension::Xy, &lines, (settings, Some(window)), way).unwrap()
        };
        let whole = told(Capacity::default());
        let whole: Vec<Chain> = whole.chains().collect();
        found += inside(&whole).len();
        for lines in [1, 8, 16, 48] {
            let cut = told(Capacity { lines, points: 6 * lines });
            let cut: Vec<Chain> = cut.chains().collect();
            assert_eq!(inside(&cut), inside(&whole), "seed {seed}, {lines} lines");
        }
        for (k, chain) in whole.iter().enumerate() {
            let alone = lines[chain.members[0] as usize].points.unwrap_or_default();
            let points = chain.points.unwrap_or(alone);
            let [x, y] = window.least;
            let [to_x, to_y] = window.greatest;
            assert_eq!(
                chain.in_window,
                meets(points, [x, y, to_x, to_y]),
                "seed {seed}, chain {k}"
            );
        }
    }
    assert!(found > 300, "{found}");
}
