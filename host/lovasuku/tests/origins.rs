//! Origins: where cells are counted from, what that joins, and what is told and drawn of it.

mod common;

use common::{feature, joined, members, run, sample_text, Folder};

/// Two lines along x, the first from 470 to 509.999 and the second from 510.001 to 540, moved by a
/// distance.
fn two(by: f64) -> String {
    let line = |from: f64, to: f64| {
        feature("LineString", &format!("[[{:?},505],[{:?},505]]", from + by, to + by))
    };
    [line(470.0, 509.999), line(510.001, 540.0)].join("\n")
}

fn chains(by: f64, args: &[&str]) -> usize {
    members(&joined(&two(by), args)).len()
}

#[test]
fn an_origin_moves_the_grid() {
    assert_eq!(chains(0.0, &["--tolerance", "10"]), 2);
    assert_eq!(chains(0.0, &["--tolerance", "10", "--origin", "0,0"]), 2);
    assert_eq!(chains(0.0, &["--tolerance", "10", "--origin", "5,0"]), 1);
    assert_eq!(chains(0.0, &["--tolerance", "10", "--origin", "-5,0"]), 1);
    assert_eq!(chains(0.0, &["--tolerance", "10", "--origin=-5,-1e300"]), 1);
    // By y alone both ends stay in their columns.
    assert_eq!(chains(0.0, &["--tolerance", "10", "--origin", "0,5"]), 2);
    // Without a tolerance there are no cells.
    assert_eq!(chains(0.0, &["--origin", "5,0"]), 2);
}

#[test]
fn tiles_that_name_one_corner_have_the_same_chains() {
    let mut own = Vec::new();
    for by in 0..20 {
        let corner = format!("{by},0");
        let args = ["--tolerance", "10", "--origin", &corner];
        assert_eq!(chains(f64::from(by), &args), 2, "moved by {by}");
        own.push(chains(f64::from(by), &["--tolerance", "10"]));
    }
    // Each from its own zero, they have not.
    assert!(own.contains(&1) && own.contains(&2), "{own:?}");
}

#[test]
fn a_gap_is_told_by_the_cells_of_the_origin() {
    let folder = Folder::new("origins");
    let bridges = folder.path("bridges");
    let told = |origin: &str| {
        let args = ["join", "-", "-o", "-", "--bridges", &bridges, "--tolerance", "10"];
        let run = run(&[&args[..], &["--origin", origin]].concat(), &two(0.0));
        assert_eq!(run.status, 0, "{}", run.err);
        (run.err, folder.text("bridges"))
    };
    let (summary, bridges) = told("0,3");
    assert!(bridges.contains(r#""kind":"gap""#) && bridges.contains(r#""why":"cells""#));
    assert!(summary.contains("\n    cells  of side 10, counted from 0 3\n"), "{summary}");
    let (summary, bridges) = told("2.5,0");
    assert!(bridges.contains(r#""kind":"bridge""#), "{bridges}");
    assert!(summary.contains("\n    cells  of side 10, counted from 2.5 0\n"), "{summary}");
    let (summary, _) = told("-0.0,0");
    assert!(!summary.contains("    cells  "), "{summary}");
}

/// The map of a text.
fn map(text: &str, args: &[&str]) -> String {
    let run = run(&[&["join", "-", "-o", "/dev/null", "-q", "--map", "-"], args].concat(), text);
    assert_eq!(run.status, 0, "{}", run.err);
    run.out
}

/// Where the lines of the grid run, by x and by y.
fn grid(svg: &str) -> [Vec<f64>; 2] {
    let path = svg.lines().find(|line| line.starts_with("<path class=\"cells\""));
    let way = path.and_then(|path| path.split(" d=\"").nth(1)).expect("there is a grid");
    let mut grid = [vec![], vec![]];
    for line in way.trim_end_matches("\"/>").split('M').skip(1) {
        let numbers: Vec<&str> = line.split([' ', 'v', 'h']).collect();
        match line.contains('v') {
            true => grid[0].push(numbers[0].parse().unwrap()),
            false => grid[1].push(numbers[1].parse().unwrap()),
        }
    }
    grid
}

#[test]
fn the_map_has_the_grid() {
    // 80 units over 736 pixels: a cell has 92, and the middle, 540, is at 432.
    let text = feature("LineString", "[[500,505],[580,505]]");
    let [columns, rows] = grid(&map(&text, &["--tolerance", "10"]));
    assert_eq!(columns, [64.0, 156.0, 248.0, 340.0, 432.0, 524.0, 616.0, 708.0, 800.0]);
    // 505 is in the middle of the frame, at 324, and halfway between two lines.
    assert_eq!(rows, [94.0, 186.0, 278.0, 370.0, 462.0, 554.0]);
    let [columns, rows] = grid(&map(&text, &["--tolerance", "10", "--origin", "2.5,-3"]));
    assert_eq!(columns[..2], [87.0, 179.0]);
    // South is below: 3 units less are 27.6 pixels more, and those before them come into the frame.
    assert_eq!(rows[..2], [121.6, 213.6]);
    let words = ">1 line joined into 1 chain · tolerance 10 from 2.5 -3 · junctions not paired<";
    assert!(map(&text, &["--tolerance", "10", "--origin", "2.5,-3"]).contains(words));
    assert!(map(&text, &["--tolerance", "10"]).contains(">cells of the tolerance, 10 units</text>"));
}

#[test]
fn no_grid_without_cells_that_can_be_seen() {
    let text = feature("LineString", "[[500,505],[580,505]]");
    for args in [&[][..], &["--origin", "5,5"], &["--tolerance", "0.3"], &["--tolerance", "1e-300"]]
    {
        let svg = map(&text, args);
        assert!(!svg.contains("<path class=\"cells\""), "{args:?}: {svg}");
    }
    // Neither a far origin nor a large cell comes in the way.
    for args in [
        ["--tolerance", "10", "--origin", "1e300,-1e300"],
        ["--tolerance", "1e300", "--origin", "1,1"],
    ] {
        assert!(map(&text, &args).ends_with("</svg>\n"));
    }
}

#[test]
fn the_yard_from_any_corner_has_every_line() {
    let yard = sample_text("yard.geojson");
    let lines = |text: &str| -> usize {
        members(text).iter().map(|members| members.matches('"').count() / 2).sum()
    };
    for origin in ["0,0", "3.3,7", "-1e6,0.1", "1e15,-1e15"] {
        assert_eq!(lines(&joined(&yard, &["--tolerance", "10", "--origin", origin])), 23);
    }
}
