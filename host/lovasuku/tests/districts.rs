//! The second district: its lines are never joined with the others', and neither's chains depend on what
//! the other brings.

mod common;

use common::{features, joined, members, run};

/// A line from one place to another with properties.
fn line(from: [i32; 2], to: [i32; 2], properties: &str) -> String {
    format!(
        r#"{{"type":"Feature","properties":{{{properties}}},"geometry":{{"type":"LineString","coordinates":[{from:?},{to:?}]}}}}"#
    )
}

/// Four lines of a road, of which the second and the third are of another municipality.
fn road() -> String {
    let of = [r#""m":"A""#, r#""m":"K\u00f6r","n":7"#, r#""m":"K\u00f6r","n":7"#, r#""m":"A""#];
    (0..4).map(|x| line([x, 0], [x + 1, 0], of[x as usize])).collect::<Vec<_>>().join("\n")
}

#[test]
fn lines_of_two_districts_are_never_joined() {
    assert_eq!(members(&joined(&road(), &[])), ["[0,1,2,3]"]);
    // By a text, with its quotes as it is written too, and by a number.
    for district in ["m=Kör", r#"m="K\u00f6r""#, "n=7"] {
        let args = ["--district", district];
        assert_eq!(members(&joined(&road(), &args)), ["[0]", "[1,2]", "[3]"], "{district}");
        // Within a cell, which has ends of both, each district's own meet.
        let cells = ["--tolerance", "3", "--origin", "1,0"];
        let coarse = joined(&road(), &[&args[..], &cells].concat());
        assert_eq!(members(&coarse), ["[0,3]", "[1,2]"], "{district}");
    }
    let classes = joined(&road(), &["--district", "m=A", "--class", "m"]);
    assert_eq!(members(&classes), ["[0]", "[1,2]", "[3]"]);
}

#[test]
fn a_district_s_chains_do_not_depend_on_the_other() {
    let first: Vec<String> = (0..40).map(|x| line([x, 0], [x + 1, 0], "\"d\":1")).collect();
    let args = ["--district", "d=2", "--bend", "90", "--keep", "shared"];
    let of_first = |text: &str| -> Vec<String> {
        let own = |chain: &serde_json::Value| chain["properties"]["d"] == 1;
        let chains = features(text).into_iter().filter(own);
        chains.map(|chain| chain["geometry"].to_string()).collect()
    };
    let wanted = of_first(&joined(&first.join("\n"), &["--bend", "90"]));
    assert_eq!(wanted.len(), 1);
    for step in [1, 3] {
        let mut mixed = Vec::new();
        for (x, own) in (0..).zip(&first) {
            mixed.extend((0..x % (1 + step)).map(|y| line([x, 0], [x, y + 1], "\"d\":2")));
            mixed.push(own.clone());
        }
        assert_eq!(of_first(&joined(&mixed.join("\n"), &args)), wanted);
    }
}

#[test]
fn districts_may_be_of_any_size() {
    let road = |y: i32, lines: i32, d: i32| {
        let of = format!("\"d\":{d}");
        (0..lines).map(move |x| line([x, y], [x + 1, y], &of)).collect::<Vec<_>>()
    };
    for second in [2_048, 2_049, 5_000] {
        let both = [road(0, 2_048, 1), road(0, second, 2)].concat().join("\n");
        let chains = features(&joined(&both, &["--district", "d=2"]));
        let counts: Vec<_> = chains.iter().map(|chain| &chain["properties"]["count"]).collect();
        assert_eq!(counts, [2_048, second]);
    }
}

#[test]
fn what_is_told_of_a_district() {
    let run = run(&["join", "-", "-o", "-", "--district", "n=7"], &road());
    assert_eq!(run.status, 0);
    assert!(run.err.contains("lines  4, 2 of the second district by \"n=7\"\n"), "{}", run.err);
    let none = common::run(&["join", "-", "-o", "-", "--district", "n=8"], &road());
    let wanted =
        "lovasuku: standard input: no feature has a property \"n\" of value \"8\" for --district\n";
    assert_eq!((none.status, &none.out[..], &none.err[..]), (1, "", wanted));
    for wrong in ["n", "=7", ""] {
        let run = common::run(&["join", "-", "-o", "-", "--district", wrong], &road());
        assert_eq!(run.status, 2);
        assert!(run.err.contains("not a property and a value with = between them"), "{}", run.err);
    }
}
