//! Chains that were made elsewhere: what is accepted, and what is told of those that are not.

mod common;

use common::{joined, run, sample_text, Folder, Run};
use serde_json::{json, Value};
use std::fs;

/// Lines by their ids and positions, with a property each.
fn lines(all: &[(&str, &str, Value)]) -> String {
    let line = |(id, kind, positions): &(&str, &str, Value)| {
        json!({"type": "Feature", "id": id, "properties": {"kind": kind},
            "geometry": {"type": "LineString", "coordinates": positions}})
        .to_string()
    };
    all.iter().map(line).collect::<Vec<_>>().join("\n")
}

/// Chains by the lines that they list, and their positions.
fn chains(all: &[(Value, Value)]) -> String {
    let chain = |(path, positions): &(Value, Value)| {
        json!({"type": "Feature", "properties": {"path": path},
            "geometry": {"type": "LineString", "coordinates": positions}})
        .to_string()
    };
    all.iter().map(chain).collect::<Vec<_>>().join("\n")
}

/// Checks chains of lines, both given as texts.
fn check(chains: &str, lines: &str, args: &[&str]) -> Run {
    let folder = Folder::new("checks");
    let of = folder.path("lines.geojson");
    fs::write(&of, lines).unwrap();
    let mut run = run(&[&["check", "-", "--of", &of], args].concat(), chains);
    run.out = run.out.replace(&of, "lines.geojson");
    run.err = run.err.replace(&of, "lines.geojson");
    run
}

/// What is told of chains that are not accepted.
fn told(chains: &str, lines: &str, args: &[&str]) -> String {
    let Run { status, out, err } = check(chains, lines, args);
    assert_eq!((status, &err[..]), (1, ""), "{out}");
    let told = out.strip_prefix("not accepted: ").unwrap_or_else(|| panic!("{out}"));
    told.trim_end().to_owned()
}

/// Three roads, the second drawn toward the first, with a gap before the third.
fn roads() -> String {
    lines(&[
        ("a", "road", json!([[0, 500], [1.25, 500]])),
        ("b", "road", json!([[3.5, 500], [1.75, 500]])),
        ("c", "track", json!([[3.5, 500], [4.5, 500]])),
    ])
}

#[test]
fn what_join_makes_is_accepted() {
    let yard = sample_text("yard.geojson");
    for args in [
        &[][..],
        &["--tolerance", "2"],
        &["--tolerance", "10", "--origin", "3.5,-1", "--class", "kind"],
    ] {
        for more in [&["--bend", "60"][..], &["--offset", "1000", "--keep", "list"], &[]] {
            let chains = joined(&yard, &[args, more].concat());
            let run = check(&chains, &yard, args);
            assert_eq!((run.status, &run.err[..]), (0, ""), "{}", run.out);
            assert!(
                run.out.starts_with("accepted: ") && run.out.contains(" of 23 lines"),
                "{run:?}"
            );
        }
    }
    // Another tolerance than it was made with.
    let chains = joined(&yard, &["--tolerance", "10"]);
    let told = told(&chains, &yard, &["--tolerance", "2"]);
    assert!(told.contains("which is listed before it; their nearest ends are "), "{told}");
}

#[test]
fn chains_in_any_directions_and_pieces() {
    let whole = json!([[4.5, 500], [3.5, 500], [1.75, 500], [1.25, 500], [0, 500]]);
    let all = chains(&[(json!(["c", "b", "a"]), whole.clone())]);
    let run = check(&all, &roads(), &["--tolerance", "1"]);
    assert_eq!((run.status, &run.out[..]), (0, "accepted: 1 chain of 3 lines, tolerance 1\n"));
    let apart = "chain 0, line \"a\": it does not meet line \"b\", which is listed before it; \
                 their nearest ends are 0.5 units apart";
    assert_eq!(told(&all, &roads(), &[]), apart);
    let class =
        "chain 0, line \"b\": it is of class \"road\", and line \"c\", which the chain begins \
                 with, of class \"track\"";
    assert_eq!(told(&all, &roads(), &["--tolerance", "1", "--class", "kind"]), class);
    let two = chains(&[
        (json!(["a"]), json!([[0, 500], [1.25, 500]])),
        (
            json!([{"line": "b", "turned": false}, {"line": "c"}]),
            json!([[1.75, 500], [3.5, 500], [4.5, 500]]),
        ),
    ]);
    assert_eq!(check(&two, &roads(), &[]).status, 0);
    let members = chains(&[
        (json!(["a"]), json!([[0, 500], [1.25, 500]])),
        (json!(["c", "b"]), json!([[1.75, 500], [3.5, 500], [4.5, 500]])),
    ]);
    let other =
        "chain 1, line \"c\": position 0 of the chain, 1.75 500, is not the line's, whichever \
                 way it is travelled";
    assert_eq!(told(&members, &roads(), &[]), other);
}

#[test]
fn what_is_wrong_is_told_with_its_place() {
    let [a, b, c] = [
        (json!(["a"]), json!([[0, 500], [1.25, 500]])),
        (json!(["b"]), json!([[3.5, 500], [1.75, 500]])),
        (json!(["c"]), json!([[3.5, 500], [4.5, 500]])),
    ];
    let of = |all: &[&(Value, Value)]| {
        told(&chains(&all.iter().map(|&each| each.clone()).collect::<Vec<_>>()), &roads(), &[])
    };
    assert_eq!(of(&[&a, &c]), "line \"b\": it stands in no chain");
    assert_eq!(of(&[&a, &b, &c, &b]), "chain 3, line \"b\": it stands in chain 1 already");
    let turned = (json!(["b"]), json!([[1.75, 500], [3.5, 500]]));
    let sentence =
        "chain 1, line \"b\": it stands alone, and position 0 of the chain, 1.75 500, is \
                    not its own, bit for bit";
    assert_eq!(of(&[&a, &turned, &c]), sentence);
    let short = (json!(["b"]), json!([[3.5, 500]]));
    let sentence =
        "chain 1, line \"b\": it stands alone, and the chain has only 1 of its positions";
    assert_eq!(of(&[&a, &short, &c]), sentence);
    let both = |positions: Value| of(&[&a, &(json!(["b", "c"]), positions)]);
    let longer = "chain 1: from position 3 on, 9 500, it is longer than its lines laid end to end";
    assert_eq!(both(json!([[1.75, 500], [3.5, 500], [4.5, 500], [9, 500]])), longer);
    let early = "chain 1, line \"c\": the chain ends after 2 positions, before the line does";
    assert_eq!(both(json!([[1.75, 500], [3.5, 500]])), early);
    let kept =
        "chain 1, line \"c\": position 2 of the chain, 3.5 500, is not the line's, whichever way \
                it is travelled";
    assert_eq!(both(json!([[1.75, 500], [3.5, 500], [3.5, 500], [4.5, 500]])), kept);
    let none = (json!([]), json!([[1, 1]]));
    assert_eq!(of(&[&a, &b, &c, &none]), "chain 3: it has positions, and lists no line");
    let unknown = (json!(["d"]), json!([[1, 1]]));
    assert_eq!(of(&[&unknown, &a]), "chain 0: it lists \"d\", which is no line of lines.geojson");
    let back = (json!(["b", "b"]), json!([[1.75, 500], [3.5, 500], [1.75, 500]]));
    assert_eq!(of(&[&a, &back]), "chain 1, line \"b\": it stands in this chain twice");
}

#[test]
fn positions_name_lines_without_ids_and_a_property_may() {
    let feature = |ref_: i32, positions: Value| {
        json!({"type": "Feature", "properties": {"ref": ref_},
            "geometry": {"type": "LineString", "coordinates": positions}})
        .to_string()
    };
    let roads =
        [feature(70, json!([[0, 500], [1, 500]])), feature(80, json!([[1, 500], [2, 500]]))];
    let whole = json!([[0, 500], [1, 500], [2, 500]]);
    let of = |path: Value| chains(&[(path, whole.clone())]);
    assert_eq!(check(&of(json!([0, 1])), &roads.join("\n"), &[]).status, 0);
    assert_eq!(check(&of(json!([70, 80])), &roads.join("\n"), &["--id", "ref"]).status, 0);
    let told = told(&of(json!([70, 80])), &roads.join("\n"), &[]);
    assert_eq!(told, "chain 0: it lists 70, which is no line of lines.geojson");
    let other = of(json!([0, 1])).replace("\"path\"", "\"parts_of\"");
    assert_eq!(check(&other, &roads.join("\n"), &["--path", "parts_of"]).status, 0);
}

#[test]
fn heights_are_looked_at_in_lines_that_stand_alone() {
    let roads = lines(&[
        ("a", "", json!([[0, 500, 7], [1, 500]])),
        ("b", "", json!([[1, 500, 8], [2, 500, 9]])),
        ("c", "", json!([[5, 500, 1], [6, 500]])),
    ]);
    let of = |height: Value| {
        chains(&[
            (json!(["a", "b"]), json!([[0, 500], [1, 500, 99], [2, 500]])),
            (json!(["c"]), json!([[5, 500, 1], height])),
        ])
    };
    assert_eq!(check(&of(json!([6, 500])), &roads, &[]).status, 0);
    let touched =
        "chain 1, line \"c\": it stands alone, and position 1 of the chain, 6 500 0, is not \
                   its own, bit for bit";
    assert_eq!(told(&of(json!([6, 500, 0])), &roads, &[]), touched);
    assert_eq!(check(&of(json!([6, 500, 0])), &roads, &["--drop-heights"]).status, 0);
    // The sign of a zero is a bit of a lone line, and none of joined ones.
    let zeros =
        lines(&[("a", "", json!([[-0.0, 500], [1, 500]])), ("b", "", json!([[1, 500], [2, 500]]))]);
    let joined = chains(&[(json!(["a", "b"]), json!([[0, 500], [1, 500], [2, 500]]))]);
    assert_eq!(check(&joined, &zeros, &[]).status, 0);
    let alone = chains(&[
        (json!(["a"]), json!([[0, 500], [1, 500]])),
        (json!(["b"]), json!([[1, 500], [2, 500]])),
    ]);
    assert!(told(&alone, &zeros, &[]).starts_with("chain 0, line \"a\": it stands alone, "));
}

#[test]
fn multi_line_strings_pass_through_or_are_taken_apart() {
    let multi = json!({"type": "Feature", "id": 1, "geometry": {"type": "MultiLineString",
        "coordinates": [[[0, 500], [1, 500]], [[1, 500], [2, 500]]]}})
    .to_string();
    let line = json!({"type": "Feature", "id": 2, "geometry": {"type": "LineString",
        "coordinates": [[2, 500], [3, 500]]}})
    .to_string();
    let both = format!("{multi}\n{line}");
    let passed = joined(&both, &[]);
    assert_eq!(check(&passed, &both, &[]).status, 0);
    let exploded = joined(&both, &["--explode"]);
    assert_eq!(check(&exploded, &both, &["--explode"]).status, 0);
    assert!(
        told(&exploded, &both, &[]).starts_with("chain 0: it lists part 1 of 1, which is no line")
    );
    let other =
        "chain 0, line 1: it stands alone, and the chain's geometry is of another kind or has \
                 other parts";
    let alone = (json!([2]), json!([[2, 500], [3, 500]]));
    let one =
        chains(&[(json!([1]), json!([[0, 500], [1, 500], [1, 500], [2, 500]])), alone.clone()]);
    assert_eq!(told(&one, &both, &[]), other);
    let with = chains(&[(json!([1, 2]), json!([[0, 500], [1, 500], [2, 500], [3, 500]]))]);
    let passing =
        "chain 0, line 1: it is a MultiLineString, which passes through, and does not stand \
                   alone";
    assert_eq!(told(&with, &both, &[]), passing);
    let parts = joined(&both, &[])
        .replace("[[[0.0,500.0],[1.0,500.0]],[[1.0", "[[[0.0,500.0]],[[1.0,500.0],[1.0");
    assert_eq!(told(&parts, &both, &[]), other.replace("chain 0", "chain 1"));
}

#[test]
fn files_at_fault() {
    let lines = roads();
    for (chains, args, wanted) in [
        ("{", &[][..], "lovasuku: standard input: feature 0: bad JSON"),
        (&lines, &[], "lovasuku: standard input: feature 0 (id \"a\", line 1): it has no property \"path\""),
        (
            &chains(&[(json!("a"), json!([[0, 0]]))]),
            &[],
            "lovasuku: standard input: feature 0 (line 1): its property \"path\" is not a list of names",
        ),
        (&lines, &["--class", "colour"], "lovasuku: lines.geojson: no feature has a property \"colour\""),
    ] {
        let run = check(chains, &lines, args);
        assert_eq!((run.status, &run.out[..]), (2, ""), "{}", run.err);
        assert!(run.err.starts_with(wanted), "{}", run.err);
    }
    let none = run(&["check", "-", "--of", "/nowhere/lines.geojson"], "");
    assert_eq!((none.status, &none.out[..]), (2, ""));
    assert!(
        none.err.starts_with("lovasuku: /nowhere/lines.geojson: it cannot be read"),
        "{}",
        none.err
    );
    let both = run(&["check", "-", "--of", "-"], "");
    assert_eq!(both.status, 2);
    assert!(both.err.contains("cannot both be the standard input"), "{}", both.err);
    let empty = check("", &lines, &[]);
    assert_eq!(
        (empty.status, &empty.err[..]),
        (2, "lovasuku: standard input: the input is empty\n")
    );
    let quiet = check(r#"{"type":"FeatureCollection","features":[]}"#, &lines, &["-q"]);
    assert_eq!((quiet.status, &quiet.out[..], &quiet.err[..]), (1, "", ""));
}

/// More lines than a call holds, checked in batches.
#[test]
fn many_lines() {
    let mut text = String::new();
    for k in 0..9_000 {
        let (x, y) = (k / 90, 500 + k % 90);
        let ends = if k % 4 == 0 { [[x + 1, y], [x, y]] } else { [[x, y], [x + 1, y]] };
        text += &lines(&[(&k.to_string(), "", json!(ends))]);
        text.push('\n');
    }
    let chains = joined(&text, &[]);
    let run = check(&chains, &text, &[]);
    assert_eq!(
        (run.status, &run.out[..]),
        (0, "accepted: 90 chains of 9,000 lines, tolerance 0\n")
    );
    let twice = chains.replacen("{\"line\":\"8999\"", "{\"line\":\"0\"", 1);
    let told = told(&twice, &text, &[]);
    assert!(told.starts_with("chain 89, line \"0\": it stands in chain 0 already"), "{told}");
}

/// A chain of more lines than a call holds is judged by the command's own search, which the verdict tells.
#[test]
fn a_chain_that_no_call_holds() {
    let line = |k: usize| (k.to_string(), json!([[k, 500], [k + 1, 500]]));
    let all: Vec<(String, Value)> = (0..2_500).map(line).collect();
    let text: Vec<String> = all.iter().map(|(id, line)| lines(&[(id, "", line.clone())])).collect();
    let (text, ids) = (text.join("\n"), all.iter().map(|(id, _)| id.clone()));
    let path: Vec<String> = ids.collect();
    let positions = |last: usize| json!((0..=last).map(|k| [k, 500]).collect::<Vec<_>>());
    let whole = chains(&[(json!(path), positions(2_500))]);
    let run = check(&whole, &text, &[]);
    let told =
        "accepted: 1 chain of 2,500 lines, tolerance 0; 1 chain of more lines or positions than a \
                call holds, judged without one\n";
    assert_eq!((run.status, &run.out[..]), (0, told));
    let short = chains(&[(json!(path), positions(2_499))]);
    let ends = "chain 0, line \"2499\": the chain ends after 2500 positions, before the line does";
    assert_eq!(self::told(&short, &text, &[]), ends);
}

#[test]
fn the_manual_and_the_help_have_the_same_options() {
    let page = run(&["manual", "check"], "").out;
    let help = run(&["check", "--help"], "").out;
    assert!(page.contains(".TH LOVASUKU-CHECK 1") && page.contains(".SH MEETING"), "{page}");
    for option in
        ["--of", "--tolerance", "--origin", "--class", "--district", "--path", "--explode", "--id"]
    {
        assert!(help.contains(option) && page.contains(&option.replace('-', "\\-")), "{option}");
    }
    for none in ["--limit", "--bend", "--output", "--map"] {
        assert!(!help.contains(none), "{none}: {help}");
    }
}
