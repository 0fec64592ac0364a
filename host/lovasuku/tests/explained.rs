//! The samples, explained: of every joint of every chain the reason is true by the book, and every joint
//! has one.

mod common;
mod networks;

// The judge of explanations, and the book that it judges by.
#[path = "../../lovasuku-chains/tests/explain/book.rs"]
mod book;

use answers::BuildCall;
use book::Book;
use common::sample_text;
use lovasuku_chains::explain::{Explained, Meeting, Round, Why};
use lovasuku_chains::{Dimension, Refusal, Rooms, Settings};
use lovasuku_command::command::explained;
use lovasuku_command::delivery::{read, Heights, Point, Reading};
use lovasuku_command::joining::{join, Chain, Line};
use lovasuku_command::progress::Progress;
use networks::network;

const READING: Reading = Reading {
    heights: Heights::Kept,
    explode: false,
    drop_empty: false,
    skip_other: false,
    id: None,
};

/// The lines of a sample, with classes by a property.
fn lines_of(name: &str, class: Option<&str>) -> Vec<(Option<Vec<Point>>, u32)> {
    let text = sample_text(name);
    let delivery = read(&text, &READING, &Progress::new(false)).unwrap();
    let mut values: Vec<Option<String>> = Vec::new();
    let mut all = Vec::new();
    for line in delivery.lines() {
        let value = class.and_then(|class| delivery.property(line, class)).map(str::to_owned);
        let group = values.iter().position(|each| *each == value).unwrap_or(values.len());
        if group == values.len() {
            values.push(value);
        }
        let points = delivery.shapes().line(line).map(|(points, _)| points.to_vec());
        all.push((points, group as u32));
    }
    all
}

/// The call of the same lines, for the book.
fn call(lines: &[Line], settings: Settings) -> BuildCall {
    let mut call = BuildCall {
        tolerance: settings.tolerance.to_bits(),
        origin: settings.origin.map(f64::to_bits),
        switch: u8::from(settings.limit.is_some()),
        limit: settings.limit.unwrap_or_default().to_bits(),
        ..BuildCall::default()
    };
    for line in lines {
        let points = line.points.unwrap_or_default().iter();
        let points: Vec<_> = points.map(|point| point.map(f64::to_bits)).collect();
        call.push(&points, line.group, u8::from(line.points.is_none()));
    }
    call
}

/// Explains lines, has the explanation judged, and gives it with the joints of each chain.
fn judged(lines: &[Line], settings: Settings) -> (Explained, Vec<Vec<Meeting>>) {
    let progress = Progress::new(false);
    let joined = join(Dimension::Xy, lines, (settings, None), &progress).unwrap();
    let chains: Vec<Chain> = joined.chains().collect();
    let told = explained(lines, &chains, settings, &progress).unwrap();
    let mut rooms = Rooms::default();
    let whys = told.nodes().iter().map(|node| node.all_whys(&mut rooms, settings.limit));
    let whys: Vec<Vec<Why>> = whys.collect::<Result<_, Refusal>>().unwrap();
    let joints: Vec<_> = (0..chains.len()).map(|chain| told.joints(chain).to_vec()).collect();
    let call = call(lines, settings);
    assert_eq!(Book::of(&call).judge(told.nodes(), &whys, &chains, &joints), Ok(()), "{call}");
    (told, joints)
}

#[test]
fn every_joint_of_the_samples() {
    let exact = Settings::default();
    let bent = |tolerance: f64| exact.with_tolerance(tolerance).with_bend(60.0);
    let wide = exact.with_tolerance(100.0).with_origin([5.0, -3.0]).with_bend(180.0);
    // How many joints each of the two rounds makes.
    let all = [
        ("yard.geojson", None, exact, [3, 0]),
        ("yard.geojson", Some("kind"), bent(2.0), [11, 1]),
        ("yard.geojson", Some("kind"), bent(10.0), [11, 2]),
        ("yard.geojson", None, wide, [12, 3]),
        ("berm.geojsonl", None, exact.with_tolerance(5.0), [1, 0]),
        ("berm.geojsonl", None, exact.with_tolerance(10.0), [1, 1]),
    ];
    for (name, class, settings, wanted) in all {
        let runs = lines_of(name, class);
        let lines: Vec<Line> = runs
            .iter()
            .map(|(points, group)| Line { points: points.as_deref(), extras: &[], group: *group })
            .collect();
        let (told, joints) = judged(&lines, settings);
        let of = |round: Round| {
            let made = |joint: &&Meeting| told.nodes()[joint.node].round == round;
            joints.iter().flatten().filter(made).count()
        };
        assert_eq!([of(Round::Exact), of(Round::Cells)], wanted, "{name} {settings:?}");
    }
}

#[test]
fn every_joint_of_networks_made_by_chance() {
    let limits = [None, Some(-1.0), Some(-0.5), Some(0.0), Some(1.0)];
    let mut joints = 0;
    for seed in 0..300 {
        let tolerance = [0.0, 0.5, 1.0, 2.0][seed as usize % 4];
        let limit = limits[seed as usize % limits.len()];
        let origin = if seed % 7 == 0 { [0.5, -0.25] } else { [0.0; 2] };
        let network = network(seed, 60 + seed as usize % 120);
        let (_, told) = judged(&network.lines(), Settings { tolerance, origin, limit });
        joints += told.concat().len();
    }
    assert!(joints > 5_000, "{joints}");
}
