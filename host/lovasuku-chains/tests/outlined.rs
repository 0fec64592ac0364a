//! Chains that are kept by their lines, and whose coordinates are laid when they are asked for.

use lovasuku_chains::large::{join_lines, Capacity, Joined, Outlined, Rooms, Way};
use lovasuku_chains::{Dimension, LinesBuf, PathLine, Settings, Window, WindowBuf};

/// Lines between few places, zeros of both signs among them, whose extras are all different. Some pass
/// through.
fn tangle(dimension: Dimension, count: u32, seed: u64) -> LinesBuf {
    let mut bits = seed;
    let mut next = |bound: u64| {
        bits = bits.wrapping_mul(6_364_136_223_846_793_005).wrapping_add(1);
        (bits >> 33) % bound
    };
    let mut lines = LinesBuf::of(dimension);
    for line in 0..count {
        let mut place = |k: u64| {
            let [x, y] = [next(11) as f64, next(11) as f64].map(|at| at * 0.5);
            let sign = if next(2) == 0 { 1.0 } else { -1.0 };
            [x * sign, y, f64::from(line), k as f64]
        };
        let places: Vec<[f64; 4]> = (0..2 + u64::from(line % 3)).map(&mut place).collect();
        match line % 17 {
            0 => lines.push_passing(places, 0),
            // A coordinate stands twice.
            1 => lines.push([places[0], places[1], places[1]], 0),
            _ => lines.push(places, line % 2),
        }
    }
    lines
}

fn bits(numbers: &[f64]) -> Vec<u64> {
    numbers.iter().map(|x| x.to_bits()).collect()
}

/// Asserts that what is told of all chains is what the rooms of a delivery hold, by every bit. Gives how many
/// chains there are of several lines, of several pieces one of which is turned, and in the window.
fn assert_same(outlined: &Outlined, joined: &Joined, inside: Option<&[u32]>) -> [usize; 3] {
    let (told, chains) = (outlined.whole(), joined.chains());
    let mut seen = [0; 3];
    assert_eq!((told.len(), outlined.laid()), (chains.len(), joined.laid()));
    for (k, (chain, wanted)) in told.chains().zip(chains.iter()).enumerate() {
        let path: Vec<PathLine> = wanted.path().collect();
        assert_eq!((chain.members, chain.path), (wanted.members(), &path[..]));
        assert_eq!(chain.is_loop, wanted.is_loop());
        let joints = path.windows(2).map(|two| joined.joint(two[0], two[1]));
        assert!(chain.joints.iter().copied().eq(joints));
        let meets = inside.map_or(true, |inside| inside.contains(&(k as u32)));
        assert_eq!((chain.in_window, outlined.is_inside(k)), (meets, meets));
        let width = wanted.dimension().extras();
        let points =
            chain.points.map(|points| points.iter().zip(chain.extras.chunks(width.max(1))));
        assert_eq!(points.is_some(), wanted.is_merged());
        assert_eq!(chain.points.is_some(), outlined.lines(k) > 1);
        if let Some(points) = chain.points {
            let positions = wanted.positions();
            assert!(positions.clone().map(|p| bits(&p[..2])).eq(points.iter().map(|p| bits(p))));
            assert_eq!(
                positions.flat_map(|p| bits(&p[2..])).collect::<Vec<_>>(),
                bits(chain.extras)
            );
        }
        let alone = outlined.told([k]);
        assert_eq!(
            alone.chains().map(|chain| chain.members.to_vec()).collect::<Vec<_>>(),
            [chain.members]
        );
        assert_eq!(outlined.first_line(k), path[0].line);
        let turned = wanted.members() != wanted.listing();
        seen = [
            seen[0] + usize::from(chain.points.is_some()),
            seen[1] + usize::from(turned),
            seen[2] + usize::from(meets),
        ];
    }
    seen
}

#[test]
fn chains_are_laid_as_the_library_laid_them() {
    let window = Window { least: [1.0, 1.0], greatest: [2.0, 2.5] };
    let capacities = [Capacity::default(), Capacity { lines: 9, points: 30 }];
    let mut seen = [0; 3];
    for round in 0..48 {
        let dimension = Dimension::ALL[round % 4];
        let lines = tangle(dimension, [12, 60, 200][round % 3], round as u64);
        let limit = [None, Some(-0.25)][round / 4 % 2];
        let asked = [None, Some(window)][round / 8 % 2];
        let way = Way {
            capacity: capacities[round / 2 % 2],
            neighbours: round % 5 < 2,
            ..Way::default()
        };
        for tolerances in [&[0.0][..], &[0.75], &[0.0, 0.6, 1.5], &[0.6, 0.0]] {
            let settings = Settings { limit, ..Settings::default() };
            let zooms = join_lines(lines.lines(), (settings, asked), tolerances, way).unwrap();
            assert_eq!(zooms.len(), tolerances.len());
            for (outlined, &tolerance) in zooms.iter().zip(tolerances) {
                let mut rooms = Rooms::default();
                let way = Way { boxes: true, ..way };
                let settings = settings.with_tolerance(tolerance);
                let joined = rooms.build_by(lines.lines(), settings, way).unwrap();
                let mut found = WindowBuf::default();
                let inside =
                    asked.map(|window| joined.chains().window(window, &mut found).unwrap());
                let inside = inside.map(|inside| inside.positions().to_vec());
                let counts = assert_same(outlined, &joined, inside.as_deref());
                (0..3).for_each(|k| seen[k] += counts[k]);
            }
        }
    }
    assert!(seen.iter().all(|&count| count > 200), "{seen:?}");
}

#[test]
fn the_window_of_what_the_library_was_not_given() {
    let lines = tangle(Dimension::Xy, 20, 3);
    let window = Window { least: [1.0, 1.0], greatest: [2.0, 2.5] };
    for asked in [None, Some(window)] {
        let settings = (Settings::default(), asked);
        let mut zooms = join_lines(lines.lines(), settings, &[0.0], Way::default()).unwrap();
        let before = zooms[0].is_inside(1);
        zooms[0].set_inside(1, !before);
        assert_eq!(zooms[0].is_inside(1), before == asked.is_none());
    }
}
