//! The nearest of many points against a look at all of them.

use lovasuku_chains::Nearest;

/// Whole numbers below a bound, from a seed.
struct Chance(u64);

impl Chance {
    fn below(&mut self, bound: u64) -> f64 {
        self.0 =
            self.0.wrapping_mul(6_364_136_223_846_793_005).wrapping_add(1_442_695_040_888_963_407);
        ((self.0 >> 33) % bound) as f64
    }
}

#[test]
fn the_same_as_by_a_look_at_all() {
    let mut found = 0;
    for seed in 0..300 {
        let mut chance = Chance(seed);
        let side = 3 + seed % 60;
        let points: Vec<[f64; 2]> =
            (0..seed % 97).map(|_| [chance.below(side), chance.below(side)]).collect();
        let nearest = Nearest::of(&points);
        for _ in 0..50 {
            let from = [chance.below(side) + 0.25, chance.below(side)];
            let (most, kind) = (chance.below(12), chance.below(3) as usize);
            let wanted = |k: usize| k % 3 != kind;
            let distance = |k: &usize| (points[*k][0] - from[0]).hypot(points[*k][1] - from[1]);
            let all = (0..points.len()).filter(|&k| wanted(k)).filter(|k| distance(k) < most);
            let least = all.min_by(|a, b| distance(a).total_cmp(&distance(b)).then(a.cmp(b)));
            assert_eq!(nearest.within(from, most, wanted), least, "seed {seed}");
            found += usize::from(least.is_some());
        }
    }
    assert!(found > 5_000, "{found}");
}

#[test]
fn numbers_that_are_none_are_never_near() {
    let odd = [[f64::NAN, 0.0], [f64::INFINITY, f64::NEG_INFINITY], [1.0, 0.0]];
    let nearest = Nearest::of(&odd);
    assert_eq!(nearest.within([0.0, 0.0], 2.0, |_| true), Some(2));
    assert_eq!(nearest.within([f64::NAN, 0.0], f64::INFINITY, |_| true), None);
    assert_eq!(nearest.within([0.0, 0.0], f64::NAN, |_| true), None);
}
