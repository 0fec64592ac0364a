//! What contractors do to chains. Some of it is acceptable, and some is not.

use super::{laid, Made};
use crate::call::BuildCall;
use crate::random::Random;

/// A named variant of chains. It tells whether it found a chain to vary.
pub type Variant =
    (&'static str, fn(random: &mut Random, lines: &mut BuildCall, chains: &mut Vec<Made>) -> bool);

/// All variants.
pub const VARIANTS: [Variant; 20] = [
    ("reversed", reversed),
    ("cut", cut),
    ("joined", joined),
    ("a line the other way", other_way),
    ("lines exchanged", exchanged),
    ("laid another way", laid_another_way),
    ("a bit changed", a_bit_changed),
    ("a zero's sign", a_zeros_sign),
    ("repeats kept", repeats_kept),
    ("repeats dropped in a lone line", lone_repeats_dropped),
    ("extras changed", extras_changed),
    ("a coordinate more", a_coordinate_more),
    ("a coordinate less", a_coordinate_less),
    ("a line left out", line_left_out),
    ("a line twice", line_twice),
    ("there and back", there_and_back),
    ("another group", another_group),
    ("a line that passes", a_passing_line),
    ("a chain left out", chain_left_out),
    ("a chain of no lines", chain_of_no_lines),
];

/// Some chain of at least so many lines.
fn some(random: &mut Random, chains: &[Made], lines: usize) -> Option<usize> {
    let enough = |&k: &usize| chains[k].listing.len() >= lines;
    let all: Vec<usize> = (0..chains.len()).filter(enough).collect();
    (!all.is_empty()).then(|| random.pick(&all))
}

/// Some chain of at least one coordinate, with the number of these.
fn some_points(random: &mut Random, lines: &BuildCall, chains: &[Made]) -> Option<(usize, usize)> {
    let chain = some(random, chains, 0)?;
    let points = chains[chain].numbers.len() / lines.stride();
    (points > 0).then_some((chain, points))
}

/// A chain of several lines the other way round.
fn reversed(random: &mut Random, lines: &mut BuildCall, chains: &mut Vec<Made>) -> bool {
    some(random, chains, 1).map_or(false, |chain| {
        let chain = &mut chains[chain];
        chain.listing.reverse();
        chain.turned.reverse();
        chain.turned.iter_mut().for_each(|turned| *turned = !*turned);
        chain.numbers = chain.numbers.chunks(lines.stride()).rev().flatten().copied().collect();
        true
    })
}

/// A chain in two.
fn cut(random: &mut Random, lines: &mut BuildCall, chains: &mut Vec<Made>) -> bool {
    some(random, chains, 2).map_or(false, |chain| {
        let Made { mut listing, mut turned, .. } = chains[chain].clone();
        let at = 1 + random.below(listing.len() - 1);
        let behind = Made::of(lines, listing.split_off(at), turned.split_off(at));
        chains[chain] = Made::of(lines, listing, turned);
        chains.push(behind);
        true
    })
}

/// Two chains in one, whether they meet or not.
fn joined(random: &mut Random, lines: &mut BuildCall, chains: &mut Vec<Made>) -> bool {
    if chains.len() < 2 {
        return false;
    }
    let mut one = chains.swap_remove(random.below(chains.len()));
    let other = random.below(chains.len());
    one.listing.extend(&chains[other].listing);
    one.turned.extend(&chains[other].turned);
    chains[other] = Made::of(lines, one.listing, one.turned);
    true
}

/// A line travelled the other way, with the chain's coordinates laid again.
fn other_way(random: &mut Random, lines: &mut BuildCall, chains: &mut Vec<Made>) -> bool {
    some(random, chains, 1).map_or(false, |chain| {
        let Made { listing, mut turned, .. } = chains[chain].clone();
        let at = random.below(turned.len());
        turned[at] = !turned[at];
        chains[chain] = Made::of(lines, listing, turned);
        true
    })
}

/// Two lines that follow each other exchanged in the listing, as members may be.
fn exchanged(random: &mut Random, _: &mut BuildCall, chains: &mut Vec<Made>) -> bool {
    some(random, chains, 2).map_or(false, |chain| {
        let listing = &mut chains[chain].listing;
        let at = random.below(listing.len() - 1);
        listing.swap(at, at + 1);
        true
    })
}

/// The coordinates of the lines in other directions.
fn laid_another_way(random: &mut Random, lines: &mut BuildCall, chains: &mut Vec<Made>) -> bool {
    some(random, chains, 2).map_or(false, |chain| {
        let chain = &mut chains[chain];
        let turned: Vec<bool> = chain.turned.iter().map(|_| random.one_in(2)).collect();
        chain.numbers = laid(lines, &chain.listing, &turned, true);
        true
    })
}

/// A bit of a coordinate, or of an extra.
fn a_bit_changed(random: &mut Random, _: &mut BuildCall, chains: &mut Vec<Made>) -> bool {
    some(random, chains, 0).map_or(false, |chain| {
        let numbers = &mut chains[chain].numbers;
        let place = random.below(numbers.len().max(1));
        numbers.iter_mut().skip(place).take(1).for_each(|number| *number ^= 1 << random.below(64));
        true
    })
}

/// The sign of a zero.
fn a_zeros_sign(random: &mut Random, _: &mut BuildCall, chains: &mut Vec<Made>) -> bool {
    let zeros: Vec<(usize, usize)> = (0..chains.len())
        .flat_map(|chain| (0..chains[chain].numbers.len()).map(move |place| (chain, place)))
        .filter(|&(chain, place)| chains[chain].numbers[place] << 1 == 0)
        .collect();
    if zeros.is_empty() {
        return false;
    }
    let (chain, place) = random.pick(&zeros);
    chains[chain].numbers[place] ^= 1 << 63;
    true
}

/// Repeats that should have been dropped.
fn repeats_kept(random: &mut Random, lines: &mut BuildCall, chains: &mut Vec<Made>) -> bool {
    some(random, chains, 2).map_or(false, |chain| {
        let chain = &mut chains[chain];
        chain.numbers = laid(lines, &chain.listing, &chain.turned, false);
        true
    })
}

/// Repeats dropped in a line that stands alone.
fn lone_repeats_dropped(_: &mut Random, lines: &mut BuildCall, chains: &mut Vec<Made>) -> bool {
    let dropped = |chain: &Made| laid(lines, &chain.listing, &[false], true);
    let has = |chain: &&mut Made| chain.listing.len() == 1 && dropped(chain) != chain.numbers;
    chains.iter_mut().find(has).map_or(false, |chain| {
        chain.numbers = dropped(chain);
        true
    })
}

/// A height or a measure, of a lone line or of joined ones.
fn extras_changed(random: &mut Random, lines: &mut BuildCall, chains: &mut Vec<Made>) -> bool {
    let stride = lines.stride();
    some_points(random, lines, chains).map_or(false, |(chain, points)| {
        let place = stride * random.below(points) + 2;
        let extra = chains[chain].numbers.iter_mut().skip(place).take(stride - 2);
        extra.for_each(|number| *number ^= 1);
        stride > 2
    })
}

/// A coordinate that stands twice, or one from elsewhere.
fn a_coordinate_more(random: &mut Random, lines: &mut BuildCall, chains: &mut Vec<Made>) -> bool {
    let stride = lines.stride();
    some_points(random, lines, chains).map_or(false, |(chain, points)| {
        let numbers = &mut chains[chain].numbers;
        let (from, to) = (stride * random.below(points), stride * random.below(points + 1));
        let point = numbers[from..from + stride].to_vec();
        numbers.splice(to..to, point);
        true
    })
}

/// A coordinate left out.
fn a_coordinate_less(random: &mut Random, lines: &mut BuildCall, chains: &mut Vec<Made>) -> bool {
    let stride = lines.stride();
    some_points(random, lines, chains).map_or(false, |(chain, points)| {
        let some = random.below(points);
        let place = stride * random.pick(&[0, points - 1, some]);
        chains[chain].numbers.drain(place..place + stride);
        true
    })
}

/// A line left out of a chain, with the coordinates laid again.
fn line_left_out(random: &mut Random, lines: &mut BuildCall, chains: &mut Vec<Made>) -> bool {
    some(random, chains, 2).map_or(false, |chain| {
        let Made { mut listing, mut turned, .. } = chains[chain].clone();
        let at = random.pick(&[0, listing.len() - 1]);
        listing.remove(at);
        turned.remove(at);
        chains[chain] = Made::of(lines, listing, turned);
        true
    })
}

/// A line of a chain once more, as a chain by itself.
fn line_twice(random: &mut Random, lines: &mut BuildCall, chains: &mut Vec<Made>) -> bool {
    some(random, chains, 1).map_or(false, |chain| {
        let line = random.pick(&chains[chain].listing);
        chains.push(Made::of(lines, vec![line], vec![false]));
        true
    })
}

/// The last line of a chain once more, back the way that it came.
fn there_and_back(random: &mut Random, lines: &mut BuildCall, chains: &mut Vec<Made>) -> bool {
    some(random, chains, 1).map_or(false, |chain| {
        let Made { mut listing, mut turned, .. } = chains[chain].clone();
        listing.push(listing[listing.len() - 1]);
        turned.push(!turned[turned.len() - 1]);
        chains[chain] = Made::of(lines, listing, turned);
        true
    })
}

/// A line of a chain in another group.
fn another_group(random: &mut Random, lines: &mut BuildCall, chains: &mut Vec<Made>) -> bool {
    some(random, chains, 1).map_or(false, |chain| {
        let line = random.pick(&chains[chain].listing) as usize;
        lines.groups[line] ^= 1;
        true
    })
}

/// A line of a chain that passes through.
fn a_passing_line(random: &mut Random, lines: &mut BuildCall, chains: &mut Vec<Made>) -> bool {
    some(random, chains, 1).map_or(false, |chain| {
        let line = random.pick(&chains[chain].listing) as usize;
        lines.kinds[line] = 1;
        true
    })
}

/// A chain that is not delivered.
fn chain_left_out(random: &mut Random, _: &mut BuildCall, chains: &mut Vec<Made>) -> bool {
    some(random, chains, 0).map_or(false, |chain| {
        chains.remove(chain);
        true
    })
}

/// A chain of no lines, at times with a coordinate.
fn chain_of_no_lines(random: &mut Random, lines: &mut BuildCall, chains: &mut Vec<Made>) -> bool {
    let numbers = if random.one_in(3) { vec![0; lines.stride()] } else { vec![] };
    chains.push(Made { numbers, ..Made::default() });
    true
}
