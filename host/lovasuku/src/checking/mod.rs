//! A run of `lovasuku check`.

mod chains;
mod names;
mod words;

use crate::arguments::CheckRequest;
use crate::classes::Classes;
use crate::delivery::{Delivery, Geometry, Heights, Reading, Run};
use crate::joining::{check_batches, Capacity, CheckBatch, Checker};
use crate::numbers::count;
use crate::progress::Progress;
use crate::source::{Source, Wanted};
use crate::store::Asked;
use anyhow::{bail, Context, Result};
use chains::Read;
use lovasuku_chains::{
    find, Delivered, DeliveredBuf, Dimension, Lines, LinesBuf, Refusal, Settings,
};
use names::Names;
use rayon::prelude::*;
use std::io::Write;
use std::process::ExitCode;
use words::Words;

/// What a check came to: that the chains are accepted, or not and why, in words.
#[derive(Clone, Debug, PartialEq)]
pub enum Verdict {
    Accepted(String),
    Not(String),
}

/// Checks chains, writes the verdict, and gives the status of the command.
pub fn main(request: &CheckRequest) -> ExitCode {
    let told = run(request).and_then(|(verdict, warnings)| {
        if !request.quiet {
            warnings.iter().for_each(|warning| eprintln!("lovasuku: warning: {warning}"));
            let (Verdict::Accepted(words) | Verdict::Not(words)) = &verdict;
            writeln!(std::io::stdout().lock(), "{words}")?;
        }
        Ok(verdict)
    });
    match told {
        Ok(Verdict::Accepted(_)) => ExitCode::SUCCESS,
        Ok(Verdict::Not(_)) => ExitCode::FAILURE,
        Err(fault) => {
            eprintln!("lovasuku: {fault:#}");
            ExitCode::from(2)
        }
    }
}

/// The verdict on chains, and what the user has to know about the names of lines.
pub fn run(request: &CheckRequest) -> Result<(Verdict, Vec<String>)> {
    let progress = Progress::new(!request.quiet);
    let lines = lines_of(request);
    let of = || lines.whole_name();
    let (source, text) = Source::read(lines, &progress).with_context(of)?;
    let (delivery, _) = source.delivery(&text, lines.reading, &progress).with_context(of)?;
    let delivery = &delivery;
    let (class, district) = (request.class.as_deref(), request.district.as_ref());
    let classes = &Classes::of(delivery, class, district).with_context(of)?;
    let names = Names::of(delivery, request.reading.explode).with_context(of)?;
    let (reading, store) = (&as_they_are(request.reading.heights), &Asked::default());
    let wanted = Wanted { input: &request.chains, reading, store };
    let from = || wanted.whole_name();
    let (source, text) = Source::read(wanted, &progress).with_context(from)?;
    let list = (&request.path[..], reading);
    let read = &chains::read(source, &text, list, &progress).with_context(from)?;
    let verdict = judged(request, delivery, classes, &names, read, &progress);
    progress.end();
    Ok((verdict.with_context(from)?, delivery.warnings.clone()))
}

/// The lines that the chains are of.
fn lines_of(request: &CheckRequest) -> Wanted<'_> {
    Wanted { input: &request.of, reading: &request.reading, store: &request.store }
}

/// How chains are read: with nothing left out but heights, where these are not wanted.
fn as_they_are(heights: Heights) -> Reading {
    Reading { heights, explode: false, drop_empty: false, skip_other: false, id: None }
}

fn judged(
    request: &CheckRequest,
    delivery: &Delivery,
    classes: &Classes,
    names: &Names,
    read: &[Read],
    progress: &Progress,
) -> Result<Verdict> {
    let listed = match listed(request, names, read) {
        Ok(listed) => listed,
        Err(words) => return Ok(Verdict::Not(words)),
    };
    let high = has_heights(delivery.dimension()) || read.iter().any(Read::has_heights);
    let dimension = if high { Dimension::Xyz } else { Dimension::Xy };
    let lines = lent_lines(dimension, delivery, classes);
    let chains = lent_chains(dimension, read, &listed);
    let (lines, chains) = (lines.lines(), chains.delivered());
    let shape = chains::other_shape(delivery, read, &listed);
    let accepted = accepted(lines, chains, request.settings, progress)?;
    let words = Words { delivery, classes, read, lines, chains };
    if let (Some(beyond), None) = (accepted, shape) {
        let of = [count(read.len(), "chain"), count(delivery.len(), "line")];
        return Ok(Verdict::Accepted(words::accepted(of, request.settings, beyond)));
    }
    let found = match accepted {
        Some(_) => None,
        None => find(lines, chains, request.settings),
    };
    let first = match (shape, found) {
        (Some(chain), Some(found)) if found.chain.map_or(false, |at| at < chain) => words.of(found),
        (Some(chain), _) => words.of_shape(chain, &listed),
        (None, Some(found)) => words.of(found),
        // The library's verdict counts, also where the search finds nothing.
        (None, None) => "the library does not accept the chains".into(),
    };
    Ok(Verdict::Not(format!("not accepted: {first}")))
}

/// The lines that each chain lists, by position; or words about the first name that is no line's.
fn listed(
    request: &CheckRequest,
    names: &Names,
    read: &[Read],
) -> std::result::Result<Vec<Vec<u32>>, String> {
    let mut listed = Vec::with_capacity(read.len());
    for (chain, each) in read.iter().enumerate() {
        let lines = each.path.iter().map(|step| names.line(step).ok_or(step));
        let lines = lines.collect::<std::result::Result<Vec<u32>, _>>().map_err(|step| {
            let (name, of) = (each.name(chain), lines_of(request).whole_name());
            format!("not accepted: {name}: it lists {step}, which is no line of {of}")
        })?;
        listed.push(lines);
    }
    Ok(listed)
}

/// The lines as the library takes them. A MultiLineString passes through, its parts one behind another.
fn lent_lines(dimension: Dimension, delivery: &Delivery, classes: &Classes) -> LinesBuf {
    let mut lent = LinesBuf::of(dimension);
    for (line, &group) in delivery.lines().zip(&classes.groups) {
        let geometry = delivery.shapes().get(line);
        let runs = chains::runs(&geometry);
        let positions = runs.flat_map(|run| positions(run, delivery.dimension()));
        match geometry {
            Geometry::Line(_) => lent.push(positions, group),
            Geometry::Lines(_) | Geometry::Other(_) => lent.push_passing(positions, group),
        }
    }
    lent
}

fn lent_chains(dimension: Dimension, read: &[Read], listed: &[Vec<u32>]) -> DeliveredBuf {
    let mut lent = DeliveredBuf::of(dimension);
    for (chain, lines) in read.iter().zip(listed) {
        let positions = chain.runs().flat_map(|run| positions(run, chain.dimension));
        lent.push(lines.iter().copied(), positions);
    }
    lent
}

/// True where positions have heights. Measures are not looked at.
fn has_heights(dimension: Dimension) -> bool {
    matches!(dimension, Dimension::Xyz | Dimension::Xyzm)
}

/// The positions of a run with their heights, NaN where there is none.
fn positions<'r>(run: &'r Run, dimension: Dimension) -> impl Iterator<Item = [f64; 3]> + 'r {
    let extras = has_heights(dimension).then(|| dimension.extras());
    let height = move |k: usize| {
        let height = extras.and_then(|extras| run.heights.get(extras * k));
        height.copied().unwrap_or(f64::NAN)
    };
    run.points.iter().enumerate().map(move |(k, &[x, y])| [x, y, height(k)])
}

/// Whether the chains are accepted, on all cores: if so, how many of them no call of the library can hold.
fn accepted(
    lines: Lines,
    chains: Delivered,
    settings: Settings,
    progress: &Progress,
) -> Result<Option<usize>> {
    progress.begin("checking", chains.len());
    let check = |checker: &mut Checker, batch: &CheckBatch| {
        let checked = checker.check(batch);
        progress.add(batch.chains.len());
        checked
    };
    let checker = || Checker::new(lines, chains, settings);
    let checked = check_batches(lines, chains, Capacity::default()).and_then(|cut| {
        cut.batches.par_iter().map_init(checker, check).collect::<Checked<()>>()?;
        checker().check_beyond(&cut.beyond).map(|()| cut.beyond.len())
    });
    match checked {
        Ok(beyond) => Ok(Some(beyond)),
        Err(Refusal::NotAcceptable | Refusal::BadRecord) => Ok(None),
        Err(refusal) => bail!(refusal),
    }
}

/// What a call of the library came to.
type Checked<T> = std::result::Result<T, Refusal>;
