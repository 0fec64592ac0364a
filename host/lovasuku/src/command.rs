//! A run of `lovasuku join`.

use crate::arguments::Request;
use crate::classes::Classes;
use crate::delivery::Delivery;
use crate::joining::{gaps, join, zooms, Chain, Fault, Line, Outlined, Told};
use crate::lending::Lent;
use crate::measure::{bounds, extent, Measure};
use crate::outcome::{Outcome, Targets};
use crate::page::{self, Page};
use crate::progress::Progress;
use crate::source::Source;
use crate::store::{About, Reference};
use crate::storing;
use crate::summary::{of_degrees, Summary};
use crate::tally::Tally;
use crate::writing;
use anyhow::{anyhow, Context, Error, Result};
use lovasuku_chains::explain::Explained;
use lovasuku_chains::{Dimension, Lines, Settings, Window};
use std::sync::atomic::AtomicUsize;
use std::time::Instant;

/// Joins a delivery for each of several tolerances, which the requests differ in: reads it, builds the chains,
/// puts the outputs in their places, and gives the summary.
pub fn run(requests: &[Request]) -> Result<String> {
    let from = Instant::now();
    let request = requests.first().context("nothing is asked for")?;
    let progress = Progress::new(!request.quiet);
    let targets: Vec<Targets> = requests.iter().map(Targets::of).collect::<Result<_>>()?;
    let wanted = request.wanted();
    let input = || wanted.whole_name();
    let (source, text) = Source::read(wanted, &progress).with_context(input)?;
    let (delivery, layer) =
        source.delivery(&text, &request.reading, &progress).with_context(input)?;
    let delivery = &delivery;
    let classes = &Classes::of(delivery, request.class.as_deref(), request.district.as_ref())
        .with_context(input)?;
    let unit = layer.as_ref().and_then(|layer| layer.unit(bounds(delivery)));
    let measure = &Measure::of(delivery, request.units.as_deref().or(unit.as_deref()));
    let lent = Lent::of(delivery, classes);
    let joined = joined(requests, lent.lines(), &progress)
        .map_err(|fault| named(delivery, classes, fault))
        .with_context(input)?;
    let layer = layer.as_ref();
    let (named, told) = named_reference(layer, &targets, delivery, measure);
    let reference = layer.map_or(named.as_ref(), |layer| layer.reference.as_ref());
    let checksum = &checksum(request, &text, layer.map(|_| delivery)).with_context(input)?;
    let given = Given { delivery, classes, measure, layer, reference, checksum };
    let zoom = |(request, outlined)| given.zoom(request, outlined, &progress);
    let zooms: Vec<Zoom> = requests.iter().zip(joined).map(zoom).collect::<Result<_>>()?;
    let warnings = given.put(&zooms, &targets, &progress)?;
    progress.end();
    let summary = |(zoom, warnings): (&Zoom, Vec<String>)| {
        let warnings = &warnings.into_iter().chain(told.clone()).collect::<Vec<_>>();
        let Zoom { request, tally, .. } = zoom;
        let summary = Summary { request, delivery, classes, measure, tally, warnings };
        summary.text(requests.len() > 1, from.elapsed())
    };
    Ok(zooms.iter().zip(warnings).map(summary).collect::<Vec<_>>().join("\n"))
}

/// The chains of each tolerance.
fn joined<'a>(
    requests: &[Request],
    lines: Lines<'a>,
    progress: &Progress,
) -> Result<Vec<Outlined<'a>>, Fault> {
    let tolerances: Vec<f64> = requests.iter().map(|request| request.settings.tolerance).collect();
    match requests.first() {
        Some(request) => zooms(lines, (request.settings, request.window), &tolerances, progress),
        None => Ok(Vec::new()),
    }
}

/// The reference system that GeoJSON names, where it goes into a store, and what there is to warn of.
fn named_reference(
    layer: Option<&About>,
    targets: &[Targets],
    delivery: &Delivery,
    measure: &Measure,
) -> (Option<Reference>, Option<String>) {
    match (layer, targets.iter().any(Targets::has_store)) {
        (None, true) => storing::reference(delivery, measure),
        _ => (None, None),
    }
}

/// The checksum of the input, where a page is asked for.
fn checksum(request: &Request, text: &str, layer: Option<&Delivery>) -> Result<String> {
    match request.page {
        Some(_) => page::checksum(&request.input, text, layer),
        None => Ok(String::new()),
    }
}

/// What is given once for all tolerances.
#[derive(Clone, Copy)]
struct Given<'a> {
    delivery: &'a Delivery<'a>,
    classes: &'a Classes<'a>,
    measure: &'a Measure,
    /// The layer that the lines came from, and the reference system of their coordinates.
    layer: Option<&'a About>,
    reference: Option<&'a Reference>,
    /// The checksum of the input, where a page is asked for.
    checksum: &'a str,
}

/// What one tolerance came to.
struct Zoom<'a> {
    request: &'a Request,
    outlined: Outlined<'a>,
    /// The length of each chain.
    lengths: Vec<f64>,
    tally: Tally,
    /// The page, where it is asked for.
    page: Option<Vec<u8>>,
}

impl<'a> Given<'a> {
    fn zoom<'r>(
        self,
        request: &'r Request,
        mut outlined: Outlined<'r>,
        progress: &Progress,
    ) -> Result<Zoom<'r>> {
        let Given { delivery, measure, .. } = self;
        look_at_parts(delivery, request.window, &mut outlined);
        let tolerance = request.settings.tolerance;
        let lines = || lines(delivery, self.classes);
        let (mut tally, lengths) = Tally::of(delivery, measure, lines(), &outlined, tolerance);
        let mut page = None;
        if tolerance > 0.0 || request.page.is_some() {
            let (lines, told): (Vec<Line>, Told) = (lines().collect(), outlined.whole());
            let chains: Vec<Chain> = told.chains().collect();
            if tolerance > 0.0 {
                tally.gaps = gaps(&lines, &chains, request.settings);
            }
            if request.page.is_some() {
                page = Some(self.page(request, &tally, (&lines, &chains), progress)?);
            }
        }
        Ok(Zoom { request, outlined, lengths, tally, page })
    }

    /// The page of one tolerance.
    fn page(
        self,
        request: &Request,
        tally: &Tally,
        (lines, chains): (&[Line], &[Chain]),
        progress: &Progress,
    ) -> Result<Vec<u8>> {
        let Given { delivery, classes, measure, checksum, .. } = self;
        let explained = &explained(lines, chains, request.settings, progress)?;
        let name = &short_name(request);
        let page =
            Page { name, checksum, request, delivery, classes, measure, chains, tally, explained };
        Ok(page.text()?)
    }

    /// Puts the outputs of all tolerances in their places, and tells what the user has to know of each.
    fn put(
        self,
        zooms: &[Zoom],
        targets: &[Targets],
        progress: &Progress,
    ) -> Result<Vec<Vec<String>>> {
        let outcomes: Vec<Outcome> = zooms.iter().map(|zoom| self.outcome(zoom)).collect();
        let (mut outputs, mut of) = (Vec::new(), Vec::new());
        let mut warnings = vec![Vec::new(); zooms.len()];
        for (zoom, (outcome, targets)) in outcomes.iter().zip(targets).enumerate() {
            outputs.extend(outcome.outputs(targets, progress));
            of.resize(outputs.len(), zoom);
        }
        for (zoom, told) in of.into_iter().zip(writing::put(&outputs)?) {
            warnings[zoom].extend(told);
        }
        for ((outcome, targets), warnings) in outcomes.iter().zip(targets).zip(&mut warnings) {
            warnings.extend(outcome.warnings(targets));
            warnings.extend(of_degrees(self.measure, outcome.request.settings.tolerance));
            warnings.extend(outcome.page.and_then(|page| page::of_size(page.len())));
        }
        Ok(warnings)
    }

    fn outcome<'o>(self, zoom: &'o Zoom) -> Outcome<'o>
    where
        'a: 'o,
    {
        let Given { delivery, measure, layer, reference, .. } = self;
        let Zoom { request, outlined, lengths, tally, page } = zoom;
        let (page, clashes) = (page.as_deref(), AtomicUsize::default());
        Outcome {
            request,
            delivery,
            measure,
            outlined,
            lengths,
            tally,
            layer,
            reference,
            page,
            clashes,
        }
    }
}

/// Tells which MultiLineStrings meet a window: they pass through, and the library is not given their
/// parts.
fn look_at_parts(delivery: &Delivery, window: Option<Window>, outlined: &mut Outlined) {
    if let Some(window) = window {
        for chain in 0..outlined.len() {
            let (line, shapes) = (outlined.first_line(chain), delivery.shapes());
            if shapes.is_multi(line) {
                let [least, greatest] = extent(shapes.runs(line).flatten().copied());
                outlined.set_inside(chain, window.meets(least, greatest));
            }
        }
    }
}

/// The name of the input without its folder.
pub fn short_name(request: &Request) -> String {
    request
        .wanted()
        .name(|path| path.file_name().unwrap_or(path.as_os_str()).to_string_lossy().into_owned())
}

/// Why the lines of chains are joined. The pieces of round one come from calls without a tolerance.
pub fn explained(
    lines: &[Line],
    chains: &[Chain],
    settings: Settings,
    progress: &Progress,
) -> Result<Explained> {
    let exact = (settings.with_tolerance(0.0), None);
    let pieces = match settings.tolerance > 0.0 {
        true => join(Dimension::Xy, lines, exact, progress)?,
        false => Told::default(),
    };
    let pieces: Vec<Chain> = pieces.chains().collect();
    Ok(Explained::of(lines, chains, &pieces, settings)?)
}

/// The lines to be joined, by their classes.
pub fn lines<'d>(
    delivery: &'d Delivery,
    classes: &'d Classes,
) -> impl Iterator<Item = Line<'d>> + Clone {
    let line = |(line, &group): (u32, &u32)| match delivery.shapes().line(line) {
        Some((points, extras)) => Line { points: Some(points), extras, group },
        None => Line { points: None, extras: &[], group },
    };
    delivery.lines().zip(&classes.groups).map(line)
}

/// The fault, with the class and what may be done about it, or with the feature that it is of.
fn named(delivery: &Delivery, classes: &Classes, fault: Fault) -> Error {
    match fault {
        Fault::Crowded { group, .. } => anyhow!(
            "{}: {fault} (without --limit, --bend and --offset no ends are)",
            classes.name(group)
        ),
        Fault::Differs { line } => anyhow!("feature {}: {fault}", delivery.name(line)),
        Fault::Refused(_) | Fault::TooMany => fault.into(),
    }
}
