//! What a run came to, and its outputs.

use crate::arguments::Request;
use crate::command::short_name;
use crate::delivery::object::Object;
use crate::delivery::{Delivery, Heights};
use crate::joining::{Chain, Outlined};
use crate::map::{map, Cells, Sheet};
use crate::measure::Measure;
use crate::numbers::{count, short};
use crate::progress::Progress;
use crate::store::{About, Reference, Store};
use crate::storing::{lost_in_geojson, store};
use crate::tally::Tally;
use crate::writing::{own_names, Bridges, Chains, Content, Format, Output, Target, Text};
use anyhow::Result;
use lovasuku_chains::Settings;
use std::io::{self, Write};
use std::path::Path;
use std::sync::atomic::{AtomicUsize, Ordering};

/// Where the outputs go, and which of them are stores.
pub struct Targets {
    chains: (Target, Option<Store>),
    bridges: Option<(Target, Option<Store>)>,
    map: Option<Target>,
    pub page: Option<Target>,
}

/// The tables of chains and of bridges in a database. Where that of chains has another name, that of
/// bridges has this one behind it.
pub const CHAINS: &str = "chains";
const BRIDGES: &str = "bridges";

impl Targets {
    /// Looks at all places before anything is read, so that a fault there costs no time.
    pub fn of(request: &Request) -> Result<Self> {
        let layers = |path: &Path, layer: &str| -> Result<(Target, Option<Store>)> {
            let target = Target::of(path)?;
            let store = store(request, &target, layer)?;
            Ok((target, store))
        };
        let bridges = match &request.into[..] {
            CHAINS => BRIDGES.into(),
            into => format!("{into}_{BRIDGES}"),
        };
        let bridges = request.bridges.as_deref().map(|path| layers(path, &bridges));
        Ok(Targets {
            chains: layers(&request.output, &request.into)?,
            bridges: bridges.transpose()?,
            map: request.map.as_deref().map(Target::of).transpose()?,
            page: request.page.as_deref().map(Target::of).transpose()?,
        })
    }

    /// True where an output is a store.
    pub fn has_store(&self) -> bool {
        let [chains, bridges] = [Some(&self.chains), self.bridges.as_ref()];
        [chains, bridges].into_iter().flatten().any(|(_, store)| store.is_some())
    }
}

/// What a run came to.
pub struct Outcome<'a> {
    pub request: &'a Request,
    pub delivery: &'a Delivery<'a>,
    pub measure: &'a Measure,
    pub outlined: &'a Outlined<'a>,
    /// The length of each chain.
    pub lengths: &'a [f64],
    pub tally: &'a Tally,
    /// The layer that the lines came from, and the reference system of their coordinates.
    pub layer: Option<&'a About>,
    pub reference: Option<&'a Reference>,
    /// The page, where it is asked for.
    pub page: Option<&'a [u8]>,
    /// How many chains that were written have a member with a property of a chain's own name.
    pub clashes: AtomicUsize,
}

impl Outcome<'_> {
    /// The outputs.
    pub fn outputs<'o>(&'o self, targets: &'o Targets, progress: &'o Progress) -> Vec<Output<'o>> {
        let output =
            |target: &Target, content: Content<'o>| Output { target: target.clone(), content };
        let text = |text: Text<'o>| Content::Text(text);
        let (target, store) = &targets.chains;
        let chains = match store {
            Some(store) => self.stored_chains(store, progress),
            None => text(Box::new(move |into| self.write_chains(into, progress))),
        };
        let mut outputs = vec![output(target, chains)];
        if let Some((target, store)) = &targets.bridges {
            let bridges = match store {
                Some(store) => self.stored_bridges(store, progress),
                None => text(Box::new(move |into| self.write_bridges(into, &target.path))),
            };
            outputs.push(output(target, bridges));
        }
        if let Some(target) = &targets.map {
            outputs.push(output(target, text(Box::new(move |into| into.write_all(&self.map())))));
        }
        if let (Some(target), Some(page)) = (&targets.page, self.page) {
            outputs.push(output(target, text(Box::new(move |into| into.write_all(page)))));
        }
        outputs
    }

    fn write_chains(&self, into: &mut dyn Write, progress: &Progress) -> io::Result<()> {
        let mut text = self.format().begin(into, &self.members())?;
        let clashes = self.writer().write(self.outlined, &mut text, progress)?;
        self.clashes.store(clashes, Ordering::Relaxed);
        text.end()
    }

    fn format(&self) -> Format {
        Format::of_output(&self.request.output, self.request.format)
    }

    /// What the user has to know about the chains that were written, where they are GeoJSON.
    pub fn warnings(&self, targets: &Targets) -> Vec<String> {
        if targets.chains.1.is_some() {
            return Vec::new();
        }
        let mut warnings = Vec::new();
        let clashes = self.clashes.load(Ordering::Relaxed);
        warnings.extend(told_of_clashes(clashes, &self.writer().own));
        let members = self.members();
        let lost: Vec<&str> = members.iter().map(|(name, _)| name).collect();
        if self.format() != Format::Collection && !lost.is_empty() {
            warnings.push(format!(
                "a series of features has no place for members of the collection: left out are {}",
                lost.join(", ")
            ));
        }
        warnings.extend(lost_in_geojson(self.layer, self.delivery.dimension()));
        warnings
    }

    /// What the features of chains are written by.
    pub fn writer(&self) -> Chains<'_> {
        let Outcome { request, delivery, measure, .. } = *self;
        let parts = request.reading.explode;
        let own = own_names(&request.prefix, parts);
        Chains { delivery, measure, keep: request.keep, own, parts }
    }

    /// The members of the input's collection. Its box is that of the chains only where nothing was
    /// left out, and where there are heights, of which a joint leaves one out, it may not be.
    fn members(&self) -> Object<'_> {
        let mut members = self.delivery.members.clone();
        let whole = self.delivery.left_out.is_nothing();
        let dropped = self.request.reading.heights == Heights::Dropped;
        let windowless = self.request.window.is_none();
        let as_it_was = whole && !dropped && windowless && !self.delivery.has_heights();
        members.retain(|name, _| name != "bbox" || as_it_was);
        members
    }

    /// The bridges and the gaps, each as a feature.
    pub fn bridge_features(&self) -> Vec<Vec<u8>> {
        let tolerance = self.request.settings.tolerance;
        let Outcome { delivery, measure, .. } = *self;
        Bridges { delivery, measure, tolerance }.write(self.outlined, &self.tally.gaps)
    }

    fn write_bridges(&self, into: &mut dyn Write, path: &Path) -> io::Result<()> {
        let features = self.bridge_features();
        let mut members = self.delivery.members.clone();
        members.retain(|name, text| name == "crs" && text != "null");
        let mut text = Format::of_output(path, self.request.format).begin(into, &members)?;
        features.iter().try_for_each(|feature| text.put(feature))?;
        text.end()
    }

    fn map(&self) -> Vec<u8> {
        let told = self.outlined.whole();
        map(&Sheet {
            name: &short_name(self.request),
            settings: &settings_in_words(self.request, self.measure),
            cells: cells(self.request),
            arrows: self.request.arrows,
            window: self.request.window,
            delivery: self.delivery,
            measure: self.measure,
            chains: &told.chains().collect::<Vec<Chain>>(),
            lengths: self.lengths,
            tally: self.tally,
        })
    }
}

/// What is told of properties of the input that chains have by themselves.
pub fn told_of_clashes(clashes: usize, own: &[String]) -> Option<String> {
    (clashes > 0).then(|| {
        format!(
            "properties of the input named like one of {} are left out of {} (--prefix PREFIX \
             gives those of chains other names)",
            own.join(", "),
            count(clashes, "chain")
        )
    })
}

/// The cells of a run, where it has a tolerance.
fn cells(request: &Request) -> Option<Cells> {
    let Settings { tolerance, origin, .. } = request.settings;
    (tolerance > 0.0).then_some(Cells { side: tolerance, origin })
}

/// The settings of a run in words.
fn settings_in_words(request: &Request, measure: &Measure) -> String {
    let Settings { tolerance, origin: [x, y], .. } = request.settings;
    let mut words = format!("tolerance {tolerance}");
    if tolerance > 0.0 && [x, y] != [0.0; 2] {
        words += &format!(" from {x} {y}");
    }
    words += &match (request.bend, request.offset, request.settings.limit) {
        (_, Some(offset), Some(limit)) => format!(
            " · junctions paired up to an offset of {offset} (limit {limit}, {}°)",
            short(offset.degrees())
        ),
        (Some(bend), None, Some(_)) => format!(" · junctions paired up to a bend of {bend}°"),
        (None, None, Some(limit)) => format!(" · junctions paired up to limit {limit}"),
        (_, _, None) => " · junctions not paired".into(),
    };
    if let Some(name) = &request.class {
        words += &format!(" · classes by {name}");
    }
    if let Some(district) = &request.district {
        words += &format!(" · second district by {district}");
    }
    if measure.degrees {
        words += " · metres on the sphere";
    }
    words
}
