//! Chains and bridges as layers of stores.

use crate::arguments::Request;
use crate::delivery::object::{Entry, Object};
use crate::delivery::{Delivery, Feature, Geometry, Heights, Point, Properties};
use crate::joining::{Chain, Outlined};
use crate::measure::Measure;
use crate::outcome::{told_of_clashes, Outcome};
use crate::progress::Progress;
use crate::store::{
    driver_name, is_database, shown, About, Drawn, Each, Features, Field, Kinds, Reference, Sheet,
    Store,
};
use crate::writing::{Chains, Content, Keep, Target};
use anyhow::{ensure, Context, Result};
use lovasuku_chains::Dimension;
use std::borrow::Cow;
use std::ops::Range;

/// The name, behind the prefix, of the field that tells which chain a feature is.
const CHAIN: &str = "chain";

/// What the values of a chain's own fields are: its id, its members, its path, its count, whether it is a
/// loop, and its parts where it has such.
const OWN: [Kinds; 6] = [
    Kinds::WHOLE_NUMBERS,
    Kinds::LISTS,
    Kinds::OTHERS,
    Kinds::WHOLE_NUMBERS,
    Kinds::TRUTHS,
    Kinds::LISTS_OF_WHOLE_NUMBERS,
];

/// The place of its members among these.
const MEMBERS: usize = 1;

/// The fields of bridges and gaps, and what their values are.
const OF_BRIDGES: [(&str, Kinds); 8] = [
    ("kind", Kinds::TEXTS),
    ("lines", Kinds::LISTS),
    ("length", Kinds::NUMBERS),
    ("unit", Kinds::TEXTS),
    ("longer", Kinds::TRUTHS),
    ("chain", Kinds::WHOLE_NUMBERS),
    ("why", Kinds::TEXTS),
    ("chains", Kinds::LISTS_OF_WHOLE_NUMBERS),
];

/// The store that an output is, if it is one, with the name that its layer has in a database.
pub fn store(request: &Request, target: &Target, layer: &str) -> Result<Option<Store>> {
    if request.format.is_some() {
        return Ok(None);
    }
    let of = || match driver_name(&target.path, request.driver.as_deref())? {
        Some(driver) => {
            ensure!(target.takes_stores(), "a store is written to a file or into a database");
            Store::of(&target.path, &driver, layer).map(Some)
        }
        None => Ok(None),
    };
    of().with_context(|| format!("{} cannot be written", shown(&target.path)))
}

/// The reference system of GeoJSON, where GDAL knows it, or what there is to warn of.
pub fn reference(delivery: &Delivery, measure: &Measure) -> (Option<Reference>, Option<String>) {
    let crs = delivery.crs().and_then(|crs| serde_json::from_str(crs).ok());
    let name = crs.and_then(|crs: serde_json::Value| {
        crs.pointer("/properties/name").and_then(|name| name.as_str().map(str::to_owned))
    });
    let known = match &name {
        None if measure.degrees => Reference::of(DEGREES),
        None => return (None, None),
        Some(name) if name.contains("CRS84") => Reference::of(DEGREES),
        Some(name) => Reference::of(name),
    };
    match known {
        Ok(reference) => (Some(reference), None),
        Err(fault) => {
            let name = name.unwrap_or_default();
            (None, Some(format!("the crs {name} is left out of stores: {fault:#}")))
        }
    }
}

/// What there is to warn of where a layer becomes GeoJSON, which has no place for measures and names
/// reference systems by their codes.
pub fn lost_in_geojson(layer: Option<&About>, dimension: Dimension) -> Vec<String> {
    let mut lost = Vec::new();
    if matches!(dimension, Dimension::Xym | Dimension::Xyzm) {
        lost.push("GeoJSON has no place for measures: they are left out".into());
    }
    let reference = layer.and_then(|layer| layer.reference.as_ref());
    if let Some(reference) = reference.filter(|reference| reference.authority().is_none()) {
        let name = reference.name();
        lost.push(format!(
            "the crs {name:?} has no code for GeoJSON to name it by: it is left out"
        ));
    }
    lost
}

/// Longitude and latitude, in this order: what GeoJSON has where it names nothing else.
const DEGREES: &str = "EPSG:4326";

/// The geometry of a chain: its points, or those of its only line as they were.
fn drawn<'a>(delivery: &'a Delivery, chain: &Chain<'a>) -> Drawn<'a> {
    let alone = chain.members.first();
    let alone = alone.map(|&line| (delivery.shapes().line(line), delivery.shapes().get(line)));
    match (chain.points, alone) {
        (Some(points), _) => Drawn::Line(points, chain.extras),
        (None, Some((Some((points, extras)), _))) => Drawn::Line(points, extras),
        (None, Some((None, Geometry::Lines(parts)))) => Drawn::Lines(parts),
        (None, _) => Drawn::Lines(Vec::new()),
    }
}

/// The chains that go into a store, each with the properties that GeoJSON has and with its id, which not
/// all formats keep.
struct StoredChains<'a> {
    outlined: &'a Outlined<'a>,
    /// The positions of those that meet the window.
    inside: Vec<u32>,
    writer: Chains<'a>,
    /// The names of the fields that every chain has, the first of which is that of the id.
    own: Vec<String>,
}

impl Features for StoredChains<'_> {
    fn len(&self) -> usize {
        self.inside.len()
    }

    fn id(&self, place: usize) -> usize {
        self.inside[place] as usize
    }

    fn is_line(&self, place: usize) -> bool {
        let line = self.outlined.first_line(self.id(place));
        !self.writer.delivery.shapes().is_multi(line)
    }

    fn each(&self, places: Range<usize>, tell: &mut dyn FnMut(Each<'_>)) {
        let ids = || places.clone().map(|place| self.id(place));
        let told = self.outlined.told(ids());
        for (id, chain) in ids().zip(told.chains()) {
            let (properties, left_out) = self.properties(id, &chain);
            tell(Each { properties, left_out, drawn: drawn(self.writer.delivery, &chain) });
        }
    }

    fn told_of(&self, left_out: usize) -> Option<String> {
        told_of_clashes(left_out, &self.own)
    }
}

impl StoredChains<'_> {
    /// The properties of a chain, and whether one of its members' is left out for its name.
    fn properties(&self, id: usize, chain: &Chain) -> (Vec<Entry<'_>>, bool) {
        let (mut properties, clash) = self.writer.properties(chain);
        let all = properties.len();
        properties.retain(|(name, _)| *name != self.own[0]);
        let more = properties.len() < all;
        properties.insert(0, (Cow::from(&self.own[0]), id.to_string().into()));
        (properties, clash || more)
    }
}

/// The bridges and the gaps that go into a store: the properties of each as an object of JSON, and its
/// points.
struct StoredBridges(Vec<(String, Vec<Point>)>);

impl Features for StoredBridges {
    fn len(&self) -> usize {
        self.0.len()
    }

    fn id(&self, place: usize) -> usize {
        place
    }

    fn is_line(&self, _: usize) -> bool {
        true
    }

    fn each(&self, places: Range<usize>, tell: &mut dyn FnMut(Each<'_>)) {
        for (properties, points) in &self.0[places] {
            let properties = Object::of(properties).unwrap_or_default().into_entries().collect();
            tell(Each { properties, left_out: false, drawn: Drawn::Line(points, &[]) });
        }
    }

    fn told_of(&self, _: usize) -> Option<String> {
        None
    }
}

impl Outcome<'_> {
    /// The chains as a layer.
    pub fn stored_chains<'o>(&'o self, store: &'o Store, progress: &'o Progress) -> Content<'o> {
        let (outlined, writer) = (self.outlined, self.writer());
        let name = format!("{}{CHAIN}", self.request.prefix);
        let own: Vec<String> = [name].into_iter().chain(writer.own.iter().cloned()).collect();
        let fields = self.layer.map_or(&[][..], |layer| &layer.fields);
        let others = fields.iter().map(|field| &field.name).filter(|name| !own.contains(name));
        let others = others.cloned().map(|name| (name, Kinds::default()));
        let mut first: Vec<(String, Kinds)> = own.iter().cloned().zip(OWN).chain(others).collect();
        let known = self.are_known(fields, &own);
        if known {
            let kinds = self.delivery.lines().map(|line| Kinds::of_item(&self.delivery.name(line)));
            first[MEMBERS].1 = kinds.fold(first[MEMBERS].1, Kinds::with);
        }
        let inside = (0..outlined.len() as u32).filter(|&chain| outlined.is_inside(chain as usize));
        let inside = inside.collect();
        let features = Box::new(StoredChains { outlined, inside, writer, own });
        let content = (features as Box<dyn Features>, first, known);
        self.content(store, "chain", content, self.delivery.dimension(), progress)
    }

    /// True where the fields of chains are known without a look at each: the chain's own, and of the input
    /// fields of single values, of which a chain has one or none.
    fn are_known(&self, fields: &[Field], own: &[String]) -> bool {
        let is_plain = |field: &Field| field.kind.is_single() && !own.contains(&field.name);
        let few = i32::try_from(self.delivery.len()).is_ok();
        let whole = self.request.window.is_none() && self.request.keep != Keep::List;
        self.layer.is_some() && few && whole && fields.iter().all(is_plain)
    }

    /// The bridges and the gaps as a layer.
    pub fn stored_bridges<'o>(&'o self, store: &'o Store, progress: &'o Progress) -> Content<'o> {
        let feature = |text: Vec<u8>| {
            let text = String::from_utf8(text).ok()?;
            let read = Feature::of(&text, Heights::Dropped).ok()?;
            let properties = match read.properties {
                Properties::Written(Some(text)) => text.to_owned(),
                _ => "{}".into(),
            };
            match read.geometry {
                Geometry::Line(run) => Some((properties, run.points.into_owned())),
                Geometry::Lines(_) | Geometry::Other(_) => None,
            }
        };
        let all = self.bridge_features().into_iter();
        let features = Box::new(StoredBridges(all.filter_map(feature).collect()));
        let first = OF_BRIDGES.map(|(name, kinds)| (name.to_owned(), kinds)).into();
        self.content(store, "bridge", (features, first, false), Dimension::Xy, progress)
    }

    fn content<'o>(
        &'o self,
        store: &'o Store,
        each: &'static str,
        (features, first, known): (Box<dyn Features + 'o>, Vec<(String, Kinds)>, bool),
        dimension: Dimension,
        progress: &'o Progress,
    ) -> Content<'o> {
        let sheet = Sheet {
            driver: store.driver,
            name: &store.layer,
            features,
            each,
            dimension,
            reference: self.reference,
            geometry: self.layer.map(|layer| &layer.geometry[..]).filter(|name| !name.is_empty()),
            first,
            known,
            input: self.layer.map_or(&[], |layer| &layer.fields),
            ids: store.ids,
            indexed: store.indexed,
            longest: store.longest,
            options: store.options,
        };
        let write = move |name: &str| match is_database(name) {
            true => sheet.insert(name, progress),
            false => sheet.create(name, progress),
        };
        Content::Store { write: Box::new(write), beside: store.beside }
    }
}
