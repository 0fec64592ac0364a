//! Layers that are written into stores: features with WKB of the proved writer's, and with the properties
//! of GeoJSON as fields.

use super::fields::{Fields, Kinds, Names};
use super::gdal::{
    failures, settle, warnings, Dataset, Driver, Field, Layer, Making, Reference, Row,
};
use super::index::Index;
use super::rows::{encoded, Encoded};
use crate::delivery::object::Entry;
use crate::delivery::{Point, Run};
use crate::numbers::{count, parts};
use crate::progress::Progress;
use anyhow::{Context, Result};
use lovasuku_chains::Dimension;
use rayon::prelude::*;
use std::ops::Range;
use std::sync::mpsc::sync_channel;
use std::thread;

/// Features to be written, each made when it is asked for by its place.
pub trait Features: Sync {
    /// How many there are.
    fn len(&self) -> usize;

    /// The id of a feature, which formats keep that have ids.
    fn id(&self, place: usize) -> usize;

    /// Whether the geometry of a feature is a line, and no MultiLineString.
    fn is_line(&self, place: usize) -> bool;

    /// Tells of features one after another.
    fn each(&self, places: Range<usize>, tell: &mut dyn FnMut(Each<'_>));

    /// What there is to tell where so many features have left out a property.
    fn told_of(&self, left_out: usize) -> Option<String>;
}

/// A feature.
pub struct Each<'a> {
    pub properties: Vec<Entry<'a>>,
    /// Whether a property of the input's is left out for its name.
    pub left_out: bool,
    pub drawn: Drawn<'a>,
}

/// The geometry of a feature.
pub enum Drawn<'a> {
    /// A line: its points and their extras.
    Line(&'a [Point], &'a [f64]),
    /// A MultiLineString, by its parts.
    Lines(Vec<Run<'a>>),
}

/// A layer to be written.
pub struct Sheet<'a> {
    pub driver: Driver,
    /// The name of the layer.
    pub name: &'a str,
    pub features: Box<dyn Features + 'a>,
    /// What a feature is, in a word.
    pub each: &'static str,
    pub dimension: Dimension,
    pub reference: Option<&'a Reference>,
    /// The name of the column of geometry, where it is to have a certain one.
    pub geometry: Option<&'a str>,
    /// The names of the first fields, in their order, and what is known of their values.
    pub first: Vec<(String, Kinds)>,
    /// Whether there are no others, no more is to be known of their values, and none is left out.
    pub known: bool,
    /// The fields of the input, which keep their types.
    pub input: &'a [Field],
    /// Whether features have ids from 0 on.
    pub ids: bool,
    /// Whether the spatial index is laid when all features are there.
    pub indexed: bool,
    /// The most bytes of a text, where the format has a bound.
    pub longest: Option<usize>,
    /// How the layer is made, beyond its columns.
    pub options: &'static [&'static str],
}

/// How many features one core looks at or encodes at a time.
const PART: usize = 256;

/// How many such parts are encoded before they are written.
const PARTS: usize = 16;

/// The types of geometry by GDAL's numbers: any, lines and MultiLineStrings of x and y.
const ANY: u32 = 0;
const LINES: u32 = 2;
const MULTI_LINES: u32 = 5;

/// What such a number has more for heights, for measures and for both. That of heights is not ISO's.
const HEIGHTS: u32 = 0x8000_0000;
const MEASURES: u32 = 2000;
const BOTH: u32 = 3000;

impl Sheet<'_> {
    /// Makes a file with the layer. What GDAL warns of is given back.
    pub fn create(&self, path: &str, progress: &Progress) -> Result<Vec<String>> {
        self.write(self.driver.create(path)?, progress)
    }

    /// Puts the layer into a database.
    pub fn insert(&self, name: &str, progress: &Progress) -> Result<Vec<String>> {
        self.write(Dataset::open(name, true)?, progress)
    }

    fn write(&self, dataset: Dataset, progress: &Progress) -> Result<Vec<String>> {
        progress.begin("storing", self.features.len());
        let (names, left_out) = self.names();
        let fields = names.fields(&self.driver, self.input);
        let transaction = dataset.begin()?;
        let mut layer = dataset.make(&Making {
            name: self.name,
            reference: self.reference,
            geometry: self.geometry_type(),
            options: &self.options(&fields),
            fields: &fields.fields,
        })?;
        settle();
        let geometries = layer.geometries();
        let column = geometries.first().map(|(name, _)| name);
        let column = column.context("this format has no place for geometry")?;
        let begin = || Index::begin(&dataset, self.name, column);
        let mut index = self.indexed.then(begin).transpose()?;
        let long = self.put(&mut layer, &fields, index.as_mut(), progress)?;
        drop(layer);
        index.map_or(Ok(()), Index::end)?;
        transaction.commit()?;
        dataset.close()?;
        let mut told: Vec<String> = self.features.told_of(left_out).into_iter().collect();
        told.extend(warnings());
        told.extend(self.told_of(long));
        Ok(told)
    }

    /// The names of all properties and the kinds of their values, and how many features have left out
    /// one.
    fn names(&self) -> (Names, usize) {
        let (features, first) = (&*self.features, Names::of(&self.first));
        if self.known {
            return (first, 0);
        }
        let part = |places: Range<usize>| {
            let (mut names, mut left_out) = (first.clone(), 0);
            features.each(places, &mut |feature| {
                names.add_all(&feature.properties);
                left_out += usize::from(feature.left_out);
            });
            (names, left_out)
        };
        let parts = parts(0..features.len(), PART * PARTS);
        let parts: Vec<(Names, usize)> = parts.into_par_iter().map(part).collect();
        let (mut names, mut all_left_out) = (first, 0);
        for (part, left_out) in parts {
            names.merge(part);
            all_left_out += left_out;
        }
        (names, all_left_out)
    }

    /// The type of the layer's geometry: that of all features, or any where they differ.
    fn geometry_type(&self) -> u32 {
        let is_line = |&place: &usize| self.features.is_line(place);
        let lines = (0..self.features.len()).filter(is_line).count();
        let plain = match lines {
            lines if lines == self.features.len() => LINES,
            0 => MULTI_LINES,
            _ => ANY,
        };
        match self.dimension {
            Dimension::Xy => plain,
            Dimension::Xyz => plain + HEIGHTS,
            Dimension::Xym => plain + MEASURES,
            Dimension::Xyzm => plain + BOTH,
        }
    }

    /// How the layer is made: with names of its columns of ids and of geometry that no field has.
    fn options(&self, fields: &Fields) -> Vec<String> {
        let free =
            |name: &&str| !fields.fields.iter().any(|field| field.name.eq_ignore_ascii_case(name));
        let mut options: Vec<String> = self.options.iter().map(|&option| option.into()).collect();
        if let Some(name) = ["fid", "ogc_fid", "lovasuku_fid"].into_iter().find(free) {
            options.extend(self.driver.takes("FID").then(|| format!("FID={name}")));
        }
        let names = self.geometry.into_iter().chain(["geom", "geometry", "lovasuku_geom"]);
        if let Some(name) = names.into_iter().find(free) {
            let takes = self.driver.takes("GEOMETRY_NAME");
            options.extend(takes.then(|| format!("GEOMETRY_NAME={name}")));
        }
        options
    }

    /// Puts all features into the layer, and tells how many texts were too long for it. They are encoded
    /// on all cores while others are written.
    fn put(
        &self,
        layer: &mut Layer,
        fields: &Fields,
        mut index: Option<&mut Index>,
        progress: &Progress,
    ) -> Result<usize> {
        let (send, receive) = sync_channel(1);
        let (features, dimension, longest) = (&*self.features, self.dimension, self.longest);
        thread::scope(|scope| {
            scope.spawn(move || {
                let part = |places| encoded(features, places, dimension, fields, longest);
                // The one who writes has gone where a feature could not be written.
                let sent = |window: Range<usize>| {
                    let parts = parts(window, PART).into_par_iter().map(part);
                    send.send(parts.collect::<Vec<Encoded>>()).is_ok()
                };
                parts(0..features.len(), PART * PARTS).into_iter().all(sent)
            });
            let (mut put, mut long) = (0, 0);
            for part in receive.into_iter().flatten() {
                self.put_part(layer, &part, put)?;
                if let Some(index) = &mut index {
                    let ids = (put..).map(|place| self.features.id(place) as i64);
                    ids.zip(part.extents()).for_each(|(id, extent)| index.put(id, extent));
                }
                progress.add(part.len());
                (put, long) = (put + part.len(), long + part.long);
            }
            Ok(long)
        })
    }

    /// Puts features into the layer, from the one of a position on.
    fn put_part(&self, layer: &mut Layer, part: &Encoded, first: usize) -> Result<()> {
        for (place, (wkb, values)) in (first..).zip(part.rows()) {
            let id = self.features.id(place);
            let put = layer.put(&Row { id: self.ids.then_some(id as i64), wkb, values });
            put.and_then(|()| failures().map_or(Ok(()), Err))
                .with_context(|| format!("{} {id}", self.each))?;
        }
        Ok(())
    }

    fn told_of(&self, long: usize) -> Option<String> {
        let longest = self.longest.filter(|_| long > 0)?;
        let texts = count(long, "text");
        Some(format!("left out: {texts} beyond the {longest} bytes that a field holds"))
    }
}
