//! What the page tells, as JSON.

use super::columns::columns;
use super::joined::{chains, gaps};
use super::junctions::junctions;
use super::shapes::shapes;
use super::Page;
use crate::arguments::Request;
use crate::delivery::Delivery;
use crate::numbers::rounded;
use crate::why::words::visible;
use lovasuku_chains::explain::bend_of;
use lovasuku_chains::{Refusal, Settings, Window};
use serde_json::{json, Map, Value};

/// How many bytes a page may have for each line so that properties are told too, how many in any case,
/// and how many of these are for properties at most.
const BYTES_A_LINE: usize = 156;
const FEW_BYTES: usize = 1_500_000;
const MOST_OF_PROPERTIES: usize = 2_000_000;

/// All that the page tells.
pub fn content(page: &Page) -> Result<String, Refusal> {
    let Page { request, delivery, measure, tally, .. } = *page;
    let Settings { tolerance, origin, limit } = request.settings;
    let mut all = Map::new();
    let mut put = |name: &str, value: Value| all.insert(name.to_owned(), value);
    put("version", json!(env!("CARGO_PKG_VERSION")));
    put("input", json!({ "name": page.name, "checksum": page.checksum, "crs": crs(delivery) }));
    put("measure", json!({ "degrees": measure.degrees, "unit": measure.unit }));
    put("settings", json!({ "tolerance": tolerance, "origin": origin, "limit": limit }));
    put("rows", json!(rows(page)));
    put("window", json!(request.window.map(|Window { least, greatest }| [least, greatest])));
    put("warnings", json!(delivery.warnings));
    put("names", names(delivery));
    put("parts", parts(page));
    put("classes", classes(page));
    put("shapes", shapes(delivery));
    put("chains", chains(page.chains, page.explained));
    put("junctions", junctions(page.explained, limit, delivery.len())?);
    put("gaps", gaps(&tally.gaps));
    let size: usize = all.values().map(size).sum();
    let room = FEW_BYTES.max(BYTES_A_LINE * delivery.len()).saturating_sub(size);
    all.insert("properties".into(), columns(delivery, room.min(MOST_OF_PROPERTIES)));
    Ok(Value::Object(all).to_string())
}

/// About how many bytes a value takes.
fn size(value: &Value) -> usize {
    match value {
        Value::String(text) => text.len() + 4,
        Value::Array(all) => all.iter().map(size).sum(),
        Value::Object(all) => all.values().map(size).sum(),
        _ => 4,
    }
}

/// The names of lines for people, or their features' positions where these are not those of the lines.
fn names(delivery: &Delivery) -> Value {
    let as_they_stand = || delivery.lines().all(|line| delivery.position(line) == line);
    match delivery.named_by_ids || !as_they_stand() {
        true => delivery.lines().map(|line| visible(&delivery.label(line))).collect(),
        false => Value::Null,
    }
}

/// Which part of its feature each line is, where lines are parts.
fn parts(page: &Page) -> Value {
    match page.request.reading.explode {
        true => page.delivery.lines().map(|line| page.delivery.part(line)).collect(),
        false => Value::Null,
    }
}

/// The classes in words, and that of each line, where there are several.
fn classes(page: &Page) -> Value {
    let mut places: Vec<u32> = page.classes.groups.clone();
    places.sort_unstable();
    places.dedup();
    if places.len() < 2 {
        return Value::Null;
    }
    let names: Vec<String> = places.iter().map(|&group| page.classes.name(group)).collect();
    let place = |group: &u32| places.binary_search(group).unwrap_or_default();
    let of: Vec<usize> = page.classes.groups.iter().map(place).collect();
    json!({ "names": names, "of": of })
}

/// The name of the reference system, or what else the delivery says of it.
fn crs(delivery: &Delivery) -> Option<String> {
    let text = delivery.crs()?;
    let value: Value = serde_json::from_str(text).unwrap_or_default();
    let name = value["properties"]["name"].as_str();
    Some(name.map_or_else(|| text.to_owned(), str::to_owned))
}

/// The settings in words, each with its name.
fn rows(page: &Page) -> Vec<[String; 2]> {
    let Page { request, measure, .. } = *page;
    let mut rows = vec![["Tolerance".to_owned(), tolerance(page)]];
    let mut row = |name: &str, words: String| rows.push([name.to_owned(), words]);
    row("Junctions", paired(request));
    if let Some(name) = &request.class {
        row("Classes", format!("by {name}: lines of different ones are never joined"));
    }
    if let Some(district) = &request.district {
        row("Second district", district.to_string());
    }
    let reading = &request.reading;
    let flags = [
        (reading.explode, "parts of MultiLineStrings are joined"),
        (reading.drop_empty, "lines without length are left out"),
        (reading.skip_other, "what is no line is left out"),
    ];
    let words: Vec<&str> = flags.iter().filter(|(on, _)| *on).map(|(_, words)| *words).collect();
    if !words.is_empty() {
        row("Reading", words.join("; "));
    }
    row(
        "Lengths",
        match measure.degrees {
            true => "metres on the sphere, for degrees".into(),
            false => format!("in {}", measure.unit),
        },
    );
    rows
}

fn tolerance(page: &Page) -> String {
    let Settings { tolerance, origin: [x, y], .. } = page.request.settings;
    let unit = if page.measure.degrees { "degrees" } else { &page.measure.unit };
    match (tolerance > 0.0, [x, y] == [0.0; 2]) {
        (false, _) => "none: only what meets exactly is joined".into(),
        (true, true) => format!("cells of side {tolerance} {unit}"),
        (true, false) => format!("cells of side {tolerance} {unit}, counted from {x} {y}"),
    }
}

fn paired(request: &Request) -> String {
    match (request.bend, request.offset, request.settings.limit) {
        (_, _, None) => "not paired".into(),
        (_, Some(offset), Some(limit)) => {
            format!("paired up to an offset of {offset}, limit {limit} ({}°)", degrees(limit))
        }
        (Some(bend), None, Some(limit)) => {
            format!("paired up to a bend of {bend}°, limit {limit}")
        }
        (None, None, Some(limit)) => format!("paired up to limit {limit} ({}°)", degrees(limit)),
    }
}

fn degrees(limit: f64) -> String {
    rounded(bend_of(limit))
}
