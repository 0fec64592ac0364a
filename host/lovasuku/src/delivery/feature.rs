//! One feature of a delivery.

use super::object::Object;
use super::positions::{Run, Written};
use super::texts::Properties;
use super::Point;
use lovasuku_chains::Dimension;

/// A feature: a line, or other line geometry, with what the delivery tells about it.
#[derive(Clone, Debug)]
pub struct Feature<'a> {
    /// Its position among all features of the delivery.
    pub position: u32,
    /// Which part of a feature it is, where the parts of MultiLineStrings are lines of their own.
    pub part: u32,
    /// What names it as it is written, a text in quotes or a number.
    pub id: Option<&'a str>,
    pub properties: Properties<'a>,
    /// Its members beside those that GeoJSON asks for.
    pub foreign: Object<'a>,
    pub geometry: Geometry<'a>,
}

/// The members that GeoJSON asks for.
const ASKED_FOR: [&str; 4] = ["type", "id", "properties", "geometry"];

/// The geometry of a feature.
#[derive(Clone, Debug)]
pub enum Geometry<'a> {
    /// A LineString, which may be joined.
    Line(Run<'a>),
    /// A MultiLineString, which passes through.
    Lines(Vec<Run<'a>>),
    /// What is no line, in words.
    Other(String),
}

/// What becomes of heights.
#[derive(Clone, Copy, Debug, PartialEq)]
pub enum Heights {
    /// Heights ride along with their positions. A position of more than three numbers is a fault.
    Kept,
    /// All but x and y is left out.
    Dropped,
}

impl Geometry<'_> {
    /// The same by itself.
    pub fn into_owned(self) -> Geometry<'static> {
        let run = |Run { points, heights }: Run| Run {
            points: points.into_owned().into(),
            heights: heights.into_owned().into(),
        };
        match self {
            Geometry::Line(line) => Geometry::Line(run(line)),
            Geometry::Lines(parts) => Geometry::Lines(parts.into_iter().map(run).collect()),
            Geometry::Other(what) => Geometry::Other(what),
        }
    }

    /// The runs of points that it is drawn by.
    pub fn runs(&self) -> Box<dyn Iterator<Item = &[Point]> + '_> {
        match self {
            Geometry::Line(run) => Box::new(std::iter::once(&run.points[..])),
            Geometry::Lines(parts) => Box::new(parts.iter().map(|part| &part.points[..])),
            Geometry::Other(_) => Box::new(std::iter::empty()),
        }
    }

    /// What its positions have, of which GeoJSON knows heights.
    pub fn dimension(&self) -> Dimension {
        let high = |run: &Run| !run.heights.is_empty();
        let any = match self {
            Geometry::Line(run) => high(run),
            Geometry::Lines(parts) => parts.iter().any(high),
            Geometry::Other(_) => false,
        };
        match any {
            true => Dimension::Xyz,
            false => Dimension::Xy,
        }
    }

    /// True where there is no position.
    pub fn is_empty(&self) -> bool {
        self.runs().all(<[Point]>::is_empty)
    }

    /// True for a line of one position, or of several at one point.
    pub fn has_no_length(&self) -> bool {
        match self {
            Geometry::Line(run) => run.points.windows(2).all(|two| two[0] == two[1]),
            _ => false,
        }
    }
}

impl<'a> Feature<'a> {
    /// The feature that a text holds, or what is wrong with it.
    pub fn of(text: &'a str, heights: Heights) -> Result<Self, String> {
        let object = Object::of(text).ok_or("it is not an object with readable names")?;
        match object.get("type").and_then(words).as_deref() {
            Some("Feature") => (),
            Some(other) => return Err(format!("its type is {other:?}, not \"Feature\"")),
            None => return Err("it has no type".into()),
        }
        let id = match object.get("id") {
            None | Some("null") => None,
            Some(id) => Some(scalar(id).ok_or("its id is neither a text nor a number")?),
        };
        let (properties, geometry) = (properties(&object)?, geometry(&object, heights)?);
        let properties = Properties::Written(properties);
        let mut foreign = object;
        foreign.retain(|name, _| !ASKED_FOR.contains(&name));
        foreign.fit();
        Ok(Feature { position: 0, part: 0, id, properties, foreign, geometry })
    }

    /// Takes away the box, which is that of the geometry as it was written.
    pub fn drop_box(&mut self) {
        self.foreign.retain(|name, _| name != "bbox");
        self.foreign.fit();
    }

    /// The value of a property as it is written; a null is no value.
    pub fn property(&self, name: &str) -> Option<&'a str> {
        self.properties.get(name).filter(|&value| value != "null")
    }

    /// All its properties.
    pub fn object(&self) -> Object<'a> {
        self.properties.object()
    }
}

/// The words of a JSON text, if it is one.
fn words(text: &str) -> Option<String> {
    serde_json::from_str(text).ok()
}

/// A value that may name a line: a text or a number.
pub fn scalar(value: &str) -> Option<&str> {
    let named = |first: char| first == '"' || first == '-' || first.is_ascii_digit();
    Some(value).filter(|value| value.starts_with(named))
}

fn properties<'a>(feature: &Object<'a>) -> Result<Option<&'a str>, String> {
    match feature.get("properties") {
        None | Some("null") => Ok(None),
        Some(text) if Object::of(text).is_some() => Ok(Some(text)),
        Some(_) => Err("its properties are not an object with readable names".into()),
    }
}

fn geometry(feature: &Object, heights: Heights) -> Result<Geometry<'static>, String> {
    let text = match feature.get("geometry") {
        None => return Err("it has no geometry".into()),
        Some("null") => return Ok(Geometry::Other("null".into())),
        Some(text) => text,
    };
    let object = Object::of(text).ok_or("its geometry is not an object")?;
    let coordinates = object.get("coordinates").unwrap_or("null");
    match object.get("type").and_then(words).as_deref() {
        Some("LineString") => line(coordinates, heights),
        Some("MultiLineString") => lines(coordinates, heights),
        Some(kind) if OTHER.contains(&kind) => Ok(Geometry::Other(format!("a {kind}"))),
        Some(other) => Err(format!("its geometry is a {other}, which is none of GeoJSON")),
        None => Err("its geometry has no type".into()),
    }
}

/// The kinds of geometry that are no lines.
const OTHER: [&str; 5] = ["Point", "MultiPoint", "Polygon", "MultiPolygon", "GeometryCollection"];

const NO_POSITIONS: &str = "its coordinates are not positions of finite numbers";

const NO_PLACE: &str =
    "a number of its coordinates is too large for a double, so that it is no place";

/// What is wrong with coordinates that cannot be read.
fn unread(fault: serde_json::Error) -> &'static str {
    match fault.to_string().starts_with("number out of range") {
        true => NO_PLACE,
        false => NO_POSITIONS,
    }
}

fn line(coordinates: &str, heights: Heights) -> Result<Geometry<'static>, String> {
    let run: Written = serde_json::from_str(coordinates).map_err(unread)?;
    with_heights(run, heights, "").map(Geometry::Line)
}

fn lines(coordinates: &str, heights: Heights) -> Result<Geometry<'static>, String> {
    let runs: Vec<Written> = serde_json::from_str(coordinates).map_err(unread)?;
    let part = |(part, run)| with_heights(run, heights, &format!(" of part {part}"));
    runs.into_iter().enumerate().map(part).collect::<Result<_, _>>().map(Geometry::Lines)
}

/// The run with its heights or without them.
fn with_heights(run: Written, heights: Heights, of: &str) -> Result<Run<'static>, String> {
    let Written { mut points, heights: written, beyond } = run;
    points.shrink_to_fit();
    let points = points.into();
    match (beyond, heights) {
        (Some(k), Heights::Kept) => Err(format!(
            "its position {k}{of} has more than three numbers (--drop-heights leaves all but x and y out)"
        )),
        (None, Heights::Kept) => Ok(Run { points, heights: written.into() }),
        (_, Heights::Dropped) => Ok(Run { points, ..Run::default() }),
    }
}

#[cfg(test)]
mod tests {
    use super::{Feature, Geometry, Heights};

    fn fault(geometry: &str) -> String {
        let text = format!(r#"{{"type": "Feature", "geometry": {geometry}}}"#);
        Feature::of(&text, Heights::Kept).map(|_| ()).unwrap_err()
    }

    #[test]
    fn a_line_with_all_that_is_told_about_it() {
        let text = r#"{"geometry": {"coordinates": [[1, 2], [3, 4]], "type": "LineString"},
            "id": "a", "properties": {"kind": "spur", "width": null}, "type": "Feature"}"#;
        let feature = Feature::of(text, Heights::Kept).unwrap();
        assert_eq!(feature.id, Some("\"a\""));
        assert_eq!(feature.property("kind"), Some("\"spur\""));
        assert_eq!(feature.property("width"), None);
        assert!(feature.geometry.runs().eq([[[1.0, 2.0], [3.0, 4.0]]]));
    }

    #[test]
    fn heights_are_kept_or_dropped() {
        let heights = |geometry: &str, heights| {
            let text = format!(r#"{{"type": "Feature", "geometry": {geometry}}}"#);
            let feature = Feature::of(&text, heights).unwrap();
            assert!(feature.geometry.runs().eq([[[1.0, 2.0]]; 2]));
            match feature.geometry {
                Geometry::Lines(parts) => parts.iter().map(|run| run.height(0)).collect(),
                _ => Vec::new(),
            }
        };
        let geometry = r#"{"type": "MultiLineString", "coordinates": [[[1, 2]], [[1, 2, 3]]]}"#;
        assert_eq!(heights(geometry, Heights::Kept), [None, Some(3.0)]);
        assert_eq!(heights(geometry, Heights::Dropped), [None, None]);
        let beyond = r#"{"type": "MultiLineString", "coordinates": [[[1, 2]], [[1, 2, 3, 4]]]}"#;
        assert!(fault(beyond).starts_with("its position 0 of part 1 has more than three numbers"));
        assert_eq!(heights(beyond, Heights::Dropped), [None, None]);
    }

    #[test]
    fn what_is_no_line() {
        assert_eq!(fault("{}"), "its geometry has no type");
        let circle = "its geometry is a Circle, which is none of GeoJSON";
        assert_eq!(fault(r#"{"type": "Circle"}"#), circle);
        let polygon = r#"{"type": "Feature", "geometry": {"type": "Polygon"}}"#;
        let feature = Feature::of(polygon, Heights::Kept).unwrap();
        assert!(matches!(feature.geometry, Geometry::Other(what) if what == "a Polygon"));
        assert_eq!(fault(r#"{"type": "LineString"}"#), super::NO_POSITIONS);
        assert_eq!(fault(r#"{"type": "LineString", "coordinates": [[1]]}"#), super::NO_POSITIONS);
    }
}
