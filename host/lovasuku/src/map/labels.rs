//! Where the lengths of bridges are written: the longest first, each where there is room.

use super::page::{Page, HEAD, MARGIN};
use crate::delivery::Point;

/// How many bridges have their lengths written beside them at most.
const LABELLED: usize = 40;

/// The height of a label, how far it reaches below its line, the width of a character, and the gap
/// to the ring, in pixels.
const HEIGHT: f64 = 14.0;
const BELOW: f64 = 3.0;
const CHARACTER: f64 = 9.0;
const GAP: f64 = 5.0;

/// The ring around a bridge, and its label.
#[derive(Debug)]
pub struct Ring {
    pub middle: Point,
    pub radius: f64,
    pub length: f64,
    pub label: String,
}

/// A rectangle on the page: its left, upper, right and lower edge.
type Area = [f64; 4];

/// Where the label of each ring begins, if it is written: beside its ring, and on no other ring or
/// label.
pub fn places(page: &Page, rings: &[Ring]) -> Vec<Option<Point>> {
    let mut order: Vec<usize> = (0..rings.len()).collect();
    order.sort_by(|&a, &b| rings[b].length.total_cmp(&rings[a].length));
    let mut places = vec![None; rings.len()];
    let mut taken: Vec<Area> = Vec::new();
    for &k in order.iter().take(LABELLED) {
        let others = |area: &Area| {
            let mut others = rings.iter().enumerate().filter(|&(other, _)| other != k);
            others.any(|(_, ring)| meet(*area, around(ring)))
        };
        let free = |place: &Point| {
            let area = area(*place, &rings[k].label);
            within(page, area) && !taken.iter().any(|&other| meet(area, other)) && !others(&area)
        };
        if let Some(place) = beside(&rings[k]).into_iter().find(free) {
            taken.push(area(place, &rings[k].label));
            places[k] = Some(place);
        }
    }
    places
}

/// The four places beside a ring where its label may begin.
fn beside(ring: &Ring) -> [Point; 4] {
    let [x, y] = ring.middle;
    let right = x + ring.radius + GAP;
    let left = x - ring.radius - GAP - width(&ring.label);
    let [lower, upper] = [y + ring.radius + GAP, y - ring.radius + BELOW];
    [[right, lower], [right, upper], [left, lower], [left, upper]]
}

fn width(label: &str) -> f64 {
    CHARACTER * label.len() as f64
}

fn area([x, y]: Point, label: &str) -> Area {
    [x, y + BELOW - HEIGHT, x + width(label), y + BELOW]
}

fn around(ring: &Ring) -> Area {
    let ([x, y], radius) = (ring.middle, ring.radius);
    [x - radius, y - radius, x + radius, y + radius]
}

fn meet(a: Area, b: Area) -> bool {
    a[0] < b[2] && b[0] < a[2] && a[1] < b[3] && b[1] < a[3]
}

/// True where an area lies in the frame of the map.
fn within(page: &Page, [left, upper, right, lower]: Area) -> bool {
    left >= MARGIN
        && upper >= HEAD
        && right <= MARGIN + page.frame_width()
        && lower <= HEAD + page.frame_height
}

#[cfg(test)]
mod tests {
    use super::{area, meet, places, Ring};
    use crate::delivery::Delivery;
    use crate::map::detail::Detail;
    use crate::map::page::Page;
    use crate::measure::Measure;

    #[test]
    fn labels_stand_apart_and_the_longest_come_first() {
        let delivery = Delivery::default();
        let page = Page::of(&delivery, &Measure::of(&delivery, None), Detail::FULL);
        let ring = |length: usize| Ring {
            middle: [400.0, 300.0],
            radius: 10.0,
            length: length as f64,
            label: length.to_string(),
        };
        let rings: Vec<Ring> = (1..=5).map(ring).collect();
        let places = places(&page, &rings);
        assert_eq!(places[0], None);
        let areas: Vec<_> = places.iter().flatten().map(|&place| area(place, "5")).collect();
        assert_eq!(areas.len(), 4);
        for (k, &one) in areas.iter().enumerate() {
            assert!(!areas[..k].iter().any(|&other| meet(one, other)));
        }
    }
}
