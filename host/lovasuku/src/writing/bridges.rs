//! The bridges and the gaps as features.

use super::{list, number, position, value};
use crate::delivery::{Delivery, Point};
use crate::joining::{Gap, Joint, Outlined, Why};
use crate::measure::Measure;
use crate::numbers::parts;

/// What the features of bridges and gaps are written from.
#[derive(Debug)]
pub struct Bridges<'a> {
    pub delivery: &'a Delivery<'a>,
    pub measure: &'a Measure,
    pub tolerance: f64,
}

/// How many chains are laid at a time.
const PART: usize = 4096;

impl Bridges<'_> {
    /// One feature a bridge, and behind these one a gap below the tolerance that stayed open, of chains
    /// that meet the window.
    pub fn write(&self, outlined: &Outlined, gaps: &[Gap]) -> Vec<Vec<u8>> {
        let mut features = Vec::new();
        for part in parts(0..outlined.len(), PART) {
            let told = outlined.told(part.clone());
            for (chain, each) in part.zip(told.chains()).filter(|(_, each)| each.in_window) {
                let bridges = each.joints.iter().filter(|joint| joint.is_bridge());
                features.extend(bridges.map(|bridge| self.bridge(chain, bridge)));
            }
        }
        let inside = |chain: usize| chain < outlined.len() && outlined.is_inside(chain);
        let gaps = gaps.iter().filter(|gap| gap.chains.into_iter().any(inside));
        features.extend(gaps.map(|gap| self.gap(gap)));
        features
    }

    /// A bridge: its two lines, its length, whether that is more than the tolerance, and its chain.
    fn bridge(&self, chain: usize, bridge: &Joint) -> Vec<u8> {
        let mut out = self.head("bridge", bridge.lines, bridge.ends);
        out.extend(b",\"longer\":");
        value(&mut out, &(bridge.length() > self.tolerance));
        out.extend(b",\"chain\":");
        value(&mut out, &chain);
        end(out, &bridge.ends)
    }

    /// A gap: its two lines, its length, why it stayed open, and its chains.
    fn gap(&self, gap: &Gap) -> Vec<u8> {
        let mut out = self.head("gap", gap.lines, gap.ends);
        out.extend(b",\"why\":");
        let why = match gap.why {
            Why::Cells => "cells",
            Why::Junction => "junction",
            Why::Ring => "ring",
        };
        value(&mut out, &why);
        out.extend(b",\"chains\":");
        list(&mut out, gap.chains, |out, chain| value(out, &chain));
        end(out, &gap.ends)
    }

    fn head(&self, kind: &str, lines: [u32; 2], [a, b]: [Point; 2]) -> Vec<u8> {
        let mut out = b"{\"type\":\"Feature\",\"properties\":{\"kind\":".to_vec();
        value(&mut out, &kind);
        out.extend(b",\"lines\":");
        list(&mut out, lines, |out, line| out.extend(self.delivery.name(line).bytes()));
        out.extend(b",\"length\":");
        number(&mut out, self.measure.distance(a, b));
        out.extend(b",\"unit\":");
        value(&mut out, &self.measure.unit);
        out
    }
}

fn end(mut out: Vec<u8>, ends: &[Point; 2]) -> Vec<u8> {
    out.extend(b"},\"geometry\":{\"type\":\"LineString\",\"coordinates\":");
    list(&mut out, ends, position);
    out.extend(b"}}");
    out
}
