//! Priorities, the gate and the budget, none of which chain building uses.

use super::level::Crs;

#[derive(Debug, Clone, Copy)]
pub struct SortDirection;

#[derive(Debug, Clone, Copy)]
pub struct AssignConfig {
    pub line_visibility: f64,
    pub line_thinning: f64,
    pub sort_direction: SortDirection,
}

#[derive(Debug, Clone, Copy)]
pub enum FeatureKind {
    Line,
}

#[derive(Debug, Clone, Copy)]
pub struct AssignFeature {
    pub index: usize,
    pub bbox: [f64; 4],
    pub kind: FeatureKind,
    pub sort_key: Option<f64>,
    pub entry_level: Option<u8>,
}

impl AssignFeature {
    pub fn row(&self) -> Self {
        *self
    }

    pub fn center(&self) -> (f64, f64) {
        unreachable!("thinning is not ported")
    }
}

#[derive(Debug, Clone, Copy)]
pub struct Priority;

impl Priority {
    pub fn new(_row: AssignFeature, _direction: SortDirection) -> Self {
        unreachable!("priorities are not ported")
    }

    pub fn beats(&self, _other: &Self) -> bool {
        unreachable!("priorities are not ported")
    }
}

pub struct FeatureTable;

impl FromIterator<AssignFeature> for FeatureTable {
    fn from_iter<I: IntoIterator<Item = AssignFeature>>(_features: I) -> Self {
        unreachable!("the budget is not ported")
    }
}

pub fn select_budget_survivors(
    _candidates: &[usize],
    _most: usize,
    _features: &FeatureTable,
    _direction: SortDirection,
    _gsd: f64,
    _crs: Crs,
    _gamma: f64,
) -> Vec<usize> {
    unreachable!("the budget is not ported")
}
