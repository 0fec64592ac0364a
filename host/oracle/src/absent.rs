//! Stands in for the window where there is no original. No call reaches it, since every call
//! needs an [`Oracle`](crate::Oracle), and none is given out.

use crate::chains::Chain;
use crate::stand_ins::geo::Geometry;
use answers::model::plane::Point;
use answers::{BuildCall, Pair, PairingCall, Route};
use std::marker::PhantomData;

pub struct ReadyBuild<'a>(PhantomData<&'a ()>);

pub struct RawChains(());

impl<'a> ReadyBuild<'a> {
    pub fn new(_geometries: &'a [Geometry<f64>], _call: &BuildCall, _angle: f64) -> Self {
        unreachable!("there is no original")
    }

    pub fn run(&self) -> RawChains {
        unreachable!("there is no original")
    }
}

pub fn build(_call: &BuildCall, _angle: f64) -> Vec<Chain> {
    unreachable!("there is no original")
}

pub struct ReadyPairs(());

impl ReadyPairs {
    pub fn new(_route: Route, _call: &PairingCall, _angle: f64) -> Self {
        unreachable!("there is no original")
    }

    pub fn run(&self) -> Vec<(usize, usize)> {
        unreachable!("there is no original")
    }
}

pub fn pairs(_route: Route, _call: &PairingCall, _angle: f64) -> Vec<Pair> {
    unreachable!("there is no original")
}

pub fn direction(_points: &[Point], _end: usize) -> Option<(f64, f64)> {
    unreachable!("there is no original")
}

pub fn measure(_a: (f64, f64), _b: (f64, f64)) -> f64 {
    unreachable!("there is no original")
}

pub fn geometries(_call: &BuildCall) -> Vec<Geometry<f64>> {
    unreachable!("there is no original")
}
