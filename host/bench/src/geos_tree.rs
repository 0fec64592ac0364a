//! GEOS's STRtree: boxes of geometries, and which of them meet a window.
//!
//! Each unsafe line calls a function of the library by the signature that `geos_c.h` declares, on
//! pointers that the library gave out, and on a list that is alive while it is called.
#![allow(unsafe_code)]

use crate::geos::{function, Geometry, Geos, Pointer};

/// How many boxes a node of the tree holds, as GEOS proposes it.
const CAPACITY: usize = 10;

/// What is called for each item that is found.
type Found = unsafe extern "C" fn(Pointer, Pointer);

/// A tree over boxes, with what is called of it. The geometries are those in it.
pub struct Tree<'a> {
    geos: &'a Geos,
    tree: Pointer,
    query: unsafe extern "C" fn(Pointer, Pointer, Pointer, Found, Pointer),
    destroy: unsafe extern "C" fn(Pointer, Pointer),
    _geometries: Vec<Geometry<'a>>,
}

impl<'a> Tree<'a> {
    /// The tree over lines from the least to the greatest corners of boxes, four numbers each.
    pub fn of(geos: &'a Geos, boxes: &[f64]) -> Option<Tree<'a>> {
        type Insert = unsafe extern "C" fn(Pointer, Pointer, Pointer, Pointer);
        let corners = |four: &[f64]| diagonal(geos, four);
        let geometries: Vec<Geometry<'a>> =
            boxes.chunks_exact(4).map(corners).collect::<Option<_>>()?;
        unsafe {
            let create: unsafe extern "C" fn(Pointer, usize) -> Pointer =
                function(geos.library(), "GEOSSTRtree_create_r")?;
            let insert: Insert = function(geos.library(), "GEOSSTRtree_insert_r")?;
            let tree = create(geos.handle(), CAPACITY);
            for (item, geometry) in geometries.iter().enumerate() {
                insert(geos.handle(), tree, geometry.pointer(), (item + 1) as Pointer);
            }
            Some(Tree {
                geos,
                tree,
                query: function(geos.library(), "GEOSSTRtree_query_r")?,
                destroy: function(geos.library(), "GEOSSTRtree_destroy_r")?,
                _geometries: geometries,
            })
        }
    }

    /// Puts the boxes that meet a window behind those found so far, in the tree's order.
    pub fn look(&self, window: &Geometry<'_>, found: &mut Vec<u32>) {
        let list: *mut Vec<u32> = found;
        unsafe {
            (self.query)(self.geos.handle(), self.tree, window.pointer(), push, list.cast());
        }
    }
}

impl Drop for Tree<'_> {
    fn drop(&mut self) {
        unsafe { (self.destroy)(self.geos.handle(), self.tree) }
    }
}

unsafe extern "C" fn push(item: Pointer, list: Pointer) {
    (*list.cast::<Vec<u32>>()).push(item as usize as u32 - 1);
}

/// A line between the corners of a box, whose extent is the box.
pub fn diagonal<'a>(geos: &'a Geos, four: &[f64]) -> Option<Geometry<'a>> {
    let numbers: Vec<u64> = four.iter().map(|number| number.to_bits()).collect();
    geos.geometry(&numbers, 2)
}
