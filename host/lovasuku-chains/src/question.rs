//! The chain question, for tables that did not come straight from a call.

use crate::chains::part;
use crate::size::RECORD;
use crate::{door, Dimension, Refusal};

/// Asks whether record k of a table names a chain in the coordinates or the merged coordinates.
///
/// # Errors
///
/// [`Refusal::NoSuchChain`] exactly where the record is not wholly in the table, its source is
/// above 1, or its coordinates reach beyond the slice that its source names. Whether it is a loop is not
/// looked at.
///
/// ```
/// use lovasuku_chains::{chain_question, Dimension, Refusal};
///
/// // One chain in the merged coordinates: first coordinate 0, two coordinates.
/// let (merged, table) = ([0.0, 0.0, 1.0, 0.0], [0, 2, 1, 0, 2, 0]);
/// let question = |dimension, k| chain_question(dimension, &[], &merged, &table, k);
/// assert_eq!(question(Dimension::Xy, 0), Ok(()));
/// assert_eq!(question(Dimension::Xy, 1), Err(Refusal::NoSuchChain));
/// // Two coordinates with heights would be six numbers.
/// assert_eq!(question(Dimension::Xyz, 0), Err(Refusal::NoSuchChain));
/// ```
pub fn chain_question(
    dimension: Dimension,
    coordinates: &[f64],
    merged: &[f64],
    table: &[u32],
    k: u64,
) -> Result<(), Refusal> {
    door::result(door::chain(dimension.wkb_type(), coordinates, merged, table, k)).map(|_| ())
}

/// The numbers of the coordinates that record k of a table names, a part of one of the two slices.
///
/// # Errors
///
/// As [`chain_question`].
///
/// ```
/// use lovasuku_chains::{chain_coordinates, Dimension};
///
/// let (merged, table) = ([9.0, 9.0, 0.0, 0.0, 1.0, 0.0], [0, 2, 1, 1, 2, 0]);
/// let chain = chain_coordinates(Dimension::Xy, &[], &merged, &table, 0).unwrap();
/// assert_eq!(chain, [0.0, 0.0, 1.0, 0.0]);
/// ```
pub fn chain_coordinates<'a>(
    dimension: Dimension,
    coordinates: &'a [f64],
    merged: &'a [f64],
    table: &[u32],
    k: u64,
) -> Result<&'a [f64], Refusal> {
    chain_question(dimension, coordinates, merged, table, k)?;
    let stride = dimension.stride();
    let k = usize::try_from(k).map_err(|_| Refusal::NoSuchChain)?;
    match table.chunks_exact(RECORD).nth(k) {
        Some(&[_, _, 0, first, count, _]) => Ok(part(coordinates, first, count, stride)),
        Some(&[_, _, _, first, count, _]) => Ok(part(merged, first, count, stride)),
        _ => Err(Refusal::NoSuchChain),
    }
}
