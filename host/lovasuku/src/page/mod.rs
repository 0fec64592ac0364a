//! The page that answers for a route: one file of HTML that any browser opens without a network. It shows
//! the lines and the chains, and tells of every joint why it was made and of every junction why its other
//! pairs were not.
//!
//! The reasons are those of the library, by way of [`lovasuku_chains::explain`]. The page's own sources
//! stand in the folder `web`, and are put into the file as they are.

mod bytes;
mod checksum;
mod columns;
mod content;
mod frame;
mod joined;
mod junctions;
mod shapes;

use crate::arguments::Request;
use crate::classes::Classes;
use crate::delivery::Delivery;
use crate::joining::Chain;
use crate::measure::Measure;
use crate::tally::Tally;
pub use checksum::checksum;
use lovasuku_chains::explain::Explained;
use lovasuku_chains::Refusal;

/// From how many bytes on a page is slow to open.
const MANY_BYTES: usize = 30_000_000;

/// A warning where a page has so many bytes that browsers are slow to open it.
pub fn of_size(bytes: usize) -> Option<String> {
    let words = format!("the page has {} MB, which browsers open slowly", bytes / 1_000_000);
    (bytes > MANY_BYTES).then_some(words)
}

/// What a page is made of.
pub struct Page<'a> {
    /// The name of the input.
    pub name: &'a str,
    /// The checksum of the input.
    pub checksum: &'a str,
    pub request: &'a Request,
    pub delivery: &'a Delivery<'a>,
    pub classes: &'a Classes<'a>,
    pub measure: &'a Measure,
    pub chains: &'a [Chain<'a>],
    pub tally: &'a Tally,
    pub explained: &'a Explained,
}

impl Page<'_> {
    /// The page.
    ///
    /// # Errors
    ///
    /// What the library refuses to give reasons for.
    pub fn text(&self) -> Result<Vec<u8>, Refusal> {
        Ok(frame::framed(&content::content(self)?).into_bytes())
    }
}
