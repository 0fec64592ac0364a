//! Networks of lines out of files, joined as deliveries and held to the judge.
//!
//! - [`reading`]: a file of lines, one feature a row.
//! - [`forms`]: the same lines as they are, cut into many, and in patches that one call holds.
//! - [`comparing`]: one form by every setting and in every way.

pub mod comparing;
pub mod forms;
pub mod reading;

use crate::large::wanted;
use crate::Judge;
use answers::BuildCall;
use comparing::{compare, Tally};
use std::fs::File;
use std::io::BufReader;
use std::path::Path;

/// The network of a file.
///
/// # Errors
///
/// A sentence that names the file, where it cannot be read or has no lines, and the row where it is one.
pub fn open(path: &Path) -> Result<BuildCall, String> {
    let in_this = |fault: String| format!("{}: {fault}", path.display());
    let file = File::open(path).map_err(|fault| in_this(fault.to_string()))?;
    match reading::read(BufReader::new(file)) {
        Ok(network) if network.lines() == 0 => Err(in_this("there are no lines".to_string())),
        network => network.map_err(in_this),
    }
}

/// Compares every form of a network, and tells of each what came of it. The sum is of all forms.
pub fn compare_forms(judge: Judge, network: &BuildCall, tell: &dyn Fn(&str, &Tally)) -> Tally {
    let mut sum = Tally::default();
    for (form, calls) in forms::all(network) {
        let mut tally = Tally::default();
        for call in &calls {
            tally.add(compare(call, &|call| wanted(judge, call)));
        }
        tell(form, &tally);
        sum.add(tally);
    }
    sum
}
