//! Several tolerances: a list of them, and the names of the outputs of each.

use super::options::within;
use super::Request;
use crate::store::is_database;
use crate::writing::apart;
use std::path::{Path, PathBuf};

/// What stands in the name of an output for the tolerance.
const PLACE: &str = "{tolerance}";

/// Tolerances, each as it was written and as a number.
#[derive(Clone, Debug, PartialEq)]
pub struct Tolerances(Vec<(String, f64)>);

impl Tolerances {
    /// The tolerances of a list with commas.
    pub fn of(text: &str) -> Result<Self, String> {
        let one = |text: &str| {
            let text = text.trim();
            within(text, 0.0, f64::MAX).map(|tolerance| (text.to_owned(), tolerance))
        };
        text.split(',').map(one).collect::<Result<_, _>>().map(Tolerances).map_err(|fault| {
            match text.contains(',') {
                true => "not numbers from 0 up with commas between them".into(),
                false => fault,
            }
        })
    }
}

/// The request with each of the tolerances, and with outputs named by it. No output may take the place of
/// another, or of the input.
pub fn requests(request: &Request, tolerances: &Tolerances) -> Result<Vec<Request>, String> {
    let Tolerances(all) = tolerances;
    let outputs = [
        ("--output", Some(&request.output)),
        ("--map", request.map.as_ref()),
        ("--bridges", request.bridges.as_ref()),
        ("--page", request.page.as_ref()),
    ];
    let alike = |path: &Path| match path.to_string_lossy() {
        database if is_database(&database) => !request.into.contains(PLACE),
        file => !file.contains(PLACE),
    };
    for (option, path) in outputs {
        if let Some(path) = path.filter(|path| all.len() > 1 && alike(path)) {
            let named = match path.to_str().map_or(false, is_database) {
                true => format!("--into {}", request.into),
                false => format!("{option} {}", path.display()),
            };
            return Err(format!("{named} has no {PLACE} for several tolerances"));
        }
    }
    let requests: Vec<Request> = all.iter().map(|zoom| with_tolerance(request, zoom)).collect();
    let outputs: Vec<&Path> = requests.iter().flat_map(Request::outputs).collect();
    apart(&request.input, &outputs).map(|()| requests)
}

fn with_tolerance(request: &Request, (written, tolerance): &(String, f64)) -> Request {
    let named = |path: &PathBuf| match path.to_str() {
        Some(text) if !is_database(text) => PathBuf::from(text.replace(PLACE, written)),
        _ => path.clone(),
    };
    Request {
        output: named(&request.output),
        map: request.map.as_ref().map(named),
        bridges: request.bridges.as_ref().map(named),
        page: request.page.as_ref().map(named),
        into: request.into.replace(PLACE, written),
        settings: request.settings.with_tolerance(*tolerance),
        ..request.clone()
    }
}

#[cfg(test)]
mod tests {
    use super::Tolerances;

    #[test]
    fn lists_of_tolerances() {
        let of = |text: &str| Tolerances::of(text).map(|Tolerances(all)| all);
        assert_eq!(of("2.50"), Ok(vec![("2.50".into(), 2.5)]));
        let all = ["0", "2", "5e0"].map(str::to_owned).into_iter().zip([0.0, 2.0, 5.0]).collect();
        assert_eq!(of("0, 2,5e0"), Ok(all));
        assert_eq!(of("-1"), Err("not a number from 0 up".into()));
        for none in ["0,", ",", "0,-1", "1,x", "nan,1"] {
            assert_eq!(of(none), Err("not numbers from 0 up with commas between them".into()));
        }
    }
}
