//! The text of a delivery.

use super::formats;
use anyhow::{anyhow, bail, Context, Result};
use std::fs;
use std::io::{self, Read};
use std::path::Path;

/// The text of a file, or of the standard input where the path is `-`.
pub fn text(path: &Path) -> Result<String> {
    let bytes = if path == Path::new("-") {
        let mut bytes = Vec::new();
        io::stdin().read_to_end(&mut bytes).context("the standard input cannot be read")?;
        bytes
    } else {
        fs::read(path).context("it cannot be read")?
    };
    if let Some(format) = formats::told(&bytes, path) {
        bail!(format);
    }
    let text = String::from_utf8(bytes).map_err(|fault| {
        anyhow!("it is not UTF-8 text, from byte {} on", fault.utf8_error().valid_up_to())
    })?;
    Ok(without_marks(text))
}

/// The record separator that may stand before a feature, once or more often (RFC 8142).
const SEPARATOR: char = '\u{1e}';

/// The text with a blank for each mark: a byte order mark, and record separators that begin a line.
/// Lines and columns stay what they are.
fn without_marks(text: String) -> String {
    if !text.starts_with('\u{feff}') && !text.contains(SEPARATOR) {
        return text;
    }
    let mut begins = true;
    let blank = |each: char| {
        let mark = begins && (each == SEPARATOR || each == '\u{feff}');
        begins = each == '\n' || begins && (mark || each.is_whitespace());
        if mark {
            ' '
        } else {
            each
        }
    };
    text.chars().map(blank).collect()
}

#[cfg(test)]
mod tests {
    use super::without_marks;

    #[test]
    fn marks_become_blanks() {
        let of = |text: &str| without_marks(text.into());
        assert_eq!(of("\u{1e}{}\n\u{1e}\u{1e}{}\n \u{1e}{}"), " {}\n  {}\n  {}");
        assert_eq!(of("\u{feff}\u{1e}{}"), "  {}");
        assert_eq!(of("{\"a\": \"\u{1e}\"}"), "{\"a\": \"\u{1e}\"}");
        assert_eq!(of("{}"), "{}");
    }
}
