//! The names of databases, as GDAL takes them, and what of them is told.

use std::path::Path;

/// What names of databases begin with: settings behind the first, an address with the second.
const SETTINGS: &str = "PG:";
const ADDRESS: &str = "postgresql://";

/// The settings that are told. All others may be secrets.
const TOLD: [&str; 7] = ["service", "host", "hostaddr", "port", "dbname", "user", "active_schema"];

/// True for the name of a database.
pub fn is_database(name: &str) -> bool {
    let begins = |start: &str| {
        name.get(..start.len()).map_or(false, |begin| begin.eq_ignore_ascii_case(start))
    };
    begins(SETTINGS) || begins(ADDRESS)
}

/// True for the name of a database, or of a place that GDAL alone knows.
pub fn is_connection(name: &str) -> bool {
    is_database(name) || name.starts_with("/vsi")
}

/// A path in words. Of the name of a database all is told that is no secret.
pub fn shown(path: &Path) -> String {
    let words = path.display().to_string();
    match (is_database(&words), words.find("://")) {
        (false, _) => words,
        (true, Some(begin)) => of_address(&words, begin + "://".len()),
        (true, None) => {
            let (start, settings) = words.split_at(SETTINGS.len());
            let told: Vec<&str> = told(settings).collect();
            format!("{start}{}", told.join(" "))
        }
    }
}

/// An address, whose settings begin behind a question mark, without these and without a user.
fn of_address(words: &str, begin: usize) -> String {
    let (start, address) = words.split_at(begin);
    let address = address.split('?').next().unwrap_or_default();
    let place = address.rsplit('@').next().unwrap_or_default();
    format!("{start}{place}")
}

/// The settings that are told, as they are written.
fn told(mut rest: &str) -> impl Iterator<Item = &str> {
    std::iter::from_fn(move || loop {
        rest = rest.trim_start();
        let (key, value) = rest.split_once('=')?;
        let value = value.trim_start();
        let setting = &rest[..rest.len() - value.len() + length(value)];
        rest = &rest[setting.len()..];
        if TOLD.contains(&key.trim_end()) {
            return Some(setting);
        }
    })
}

/// The bytes of a value: up to a blank, or to the second quote of one in quotes. What stands behind a
/// backslash ends nothing.
fn length(value: &str) -> usize {
    let quoted = value.starts_with('\'');
    let mut behind_backslash = false;
    for (k, each) in value.char_indices().skip(usize::from(quoted)) {
        match each {
            _ if behind_backslash => behind_backslash = false,
            '\\' => behind_backslash = true,
            '\'' if quoted => return k + 1,
            _ if !quoted && each.is_whitespace() => return k,
            _ => (),
        }
    }
    value.len()
}

#[cfg(test)]
mod tests {
    use super::{is_connection, is_database, shown};
    use std::path::Path;

    #[test]
    fn names_of_databases() {
        assert!(
            is_database("PG:dbname=a") && is_database("pg:") && is_database("postgresql://a/b")
        );
        assert!(!is_database("PGB") && !is_database("a.gpkg") && !is_database("å"));
        assert!(is_connection("/vsizip/a.zip") && !is_connection("a.zip"));
    }

    #[test]
    fn no_secret_is_told() {
        let shown = |name: &str| shown(Path::new(name));
        assert_eq!(shown("roads password=x.gpkg"), "roads password=x.gpkg");
        assert_eq!(shown("PG:dbname=roads password=x user=maps"), "PG:dbname=roads user=maps");
        assert_eq!(shown("PG:password = 'a \\' b' dbname = 'a b'"), "PG:dbname = 'a b'");
        assert_eq!(shown("PG:password=a\\ b host=db"), "PG:host=db");
        assert_eq!(shown("PG:dbname=roads password='open"), "PG:dbname=roads");
        assert_eq!(shown("PG:passfile=x sslpassword=y"), "PG:");
        assert_eq!(shown("PG:secret"), "PG:");
        assert_eq!(
            shown("postgresql://maps:a@b@db:5432/roads?password=x"),
            "postgresql://db:5432/roads"
        );
        assert_eq!(shown("PG:postgresql://maps:a@/roads"), "PG:postgresql:///roads");
    }
}
