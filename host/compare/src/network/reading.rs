//! Lines out of GeoJSON with one feature a row, as `ogr2ogr -f GeoJSONSeq` writes them.

use answers::BuildCall;
use std::io::BufRead;

/// Reads a network. Of each row it takes the lines of its geometry, which stands last in it, x and y of
/// every position, and as their group the whole number that is called `group`, or 0.
///
/// # Errors
///
/// A sentence about the first row that has no lines, or cannot be read.
pub fn read(rows: impl BufRead) -> Result<BuildCall, String> {
    let mut call = BuildCall::default();
    for (number, row) in rows.lines().enumerate() {
        let in_this = |fault: &str| format!("row {}: {fault}", number + 1);
        let row = row.map_err(|fault| in_this(&fault.to_string()))?;
        let row = row.trim_matches(|c: char| c == '\u{1e}' || c.is_whitespace());
        if !row.is_empty() {
            read_row(row, &mut call).map_err(in_this)?;
        }
    }
    Ok(call)
}

/// Adds the lines of a row.
fn read_row(row: &str, call: &mut BuildCall) -> Result<(), &'static str> {
    let group = group(row)?;
    let (before, mut rest) = match row.rfind("\"coordinates\"") {
        Some(at) => (&row[..at], &row[at + "\"coordinates\"".len()..]),
        None => return Err("there are no coordinates"),
    };
    expect(&mut rest, ':')?;
    let line = &mut |rest: &mut &str| {
        let points = read_line(rest)?;
        call.push(&points, group, 0);
        Ok(())
    };
    if before.contains("\"MultiLineString\"") {
        read_list(&mut rest, line)
    } else if before.contains("\"LineString\"") {
        line(&mut rest)
    } else {
        Err("this is no line")
    }
}

/// The number that is called `group`, or 0.
fn group(row: &str) -> Result<u32, &'static str> {
    let mut rest = match row.split_once("\"group\"") {
        Some((_, rest)) => rest,
        None => return Ok(0),
    };
    expect(&mut rest, ':')?;
    let digits = rest.trim_start().split(|c: char| !c.is_ascii_digit()).next();
    digits.unwrap_or_default().parse().map_err(|_| "the group is no whole number")
}

/// Reads the positions of a line, x and y of each as bits.
fn read_line(rest: &mut &str) -> Result<Vec<[u64; 2]>, &'static str> {
    let mut points = Vec::new();
    read_list(rest, &mut |rest| {
        let mut position = Vec::with_capacity(2);
        read_list(rest, &mut |rest| {
            position.push(read_number(rest)?);
            Ok(())
        })?;
        match position[..] {
            [x, y, ..] => points.push([x.to_bits(), y.to_bits()]),
            _ => return Err("a position has no x and y"),
        }
        Ok(())
    })?;
    Ok(points)
}

/// Reads a list, each thing of it by the given reader.
fn read_list(
    rest: &mut &str,
    thing: &mut dyn FnMut(&mut &str) -> Result<(), &'static str>,
) -> Result<(), &'static str> {
    expect(rest, '[')?;
    if expect(rest, ']').is_ok() {
        return Ok(());
    }
    loop {
        thing(rest)?;
        if expect(rest, ',').is_err() {
            return expect(rest, ']');
        }
    }
}

/// Reads a number that is finite.
fn read_number(rest: &mut &str) -> Result<f64, &'static str> {
    let text = rest.trim_start();
    let end = text.find(|c: char| !matches!(c, '0'..='9' | '+' | '-' | '.' | 'e' | 'E'));
    let (number, after) = text.split_at(end.unwrap_or(text.len()));
    *rest = after;
    match number.parse::<f64>() {
        Ok(number) if number.is_finite() => Ok(number),
        _ => Err("a position has what is no number"),
    }
}

/// Passes a mark.
fn expect(rest: &mut &str, mark: char) -> Result<(), &'static str> {
    match rest.trim_start().strip_prefix(mark) {
        Some(after) => {
            *rest = after;
            Ok(())
        }
        None => Err("a list does not begin or end where it should"),
    }
}
