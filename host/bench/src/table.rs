//! Tables that are printed row by row, as aligned text or as Markdown.

/// The form of a table.
#[derive(Clone, Copy, Debug, Default, PartialEq, Eq)]
pub enum Form {
    #[default]
    Text,
    Markdown,
}

/// A column: its name, its width in text, and whether it is a column of numbers.
#[derive(Clone, Copy, Debug)]
pub struct Column {
    pub name: &'static str,
    pub width: usize,
    pub numbers: bool,
}

impl Column {
    pub const fn words(name: &'static str, width: usize) -> Self {
        Column { name, width, numbers: false }
    }

    pub const fn numbers(name: &'static str, width: usize) -> Self {
        Column { name, width, numbers: true }
    }
}

/// The lines above the first row.
pub fn head(form: Form, columns: &[Column]) -> String {
    let names: Vec<String> = columns.iter().map(|column| column.name.to_string()).collect();
    let names = row(form, columns, &names);
    match form {
        Form::Text => names,
        Form::Markdown => {
            let rule = |column: &Column| if column.numbers { "---:|" } else { "---|" };
            let rules: String = columns.iter().map(rule).collect();
            format!("{names}\n|{rules}")
        }
    }
}

/// One row.
pub fn row(form: Form, columns: &[Column], cells: &[String]) -> String {
    let each = columns.iter().zip(cells);
    match form {
        Form::Text => {
            let aligned = |(&Column { width, numbers, .. }, cell): (&Column, &String)| match numbers
            {
                true => format!("{cell:>width$}"),
                false => format!("{cell:<width$}"),
            };
            each.map(aligned).collect::<Vec<_>>().join("  ").trim_end().to_string()
        }
        Form::Markdown => {
            let cell = |(_, cell): (&Column, &String)| format!(" {} |", spaced_once(cell));
            format!("|{}", each.map(cell).collect::<String>())
        }
    }
}

/// The words of a cell with one space between them.
fn spaced_once(cell: &str) -> String {
    cell.split_whitespace().collect::<Vec<_>>().join(" ")
}

/// A ratio with the time that belongs to it, the time in brackets in Markdown.
pub fn measured(form: Form, ratio: f64, nanoseconds: f64) -> String {
    let (ratio, time) = (short(ratio), time(nanoseconds));
    match form {
        Form::Text => format!("{ratio}{time:>9}"),
        Form::Markdown => format!("{ratio} ({time})"),
    }
}

/// A ratio with two decimals, or more where it is small.
pub fn short(ratio: f64) -> String {
    let decimals = if ratio < 0.1 { 3 } else { 2 };
    format!("{ratio:.decimals$}")
}

/// A time in the unit that suits it, with two digits or more.
pub fn time(nanoseconds: f64) -> String {
    let units = [(1e9, "s"), (1e6, "ms"), (1e3, "µs")];
    let fits = units.into_iter().find(|(size, _)| nanoseconds >= 0.9995 * size);
    let (size, unit) = fits.unwrap_or((1.0, "ns"));
    let number = nanoseconds / size;
    let decimals = if number < 9.95 && size > 1.0 { 1 } else { 0 };
    format!("{number:.decimals$} {unit}")
}

/// A whole number with commas between its thousands.
pub fn whole(number: usize) -> String {
    let digits = number.to_string();
    let comma = |place: usize| place > 0 && (digits.len() - place) % 3 == 0;
    let digit =
        |(place, digit)| if comma(place) { format!(",{digit}") } else { format!("{digit}") };
    digits.chars().enumerate().map(digit).collect()
}
