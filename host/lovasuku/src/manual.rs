//! The manual: pages in roff, made of the definitions of the arguments.

use crate::arguments;
use anyhow::{Context, Result};
use clap::{Arg, Command};
use roff::{bold, italic, line_break, roman, Inline, Roff};

/// The manual page of the command, or of one of its subcommands.
pub fn page(subcommand: Option<&str>) -> Result<Vec<u8>> {
    let mut command = arguments::command();
    command.build();
    let (name, command) = match subcommand {
        None => ("lovasuku".to_owned(), &command),
        Some(name) => {
            let found = command.find_subcommand(name).context("there is no such page")?;
            (format!("lovasuku-{name}"), found)
        }
    };
    let mut page = Roff::new();
    let version = concat!("lovasuku ", env!("CARGO_PKG_VERSION"));
    page.control("TH", [&name.to_uppercase()[..], "1", "", version]);
    let about = command.get_about().map(ToString::to_string).unwrap_or_default();
    page.control("SH", ["NAME"]).text([roman(format!("{name} - {about}"))]);
    page.control("SH", ["SYNOPSIS"]).text(synopsis(command));
    if let Some(words) = command.get_long_about() {
        page.control("SH", ["DESCRIPTION"]);
        prose(&mut page, &words.to_string());
    }
    options(&mut page, command);
    subcommands(&mut page, command);
    if let Some(words) = command.get_after_help() {
        page.control("SH", ["EXAMPLES AND EXIT STATUS"]);
        as_it_is(&mut page, &words.to_string());
    }
    Ok(page.render().into_bytes())
}

fn synopsis(command: &Command) -> Vec<Inline> {
    let name = command.get_bin_name().unwrap_or_else(|| command.get_name()).to_owned();
    let mut line = vec![bold(name)];
    for arg in shown(command).filter(|arg| arg.is_required_set()) {
        line.push(roman(" "));
        line.extend(signature(arg));
    }
    if command.has_subcommands() {
        line.extend([roman(" "), italic("COMMAND")]);
    }
    line.push(roman(" [OPTIONS]"));
    line
}

/// The arguments that the help shows.
fn shown(command: &Command) -> impl Iterator<Item = &Arg> {
    command.get_arguments().filter(|arg| !arg.is_hide_set() && arg.get_id() != "version")
}

/// How an argument is given: its names and its value.
fn signature(arg: &Arg) -> Vec<Inline> {
    let short = arg.get_short().map(|short| format!("-{short}"));
    let long = arg.get_long().map(|long| format!("--{long}"));
    let names: Vec<String> = short.into_iter().chain(long).collect();
    let mut line = vec![bold(names.join(", "))];
    if arg.get_action().takes_values() {
        let values = arg.get_value_names().unwrap_or_default();
        line.extend((!names.is_empty()).then(|| roman(" ")));
        line.extend(values.iter().map(|value| italic(value.as_str())));
    }
    line
}

fn options(page: &mut Roff, command: &Command) {
    let mut heading = None;
    for arg in shown(command) {
        let of = match arg.get_help_heading() {
            Some(heading) => heading.to_uppercase(),
            None if arg.is_positional() => "ARGUMENTS".into(),
            None => "HELP".into(),
        };
        if heading.as_ref() != Some(&of) {
            page.control("SH", [&of[..]]);
            heading = Some(of);
        }
        page.control("TP", []).text(signature(arg));
        let help = arg.get_long_help().or_else(|| arg.get_help());
        prose(page, &help.map(ToString::to_string).unwrap_or_default());
    }
}

fn subcommands(page: &mut Roff, command: &Command) {
    let mut all = command.get_subcommands().filter(|each| each.get_name() != "help").peekable();
    if all.peek().is_some() {
        page.control("SH", ["SUBCOMMANDS"]);
    }
    for each in all {
        let about = each.get_about().map(ToString::to_string).unwrap_or_default();
        page.control("TP", []).text([bold(each.get_name())]).text([roman(about)]);
    }
}

/// Paragraphs, whose lines are filled, but for indented ones, which stay lines.
fn prose(page: &mut Roff, words: &str) {
    for line in words.lines() {
        match line {
            "" => page.control("PP", []),
            _ if line.starts_with(' ') => page.control("br", []).text([roman(line)]),
            _ => page.text([roman(line)]),
        };
    }
}

/// Lines as they stand.
fn as_it_is(page: &mut Roff, words: &str) {
    page.control("nf", []);
    for line in words.lines() {
        page.text([if line.is_empty() { line_break() } else { roman(line) }]);
    }
    page.control("fi", []);
}
