//! Runs of the command, for the tests.
#![allow(dead_code)]

use serde_json::Value;
use std::fs;
use std::io::Write;
use std::path::{Path, PathBuf};
use std::process::{Command, Stdio};
use tempfile::TempDir;

/// What a run gave back.
#[derive(Debug)]
pub struct Run {
    pub status: i32,
    pub out: String,
    pub err: String,
}

/// Runs the command with arguments and a standard input.
pub fn run(args: &[&str], input: &str) -> Run {
    let mut command = Command::new(env!("CARGO_BIN_EXE_lovasuku"));
    command.args(args).stdin(Stdio::piped()).stdout(Stdio::piped()).stderr(Stdio::piped());
    let mut child = command.spawn().unwrap();
    let mut stdin = child.stdin.take().unwrap();
    let input = input.to_owned();
    // The command may end before it has read all, which is for the test to judge.
    let writer = std::thread::spawn(move || stdin.write_all(input.as_bytes()).unwrap_or_default());
    let output = child.wait_with_output().unwrap();
    writer.join().unwrap();
    Run {
        status: output.status.code().unwrap(),
        out: String::from_utf8(output.stdout).unwrap(),
        err: String::from_utf8(output.stderr).unwrap(),
    }
}

/// The output of a run that is given a text and succeeds.
pub fn joined(text: &str, args: &[&str]) -> String {
    let run = run(&[&["join", "-", "-o", "-", "-q"], args].concat(), text);
    assert_eq!((run.status, &run.err[..]), (0, ""));
    run.out
}

/// A file among the samples.
pub fn sample(name: &str) -> PathBuf {
    Path::new(env!("CARGO_MANIFEST_DIR")).join("../../data/samples").join(name)
}

/// The text of a file among the samples.
pub fn sample_text(name: &str) -> String {
    fs::read_to_string(sample(name)).unwrap()
}

/// A folder for the outputs of a test, taken away at its end.
pub struct Folder(TempDir);

impl Folder {
    pub fn new(test: &str) -> Self {
        Folder(tempfile::Builder::new().prefix(&format!("lovasuku-{test}-")).tempdir().unwrap())
    }

    pub fn path(&self, name: &str) -> String {
        self.0.path().join(name).to_str().unwrap().to_owned()
    }

    pub fn text(&self, name: &str) -> String {
        fs::read_to_string(self.path(name)).unwrap()
    }

    /// The names of all that lies in it.
    pub fn names(&self) -> Vec<String> {
        let entries = fs::read_dir(self.0.path()).unwrap();
        entries.map(|entry| entry.unwrap().file_name().into_string().unwrap()).collect()
    }
}

/// A feature with a geometry of a type.
pub fn feature(kind: &str, coordinates: &str) -> String {
    format!(r#"{{"type":"Feature","geometry":{{"type":"{kind}","coordinates":{coordinates}}}}}"#)
}

/// The features of a collection.
pub fn features(text: &str) -> Vec<Value> {
    let value: Value = serde_json::from_str(text).unwrap();
    assert_eq!(value["type"], "FeatureCollection");
    value["features"].as_array().unwrap().clone()
}

/// The members of every chain.
pub fn members(text: &str) -> Vec<String> {
    let members = |feature: &Value| feature["properties"]["members"].to_string();
    features(text).iter().map(members).collect()
}
