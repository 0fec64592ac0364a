//! Outputs and their places: nothing that was there is lost.

mod common;

use common::{run, sample_text, Folder};
use std::fs::{self, OpenOptions, Permissions};
use std::os::unix::fs::{symlink, MetadataExt, PermissionsExt};
use std::os::unix::process::ExitStatusExt;
use std::path::Path;
use std::process::{Child, Command, Stdio};
use std::time::{Duration, Instant};

/// The command, to be run with the berm as its input. No signal is ignored, also where the tests were started so that one is.
fn command(args: &[&str]) -> Command {
    let mut command = Command::new("env");
    command.args(["--default-signal=INT,TERM,HUP", env!("CARGO_BIN_EXE_lovasuku"), "join"]);
    command.args(args).stderr(Stdio::piped());
    command.stdin(fs::File::open(common::sample("berm.geojsonl")).unwrap());
    command
}

/// A folder with a file of each name in it, which all say "as before".
fn folder(test: &str, names: &[&str]) -> Folder {
    let folder = Folder::new(test);
    for name in names {
        fs::write(folder.path(name), "as before").unwrap();
    }
    folder
}

/// Runs the command, which must refuse its arguments with these words and leave everything as it was.
fn refused(folder: &Folder, args: &[&str], words: &str) {
    let before = folder.names();
    let run = run(&[&["join"], args].concat(), &sample_text("berm.geojsonl"));
    assert_eq!((run.status, &run.out[..]), (2, ""), "{args:?}: {}", run.err);
    assert!(run.err.contains(words), "{args:?}: {}", run.err);
    assert_eq!(folder.names(), before, "{args:?}");
    assert!(before.iter().all(|name| folder.text(name) == "as before"), "{args:?}");
}

#[test]
fn two_outputs_with_one_place_are_refused() {
    let folder = folder("one-place", &["out", "other"]);
    let out = folder.path("out");
    symlink(&out, folder.path("link")).unwrap();
    fs::hard_link(&out, folder.path("hard")).unwrap();
    symlink(folder.path("."), folder.path("other-way")).unwrap();
    let name = Path::new(&out).parent().unwrap().file_name().unwrap().to_str().unwrap();
    let around = folder.path(&format!("../{name}/out"));
    let [link, hard] = ["link", "hard"].map(|name| folder.path(name));
    fs::remove_file(folder.path("other-way")).unwrap();
    for option in ["--map", "--bridges"] {
        for other in [&out, &around, &link, &hard] {
            refused(&folder, &["-", "-o", &out, option, other], "two outputs have the same place");
        }
    }
    refused(&folder, &["-", "-o", "other", "--map", &out, "--bridges", &link], "the same place");
}

#[test]
fn one_place_by_a_name_and_by_a_path_before_there_is_a_file() {
    let folder = folder("by-name", &[]);
    let out = folder.path("out.geojson");
    symlink("out.geojson", folder.path("link")).unwrap();
    for other in ["./out.geojson", &out, &folder.path("./out.geojson"), "link"] {
        let mut command = command(&["-", "-o", "out.geojson", "--map", other]);
        let run = command.current_dir(folder.path(".")).output().unwrap();
        assert_eq!(run.status.code(), Some(2), "{other}");
        assert!(String::from_utf8_lossy(&run.stderr).contains("the same place"), "{other}");
    }
    assert_eq!(folder.names(), ["link"]);
}

#[test]
fn the_standard_output_is_a_place_too() {
    let folder = folder("standard", &["out"]);
    let path = folder.path("out");
    for args in [["-o", "-", "--map", &path], ["-o", &path, "--map", "/dev/stdout"]] {
        let out = OpenOptions::new().append(true).open(&path).unwrap();
        let run = command(&[&["-"][..], &args].concat()).stdout(out).output().unwrap();
        assert_eq!(run.status.code(), Some(2), "{args:?}");
        assert_eq!(folder.text("out"), "as before");
    }
    refused(&folder, &["-", "-o", "/dev/stdout", "--map", "-"], "the same place");
}

#[test]
fn the_input_is_no_output_by_any_way() {
    let folder = folder("the-input", &[]);
    let (path, text) = (folder.path("in"), sample_text("berm.geojsonl"));
    fs::write(&path, &text).unwrap();
    fs::hard_link(&path, folder.path("hard")).unwrap();
    for args in [["-o", &folder.path("./in")], ["-o", &folder.path("hard")], ["-o", "-"]] {
        let mut command = command(&[&["-"][..], &args].concat());
        command.stdin(fs::File::open(&path).unwrap());
        command.stdout(OpenOptions::new().append(true).open(&path).unwrap());
        let run = command.output().unwrap();
        assert_eq!(run.status.code(), Some(2), "{args:?}");
        assert!(String::from_utf8_lossy(&run.stderr).contains("is the input"), "{args:?}");
        assert_eq!(folder.text("in"), text);
    }
}

#[test]
fn the_null_device_takes_everything() {
    let run = run(
        &["join", "-", "-q", "-o", "/dev/null", "--map", "/dev/null", "--bridges", "/dev/null"],
        &sample_text("berm.geojsonl"),
    );
    assert_eq!((run.status, &run.err[..]), (0, ""));
}

#[test]
fn a_log_is_written_on() {
    let folder = folder("log", &["log"]);
    let inode = || fs::metadata(folder.path("log")).unwrap().ino();
    let before = inode();
    for path in ["/dev/stdout", "/dev/fd/1", "/proc/self/fd/1", "-"] {
        fs::write(folder.path("log"), "as before\n").unwrap();
        let log = OpenOptions::new().append(true).open(folder.path("log")).unwrap();
        let run = command(&["-", "-q", "-o", path]).stdout(log).output().unwrap();
        assert_eq!(run.status.code(), Some(0), "{path}");
        assert_eq!(inode(), before, "{path}");
        assert!(folder.text("log").starts_with("as before\n{\"type\""), "{path}");
    }
    assert_eq!(folder.names(), ["log"]);
}

#[test]
fn a_link_to_no_file_yet_stays_a_link() {
    let folder = folder("dangling", &[]);
    symlink("chains", folder.path("link")).unwrap();
    let run = run(&["join", "-", "-o", &folder.path("link")], &sample_text("berm.geojsonl"));
    assert_eq!(run.status, 0, "{}", run.err);
    assert!(fs::symlink_metadata(folder.path("link")).unwrap().file_type().is_symlink());
    assert!(folder.text("chains").starts_with("{\"type\""));
}

#[test]
fn a_file_that_may_not_be_written_is_not_replaced() {
    let folder = folder("mode", &["out", "map"]);
    let [out, map] = ["out", "map"].map(|name| folder.path(name));
    fs::set_permissions(&map, Permissions::from_mode(0o444)).unwrap();
    let text = sample_text("berm.geojsonl");
    let refused = run(&["join", "-", "-o", &out, "--map", &map], &text);
    let told = format!("lovasuku: {map} cannot be written: its mode is 444: nobody may write it\n");
    assert_eq!((refused.status, refused.err), (1, told));
    assert_eq!([folder.text("out"), folder.text("map")], ["as before"; 2]);
    assert_eq!(folder.names().len(), 2);
    // The mode of what may be replaced stays.
    fs::set_permissions(&map, Permissions::from_mode(0o640)).unwrap();
    assert_eq!(run(&["join", "-", "-o", &out, "--map", &map], &text).status, 0);
    assert_eq!(fs::metadata(&map).unwrap().mode() & 0o777, 0o640);
    assert!(folder.text("map").starts_with("<svg"));
}

#[test]
fn a_folder_is_no_output() {
    let folder = folder("folder", &["out"]);
    let (out, place) = (folder.path("out"), folder.path("."));
    let run = run(&["join", "-", "-o", &out, "--map", &place], &sample_text("berm.geojsonl"));
    assert_eq!(run.status, 1);
    assert!(run.err.contains("cannot be written"), "{}", run.err);
    assert_eq!(folder.text("out"), "as before");
}

/// A run that has written its part and waits for a reader of the map.
fn waiting(folder: &Folder) -> Child {
    let (out, map) = (folder.path("out"), folder.path("pipe"));
    assert!(Command::new("mkfifo").arg(&map).status().unwrap().success());
    let child = command(&["-", "-o", &out, "--map", &map]).spawn().unwrap();
    let from = Instant::now();
    while !folder.names().iter().any(|name| name.ends_with(".part")) {
        assert!(from.elapsed() < Duration::from_secs(20), "{:?}", folder.names());
        std::thread::sleep(Duration::from_millis(5));
    }
    child
}

#[test]
fn a_signal_leaves_no_part() {
    for (name, number) in [("INT", 2), ("TERM", 15), ("HUP", 1)] {
        let folder = folder(&format!("signal-{name}"), &["out"]);
        let mut child = waiting(&folder);
        let kill =
            Command::new("kill").args([&format!("-{name}"), &child.id().to_string()]).status();
        assert!(kill.unwrap().success());
        assert_eq!(child.wait().unwrap().signal(), Some(number));
        let mut names = folder.names();
        names.sort();
        assert_eq!(names, ["out", "pipe"]);
        assert_eq!(folder.text("out"), "as before");
    }
}

#[test]
fn a_run_that_ignores_hangups_goes_on() {
    let folder = folder("nohup", &["out"]);
    let (out, map) = (folder.path("out"), folder.path("pipe"));
    assert!(Command::new("mkfifo").arg(&map).status().unwrap().success());
    let script = r#"trap '' HUP; "$0" join "$3" -q -o "$1" --map "$2" & sleep 0.3; kill -HUP $!; cat "$2" >/dev/null; wait $!"#;
    let berm = common::sample("berm.geojsonl");
    let status = Command::new("timeout")
        .args(["20", "sh", "-c", script, env!("CARGO_BIN_EXE_lovasuku"), &out, &map])
        .arg(berm)
        .status();
    assert!(status.unwrap().success());
    assert!(folder.text("out").starts_with("{\"type\""));
}
