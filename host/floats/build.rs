//! Links the doors to the float leaves. The archive is made by `host/archive float_probe` of the
//! repository, whose root `LOVASUKU_ROOT` names where it isn't two folders above this one.

use std::path::{Path, PathBuf};
use std::process::Command;
use std::time::SystemTime;
use std::{env, fs};

/// The crates whose code the archive holds.
const LEAVES: [&str; 8] = [
    "rules",
    "float_bits",
    "float_whole_root",
    "float_root",
    "float_order",
    "float_cell",
    "point_direction",
    "float_probe",
];

fn main() {
    println!("cargo:rerun-if-env-changed=LOVASUKU_ROOT");
    let manifest =
        PathBuf::from(env::var_os("CARGO_MANIFEST_DIR").expect("cargo names the folder"));
    let root = match env::var_os("LOVASUKU_ROOT") {
        Some(root) => PathBuf::from(root),
        None => manifest.join("../.."),
    };
    let folder = root.join("target/staticlib");
    let archive = folder.join("libfloat_probe.a");
    let sources = LEAVES.map(|name| root.join("crates").join(name).join("src/lib.rt"));
    for path in sources.iter().chain([&archive]) {
        println!("cargo:rerun-if-changed={}", path.display());
    }
    if sources.iter().any(|source| written(&archive) < written(source)) {
        let made = Command::new(root.join("host/archive")).arg("float_probe").status();
        assert!(
            matches!(made, Ok(status) if status.success()),
            "`host/archive float_probe` failed"
        );
    }
    println!("cargo:rustc-link-search=native={}", folder.display());
    println!("cargo:rustc-link-lib=static=float_probe");
}

/// When a file was last written; nothing where there is no such file.
fn written(path: &Path) -> Option<SystemTime> {
    fs::metadata(path).and_then(|about| about.modified()).ok()
}
