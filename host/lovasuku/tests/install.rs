//! What `host/install` puts in its places, used as its users would.

mod common;

use common::{sample_text, Folder};
use std::fs;
use std::path::Path;
use std::process::{Command, Output};

fn script() -> std::path::PathBuf {
    Path::new(env!("CARGO_MANIFEST_DIR")).join("../install")
}

fn install(prefix: &str, destination: &str) -> Output {
    let mut command = Command::new(script());
    command.arg(prefix).env("DESTDIR", destination);
    command.env("LOVASUKU_COMMAND", env!("CARGO_BIN_EXE_lovasuku")).output().unwrap()
}

/// What a command wrote, which must succeed.
fn written(command: &mut Command) -> String {
    let output = command.output().unwrap();
    let err = String::from_utf8_lossy(&output.stderr);
    assert!(output.status.success(), "{command:?}: {err}");
    String::from_utf8(output.stdout).unwrap()
}

/// The words of a row of a pkg-config file, with its variables put in.
fn words(file: &str, row: &str) -> Vec<String> {
    let value = |name: &str, sign: char| {
        let of = |line: &str| line.strip_prefix(name)?.strip_prefix(sign).map(str::to_owned);
        file.lines().find_map(of).unwrap_or_else(|| panic!("{name}: {file}"))
    };
    let mut row = value(row, ':');
    for name in ["libdir", "includedir", "prefix"] {
        row = row.replace(&format!("${{{name}}}"), &value(name, '='));
    }
    row.split_whitespace().map(str::to_owned).collect()
}

const PROGRAM: &str = r#"
#include <lovasuku.h>
#include <stdio.h>
#include <stdlib.h>

int main(void) {
    const double coordinates[] = {0, 0, 7, 1, 0, 8, 1, 0, 9, 2, 0, 10};
    const uint32_t counts[] = {2, 2}, groups[] = {0, 0};
    const uint8_t kinds[] = {0, 0};
    const size_t n = 2, c = 4;
    uint32_t *table = calloc(lovasuku_table_room(n), sizeof *table);
    uint32_t *members = calloc(lovasuku_members_room(n), sizeof *members);
    uint8_t *marks = calloc(lovasuku_marks_room(n), sizeof *marks);
    uint32_t *listing = calloc(lovasuku_listing_room(n), sizeof *listing);
    double *merged = calloc(lovasuku_merged_room(LOVASUKU_XYZ, c), sizeof *merged);
    double *boxes = calloc(lovasuku_boxes_room(n), sizeof *boxes);
    double *spare = calloc(lovasuku_spare_room(LOVASUKU_XYZ, c), sizeof *spare);
    uint64_t *workspace = calloc(lovasuku_workspace_room(n), sizeof *workspace);
    int64_t exact = lovasuku_build(LOVASUKU_XYZ, coordinates, 3 * c, counts, n, groups, n, kinds, n, 0.0, 0.0, 0.0, 0, 0.0,
        table, lovasuku_table_room(n), members, lovasuku_members_room(n), marks, lovasuku_marks_room(n),
        listing, lovasuku_listing_room(n), merged, lovasuku_merged_room(LOVASUKU_XYZ, c),
        boxes, lovasuku_boxes_room(n), spare, lovasuku_spare_room(LOVASUKU_XYZ, c),
        workspace, lovasuku_workspace_room(n));
    /* One less of any room is refused, so the helpers name what a call needs and no more. */
    int64_t less = lovasuku_build(LOVASUKU_XYZ, coordinates, 3 * c, counts, n, groups, n, kinds, n, 0.0, 0.0, 0.0, 0, 0.0,
        table, lovasuku_table_room(n), members, lovasuku_members_room(n), marks, lovasuku_marks_room(n),
        listing, lovasuku_listing_room(n), merged, lovasuku_merged_room(LOVASUKU_XYZ, c),
        boxes, lovasuku_boxes_room(n), spare, lovasuku_spare_room(LOVASUKU_XYZ, c),
        workspace, lovasuku_workspace_room(n) - 1);
    const uint8_t present[] = {1, 1};
    const double directions[] = {1, 0, -1, 0};
    const uint32_t pieces[] = {0, 1};
    uint32_t *pairs = calloc(lovasuku_pairs_room(2), sizeof *pairs);
    uint64_t *room = calloc(lovasuku_pairs_workspace_room(2), sizeof *room);
    int64_t paired = lovasuku_pairs_plain(present, 2, directions, 4, pieces, 2, -1.0,
        pairs, lovasuku_pairs_room(2), room, lovasuku_pairs_workspace_room(2));
    printf("%s %d.%d.%d %d %d %d\n", LOVASUKU_VERSION, LOVASUKU_VERSION_MAJOR, LOVASUKU_VERSION_MINOR,
        LOVASUKU_VERSION_PATCH, (int)exact, (int)less, (int)paired);
    return 0;
}
"#;

#[test]
fn the_command_the_manual_and_the_library() {
    let folder = Folder::new("install");
    let prefix = folder.path("a prefix");
    let output = install(&prefix, "");
    assert!(output.status.success(), "{}", String::from_utf8_lossy(&output.stderr));

    let chains = folder.path("chains.geojson");
    fs::write(folder.path("in"), sample_text("berm.geojsonl")).unwrap();
    let mut command = Command::new(format!("{prefix}/bin/lovasuku"));
    written(command.args(["join", &folder.path("in"), "-o", &chains]));
    assert_eq!(common::members(&folder.text("chains.geojson")).len(), 2);

    for (page, title) in [
        ("lovasuku.1", "LOVASUKU"),
        ("lovasuku-join.1", "LOVASUKU-JOIN"),
        ("lovasuku-check.1", "LOVASUKU-CHECK"),
    ] {
        let text = fs::read_to_string(format!("{prefix}/share/man/man1/{page}")).unwrap();
        assert!(text.contains(&format!(".TH {title} 1")), "{text}");
    }
}

#[test]
fn a_program_that_is_built_by_the_pkg_config_file() {
    let folder = Folder::new("program");
    let prefix = folder.path("prefix");
    assert!(install(&prefix, "").status.success());
    let file = fs::read_to_string(format!("{prefix}/lib/pkgconfig/lovasuku.pc")).unwrap();
    let (source, program) = (folder.path("program.c"), folder.path("program"));
    fs::write(&source, PROGRAM).unwrap();
    let mut compiler = Command::new("gcc");
    compiler.args([
        "-std=c99",
        "-Wall",
        "-Wextra",
        "-Werror",
        "-pedantic",
        "-o",
        &program,
        &source,
    ]);
    written(compiler.args(words(&file, "Cflags")).args(words(&file, "Libs")));
    let version = env!("CARGO_PKG_VERSION");
    let printed = written(&mut Command::new(&program));
    assert_eq!(printed, format!("{version} {version} 1 -7 1\n"));
    assert_eq!(words(&file, "Version"), [version]);
}

#[test]
fn a_packager_puts_it_in_a_place_of_its_own() {
    let folder = Folder::new("packager");
    let output = install("/opt/lovasuku", &folder.path("stage"));
    assert!(output.status.success(), "{}", String::from_utf8_lossy(&output.stderr));
    let file = folder.text("stage/opt/lovasuku/lib/pkgconfig/lovasuku.pc");
    assert!(file.starts_with("prefix=/opt/lovasuku\n"), "{file}");
    assert!(!Path::new("/opt/lovasuku").exists());
    let none = Command::new(script()).output().unwrap();
    assert_eq!(none.status.code(), Some(2));
}
