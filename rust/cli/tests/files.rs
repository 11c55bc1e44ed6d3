//! Files are written whole or not at all, and what cannot be read or written is status 2.

mod common;

use common::Scratch;
use std::fs::{self, File, OpenOptions, Permissions};
use std::io::{pipe, Read};
use std::os::unix::fs::{symlink, PermissionsExt};
use std::process::Stdio;

fn status(scratch: &Scratch, arguments: &[&str]) -> Option<i32> {
    scratch.run(arguments, None).status.code()
}

#[test]
fn a_failed_command_leaves_files_alone() {
    let scratch = Scratch::new();
    fs::write(scratch.path("kept"), "kept").unwrap();
    let before = scratch.names();
    for (arguments, expected) in [
        (&["plan", "k5.sheet", "-o", "kept"][..], 1),
        (&["plan", "typos.txt", "-o", "kept"], 1),
        (&["plan", "missing.sheet", "-o", "kept"], 2),
        (&["pack", "stuck.txt", "--only", "bundle", "-o", "kept"], 1),
        (&["gantt", "k1.sheet", "r26-none.bundle", "-o", "kept"], 1),
        (&["better", "k1.sheet", "r26-none.bundle", "k7.bundle", "-o", "kept"], 1),
        (&["better", "k1.sheet", "k1.bundle", "missing.bundle", "-o", "kept"], 2),
        (&["plan", "k1.sheet", "-o", "missing/file"], 2),
        (&["plan", "k1.sheet", "-o", "kept/file"], 2),
        (&["plan", "k1.sheet", "-o", "."], 2),
        (&["plan", "k1.sheet", "-o", ""], 2),
        (&["plan", ""], 2),
        (&["plan", "/dev/zero"], 2),
    ] {
        assert_eq!(status(&scratch, arguments), Some(expected), "{arguments:?}");
        assert_eq!(fs::read_to_string(scratch.path("kept")).unwrap(), "kept");
        assert_eq!(scratch.names(), before);
    }
}

#[test]
fn a_file_is_replaced_whole_with_its_permissions_and_through_links() {
    let scratch = Scratch::new();
    let bundle = fs::read(scratch.path("k1.bundle")).unwrap();
    fs::write(scratch.path("old"), "old").unwrap();
    fs::set_permissions(scratch.path("old"), Permissions::from_mode(0o640)).unwrap();
    symlink("old", scratch.path("link")).unwrap();
    let mut open = File::open(scratch.path("old")).unwrap();
    assert_eq!(status(&scratch, &["plan", "k1.sheet", "-o", "link"]), Some(0));
    assert_eq!(fs::read(scratch.path("old")).unwrap(), bundle);
    assert!(fs::symlink_metadata(scratch.path("link")).unwrap().is_symlink());
    let mode = fs::metadata(scratch.path("old")).unwrap().permissions().mode();
    assert_eq!(mode & 0o777, 0o640);
    // Whoever has the old file open sees no part of the new one.
    let mut seen = String::new();
    open.read_to_string(&mut seen).unwrap();
    assert_eq!(seen, "old");
    // What is write-protected stays.
    fs::set_permissions(scratch.path("old"), Permissions::from_mode(0o440)).unwrap();
    assert_eq!(status(&scratch, &["plan", "k2.sheet", "-o", "old"]), Some(2));
    assert_eq!(fs::read(scratch.path("old")).unwrap(), bundle);
    // A sheet may be its own output.
    assert_eq!(status(&scratch, &["pack", "buoy.txt", "-o", "buoy.txt"]), Some(0));
    assert_eq!(status(&scratch, &["plan", "buoy.txt"]), Some(0));
}

#[test]
fn a_full_device_and_a_closed_pipe_are_told() {
    let scratch = Scratch::new();
    for arguments in [&["plan", "k1.sheet"][..], &["--help"], &["gantt", "k1.sheet", "-o", "-"]] {
        let full = OpenOptions::new().write(true).open("/dev/full").unwrap();
        let output =
            scratch.command(arguments).stdout(full).stderr(Stdio::piped()).output().unwrap();
        assert_eq!(output.status.code(), Some(2), "{arguments:?}");
        assert!(String::from_utf8(output.stderr).unwrap().contains("cannot write standard output"));
        let (reader, writer) = pipe().unwrap();
        drop(reader);
        let output =
            scratch.command(arguments).stdout(writer).stderr(Stdio::piped()).output().unwrap();
        assert_eq!(output.status.code(), Some(2), "{arguments:?}");
    }
    assert_eq!(status(&scratch, &["plan", "k1.sheet", "-o", "/dev/full"]), Some(2));
    assert_eq!(status(&scratch, &["plan", "k1.sheet", "-o", "/dev/null"]), Some(0));
    let shut = OpenOptions::new().write(true).open("/dev/full").unwrap();
    let status = scratch.command(&["plan", "missing"]).stderr(shut).status().unwrap();
    assert_eq!(status.code(), Some(2));
}

/// Bytes of all kinds, and damaged files, get an answer and never a panic.
#[test]
fn damaged_files_are_refused() {
    use inputs::{bundles, damage, sheets, Random};
    let (scratch, mut random) = (Scratch::new(), Random::new(3));
    for _ in 0..150 {
        let sheet = sheets::small(&mut random);
        let bundle = bundles::orderly(&mut random, &sheet).encode();
        let (mut sheet, mut bundle) = (sheet.encode(), bundle);
        match random.once_in(2) {
            true => sheet = damage::few(&mut random, sheet, damage::sheet_command),
            false => bundle = damage::few(&mut random, bundle, damage::bundle_command),
        }
        fs::write(scratch.path("s"), sheet).unwrap();
        fs::write(scratch.path("b"), bundle).unwrap();
        for arguments in [
            &["check", "s", "b"][..],
            &["better", "s", "b", "k1.bundle"],
            &["show", "b", "--sheet", "s"],
            &["show", "b"],
        ] {
            let output = scratch.run(arguments, None);
            assert!(matches!(output.status.code(), Some(0 | 1)), "{arguments:?}");
            let told = String::from_utf8([output.stdout, output.stderr].concat()).unwrap();
            assert!(!told.contains("panicked") && !told.contains(": place "), "{told}");
        }
    }
}
