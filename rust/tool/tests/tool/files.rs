//! The files that a command leaves: an output whole or not at all.

use crate::session::{done, said, Ran, Session};
use std::fs::{self, File};
use std::os::unix::fs::{symlink, FileTypeExt, MetadataExt, PermissionsExt};

const GOOD: &str = "%BEGIN;SEND(1);%ENDOFPROGRAM\n";
const BAD: &str = "%BEGIN;SEND(A);%ENDOFPROGRAM\n";
const OBJECT: &str = "BOX\t0\t0\t3\nLOAD\tK\t1\nSEND\t-\t0\nSTOP\t-\t0\n";

fn session() -> Session {
    let session = Session::new();
    session.put("good.skimp", GOOD);
    session.put("bad.skimp", BAD);
    session
}

/// A refused or failed command leaves the file that is there, the very file, and no other.
#[test]
fn left_alone() {
    let session = session();
    session.put("bad.box", "BOX\t0\t0\t1\n");
    session.put("kept", "what was there");
    let before = fs::metadata(session.path("kept")).expect("a file");
    let names = session.names();
    for (arguments, status) in [
        (&["compile", "bad.skimp", "-o", "kept"][..], 1),
        (&["compile", "good.skimp", "--room", "5", "-o", "kept"], 1),
        (&["compile", "none.skimp", "-o", "kept"], 2),
        (&["compile", "good.skimp", "-o", "kept", "--rom", "5"], 2),
        (&["readback", "bad.box", "-o", "kept"], 1),
        (&["compile", "kept", "-o", "kept"], 2),
        (&["run", "bad.box", "--state", "kept"], 1),
    ] {
        assert_eq!(
            session.skimp(arguments).status,
            Some(status),
            "{arguments:?}"
        );
        let after = fs::metadata(session.path("kept")).expect("a file");
        assert_eq!(
            (after.ino(), after.mtime_nsec()),
            (before.ino(), before.mtime_nsec())
        );
        assert_eq!(session.get("kept"), b"what was there");
        assert_eq!(session.names(), names, "{arguments:?}");
    }
    // nor does one appear
    session.skimp(&["compile", "bad.skimp", "-o", "new"]);
    assert_eq!(session.names(), names);
}

/// The new file stands in place of the old one, with its permissions, and was never half written.
#[test]
fn replaced() {
    let session = session();
    session.put(
        "a.box",
        "a longer text than that of the object which comes in its place",
    );
    let path = session.path("a.box");
    fs::set_permissions(&path, fs::Permissions::from_mode(0o640)).expect("permissions");
    let old = File::open(&path).expect("the old file");
    assert_eq!(
        session.skimp(&["compile", "good.skimp", "-o", "a.box"]),
        done("")
    );
    assert_eq!(session.get("a.box"), OBJECT.as_bytes());
    let new = fs::metadata(&path).expect("the new file");
    assert_eq!(new.permissions().mode() & 0o777, 0o640);
    assert_ne!(new.ino(), old.metadata().expect("the old file").ino());
    assert_eq!(session.names(), ["a.box", "bad.skimp", "good.skimp"]);
}

#[test]
fn behind_a_link() {
    let session = session();
    session.put("real.box", "old");
    symlink("real.box", session.path("link.box")).expect("a link");
    assert_eq!(
        session.skimp(&["compile", "good.skimp", "-o", "link.box"]),
        done("")
    );
    assert_eq!(session.get("real.box"), OBJECT.as_bytes());
    let link = fs::symlink_metadata(session.path("link.box")).expect("the link");
    assert!(link.file_type().is_symlink());
}

/// A device is written to and stays one.
#[test]
fn devices() {
    let session = session();
    assert_eq!(
        session.skimp(&["compile", "good.skimp", "-o", "/dev/null"]),
        done("")
    );
    let device = fs::metadata("/dev/null").expect("a device");
    assert!(device.file_type().is_char_device());
    let ran = session.skimp(&["compile", "good.skimp", "-o", "/dev/full"]);
    assert_eq!(
        ran,
        said(2, "skimp: /dev/full: No space left on device (os error 28)")
    );
}

#[test]
fn not_writable() {
    let session = session();
    let ran = session.skimp(&["compile", "good.skimp", "-o", "none/a.box"]);
    assert_eq!(
        ran,
        said(
            2,
            "skimp: none/a.box: No such file or directory (os error 2)"
        )
    );
    let ran = session.skimp(&["compile", "good.skimp", "-o", "."]);
    assert_eq!(ran.status, Some(2));
    assert_eq!(session.names(), ["bad.skimp", "good.skimp"]);
}

/// Where the numbers sent cannot be printed, the state is not stored: they come again.
#[test]
fn full_output() {
    let session = session();
    session.put("a.box", OBJECT);
    let full = || {
        File::options()
            .write(true)
            .open("/dev/full")
            .expect("a device")
    };
    let arguments = ["run", "a.box", "--state", "a.state"];
    let output = session
        .command(&arguments)
        .stdout(full())
        .output()
        .expect("its end");
    let ran = crate::session::ran(output);
    assert_eq!(
        ran,
        said(
            2,
            "skimp: standard output: No space left on device (os error 28)"
        )
    );
    assert!(!session.path("a.state").exists());
    let Ran { out, .. } = session.skimp(&arguments);
    assert!(out.starts_with("sent: 1\n"), "{out}");
}
