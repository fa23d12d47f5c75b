//! The example `snapshot`, on the example tapes.

#[allow(dead_code)]
#[path = "../examples/snapshot.rs"]
mod snapshot;

use rc4000::{remark, Machine};
use snapshot::{answer, Failure};
use std::ffi::OsString;
use std::os::unix::ffi::OsStringExt;
use std::path::{Path, PathBuf};

/// A file for a test of this name, not there yet.
fn file(name: &str) -> PathBuf {
    let path = Path::new(env!("CARGO_TARGET_TMPDIR")).join(name);
    let _ = std::fs::remove_file(&path);
    path
}

fn example(name: &str) -> PathBuf {
    Path::new(env!("CARGO_MANIFEST_DIR"))
        .join("../../examples")
        .join(name)
}

fn arguments(tape: &Path, cycles: &str, file: &Path, text: Option<&str>) -> Vec<OsString> {
    let mut words = vec![tape.into(), cycles.into(), file.into()];
    words.extend(text.map(OsString::from));
    words
}

/// The machine of a tape after so many cycles.
fn after(tape: &Path, cycles: u32) -> Machine {
    let mut machine = Machine::fresh(4096);
    machine.load(&std::fs::read(tape).unwrap()).unwrap();
    machine.run_without_devices(0, cycles).unwrap();
    machine
}

#[test]
fn the_file_has_the_machine_after_the_run() {
    let away = file("run");
    for (name, line) in [
        ("reset", "reset 0 0 0"),
        ("count", "spent 100 0 18"),
        ("task", "interrupted 14 1 100"),
        ("line", "interrupted 0 1 100"),
        ("autoload", "reset 4 0 24"),
    ] {
        let tape = example(&format!("{name}.tape"));
        let printed = answer(&arguments(&tape, "100", &away, None));
        assert_eq!(printed.as_deref(), Ok(line));
        assert_eq!(after(&away, 0), after(&tape, 100));
    }
}

#[test]
fn a_run_goes_on_from_the_file() {
    let (tape, away) = (example("task.tape"), file("goes-on"));
    for cycles in 0..15 {
        answer(&arguments(&tape, &cycles.to_string(), &away, None)).unwrap();
        assert_eq!(after(&away, 15 - cycles), after(&tape, 15));
    }
}

#[test]
fn the_remark_is_the_tapes_or_the_one_given() {
    let (tape, away) = (example("count.tape"), file("remark"));
    let given = std::fs::read(&tape).unwrap();
    let text = remark(&given, 4096).unwrap();
    assert!(text.is_some());
    let long = "x".repeat(255);
    for asked in [None, Some(""), Some("taken away"), Some(&long)] {
        answer(&arguments(&tape, "7", &away, asked)).unwrap();
        let written = std::fs::read(&away).unwrap();
        let expected = asked.map(str::as_bytes).or(text);
        assert_eq!(remark(&written, 4096), Ok(expected));
    }
    answer(&arguments(&example("reset.tape"), "7", &away, None)).unwrap();
    assert_eq!(remark(&std::fs::read(&away).unwrap(), 4096), Ok(None));
}

/// Bytes that are no text in UTF-8 are a remark too.
#[test]
fn a_remark_is_bytes() {
    let (tape, away) = (example("count.tape"), file("bytes"));
    let mut words = arguments(&tape, "7", &away, None);
    words.push(OsString::from_vec(vec![b'r', 0xf8, b'd']));
    answer(&words).unwrap();
    let written = std::fs::read(&away).unwrap();
    assert_eq!(remark(&written, 4096), Ok(Some(&b"r\xf8d"[..])));
}

/// No snapshot, for this reason.
fn fails(status: u8, text: &str, arguments: &[OsString]) {
    let expected = Failure {
        status,
        text: text.into(),
    };
    assert_eq!(answer(arguments), Err(expected));
}

#[test]
fn what_is_wrong_is_said() {
    let (tape, none) = (example("count.tape"), file("none"));
    let good = arguments(&tape, "1", &none, Some("remark"));
    let usage = "snapshot TAPE CYCLES FILE [REMARK]";
    fails(2, usage, &[]);
    fails(2, usage, &good[..2]);
    fails(2, usage, &[&good[..], &good[..1]].concat());
    for cycles in ["65536", "-1", "x", ""] {
        let text = format!("CYCLES is 0 to 65535, not {cycles}");
        fails(2, &text, &arguments(&tape, cycles, &none, None));
    }
    let absent = answer(&arguments(&file("absent"), "1", &none, None)).unwrap_err();
    assert_eq!(absent.status, 2);
    assert!(absent.text.contains("absent: No such file"));
    let cut = arguments(&example("cut.tape"), "1", &none, None);
    let ends = "refused 6: the tape stops inside a header or payload, or before an end record";
    fails(1, ends, &cut);
    let long = "x".repeat(256);
    let text = "refused 14: a remark over 255 bytes";
    fails(1, text, &arguments(&tape, "1", &none, Some(&long)));
    let folder = file("absent").join("none");
    let unwritten = answer(&arguments(&tape, "1", &folder, None)).unwrap_err();
    assert_eq!(unwritten.status, 1);
    assert!(!none.exists());
}
