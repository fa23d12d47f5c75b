//! The emulation on the stored cases, and the reading of lines.

use protocol::{serve, Emulation, FrontEnd, Request};
use std::fs;
use std::path::Path;

fn vectors(name: &str) -> String {
    let directory = Path::new(env!("CARGO_MANIFEST_DIR")).join("../vectors");
    fs::read_to_string(directory.join(name)).unwrap()
}

#[test]
fn stored_answers() {
    let (cases, answers) = (vectors("e7.cases"), vectors("e7.answers"));
    let mut output = Vec::new();
    serve(Emulation, cases.as_bytes(), &mut output).unwrap();
    let output = String::from_utf8(output).unwrap();
    assert_eq!(output.lines().count(), answers.lines().count());
    for ((request, answer), given) in cases.lines().zip(answers.lines()).zip(output.lines()) {
        assert_eq!(given, answer, "{request}");
    }
}

#[test]
fn requests_print_as_they_are_read() {
    for line in vectors("e7.cases").lines() {
        let request = Request::parse(line).unwrap();
        assert_eq!(Request::parse(&request.to_string()), Ok(request));
    }
}

const BAD: [&str; 41] = [
    "",
    "walk 8 -",
    "run 8 8=1 0 0 0 0 128 0 1 0 0 0 0 0 0 0 0 0 0 - -",
    "run 8 - 0 0 0 0 128 0 2 0 0 0 0 0 0 0 0 0 0 - -",
    "run 8 - 0 0 0 0 128 0 1 0 0 0 0 0 0 0 0",
    "run 8 - 0 0 0 0 128 0 1 0 0 0 0 0 0 0 0 0 0 -",
    "run 8 - 0 0 0 0 128 0 1 0 0 0 0 0 0 0 0 0 0 - - -",
    "run 8 - 0 0 0 0 128 0 1 0 0 0 0 0 0 0 0 4294967296 0 - -",
    "run 8 - 0 0 0 0 128 0 1 0 0 0 0 0 0 0 0 0 0 100 -",
    "run 8 - 0 0 0 0 128 0 1 0 0 0 0 0 0 0 0 0 0 - 0G",
    "keyautoload 8 - 0 0 0 0 128 0 1 0 0 0 0 0 0 0 0",
    "keyautoload 8 - 0 0 0 0 128 0 1 0 0 0 0 0 0 0 0 - -",
    "keyreset 8 - 0 0 0 0 128 0 1 0 0 0 0 0 0 0",
    "load 8 - 0g",
    "load 8 - 0",
    "overlay 8 - 0",
    "overlay 8 8=1 -",
    "overlay 8 -",
    "overlay 8 - - -",
    "remark 8",
    "write 8 - 0 0 0 0 128 0 1 0 0 0 0 0 0 none",
    "write 8 - 0 0 0 0 128 0 1 0 0 0 0 0 0 none 32 0",
    "write 8 - 0 0 0 0 128 0 1 0 0 0 0 0 none 32",
    "write 8 - 0 0 0 0 128 0 1 0 0 none 32",
    "keyreset 8 - 0 0 0 0 128 0 1 0 0",
    "keyreset 8 - 0 0 0 0 128 0 1 0 0 0 0 0 256",
    "keyreset 8 - 0 0 0 0 128 0 1 0 0 4294967296 0 0 0",
    "keyreset 8 - 0 0 0 0 128 0 1 0 0 0 4294967296 0 0",
    "keyreset 8 - 0 0 0 0 128 0 1 0 0 0 0 4294967296 0",
    "keyreset 8 - 0 0 0 0 128 0 1 0 0 0 0 -1 0",
    "write 8 8=1 0 0 0 0 128 0 1 0 0 0 0 0 0 none 32",
    "write 8 - 0 0 0 0 128 0 1 0 0 0 0 0 0 None 32",
    "write 8 - 0 0 0 0 128 0 1 0 0 0 0 0 0 0 32",
    "write 8 - 0 0 0 0 128 0 1 0 0 0 0 0 0  32",
    "write 8 - 0 0 0 0 128 0 1 0 0 0 0 0 0 none -1",
    "write 8 - 0 0 0 0 128 0 1 0 0 0 0 0 0 none +32",
    "asm",
    "asm ",
    "asm 0",
    "asm 4G",
    "asm 41 41",
];

#[test]
fn bad_requests() {
    let mut front_end = FrontEnd::new(Emulation);
    for line in BAD {
        assert_eq!(front_end.answer_line(line).to_string(), "bad", "{line}");
    }
}

#[test]
fn the_store_is_zero_again_for_the_next_request() {
    let mut front_end = FrontEnd::new(Emulation);
    let reset = "keyreset 8388608 8388607=5,3=7 64 0 0 0 128 0 1 0 0 0 0 0 0";
    let again = "keyreset 8388608 - 0 0 0 0 128 0 1 0 0 4294967295 0 9 255";
    let answers = [reset, again].map(|line| front_end.answer_line(line).to_string());
    assert_eq!(answers[0], "ok 64 0 0 0 128 0 1 0 1 0 0 0 0 5=64");
    assert_eq!(answers[1], "ok 0 0 0 0 128 0 1 0 1 4294967295 0 9 255 -");
    let many = "load 99999999999 99999999998=5 -";
    assert_eq!(front_end.answer_line(many).to_string(), "refused 1");
}

#[test]
fn loads_and_overlays() {
    let mut front_end = FrontEnd::new(Emulation);
    let last = format!("140000000200{}80000500000000000300", "00".repeat(16));
    let cells = "0=16777217,3=5,6=7,7=134217727";
    let mut answer = |call: &str, tape: &str| {
        let line = format!("{call} 8 {cells} {tape}");
        front_end.answer_line(&line).to_string()
    };
    let control = "ok 0 0 0 0 128 0 1 0 1 0 0 0 0";
    assert_eq!(answer("load", &last), format!("{control} 0=0,3=0,6=0,7=0"));
    assert_eq!(answer("overlay", &last), format!("{control} -"));
    // Cells 2 and 3 are named.
    let block = format!("0c0000000100020000000900000005000000{last}");
    assert_eq!(answer("load", &block), format!("{control} 0=0,2=9,6=0,7=0"));
    assert_eq!(answer("overlay", &block), format!("{control} 2=9"));
    // A control record of 33 bytes.
    let timed = format!("210000000200{}8000050001000000", "00".repeat(16));
    let timed = format!("{timed}640000006300000017000000000300");
    assert_eq!(
        answer("overlay", &timed),
        "ok 0 0 0 0 128 0 1 0 1 1 100 99 23 -"
    );
    assert_eq!(answer("load", &timed.replace("63", "64")), "refused 18");
    for call in ["load", "overlay"] {
        assert_eq!(answer(call, "-"), "refused 6");
        assert_eq!(answer(call, &format!("{block}00")), "refused 11");
    }
}

#[test]
fn written_tapes() {
    let mut front_end = FrontEnd::new(Emulation);
    let control = format!("210000000200{}80000500", "00".repeat(16));
    let times = "ffffffff640000006300000003";
    let last = format!("{control}{times}000000000300");
    let mut answer = |remark: &str, space: &str| {
        let fields = "0 0 0 0 128 0 1 0 1 4294967295 100 99 3";
        let line = format!("write 8 - {fields} {remark} {space}");
        front_end.answer_line(&line).to_string()
    };
    assert_eq!(answer("none", "45"), format!("tape {last}"));
    assert_eq!(answer("none", "99999999999"), format!("tape {last}"));
    assert_eq!(answer("-", "51"), format!("tape 000000000400{last}"));
    assert_eq!(answer("0aff", "53"), format!("tape 0200000004000aff{last}"));
    assert_eq!(answer("none", "44"), "refused 16");
    assert_eq!(answer("none", "0"), "refused 16");
    assert_eq!(answer(&"00".repeat(256), "0"), "refused 14");
}

#[test]
fn assembled_lines() {
    let mut front_end = FrontEnd::new(Emulation);
    let mut answer = |line: &str| {
        let digits: String = line.bytes().map(|byte| format!("{byte:02x}")).collect();
        front_end.answer_line(&format!("asm {digits}")).to_string()
    };
    assert_eq!(answer("AL. W1 [X2,5]"), "word 3006469");
    assert_eq!(answer("AW W0 0"), "word 0");
    assert_eq!(answer("AW W0 -1"), "refused 19");
    let deep = format!("AW W0 {}9{}", "(".repeat(17), ")".repeat(17));
    assert_eq!(answer(&deep), "refused 20");
    assert_eq!(answer("AW W0 2048"), "refused 21");
    assert_eq!(front_end.answer_line("asm -").to_string(), "refused 19");
}
