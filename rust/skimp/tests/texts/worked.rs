//! Document 01's worked program and its readings, in texts that no reference has a part in.

use crate::shown;

const WORKED: &str = "%BEGIN\n%INTEGER A, B\nA = 3 ; B = A - (2 - 5) / 2\n\
                      %IF B > 4 %THEN SEND(B) %ELSE ->1\n1: SEND(A)\n%ENDOFPROGRAM\n";
const OBJECT: &str = "BOX 2 2 21\nLOAD K 3\nSTR D 2\nLOAD D 2\nSTR D 4\nLOAD K 2\nSUB K 5\n\
                      DIV K 2\nSTR D 5\nLOAD D 4\nSUB D 5\nSTR D 3\nLOAD D 3\nCMP K 4\nBLE A 17\n\
                      LOAD D 3\nSEND - 0\nSKIP A 18\nJMP A 18\nLOAD D 2\nSEND - 0\nSTOP - 0\n";
const SHEET: &str =
    "SHEET 2 6\nSET 2 K3\nSET 3 - W2 / - K2 K5 K2\nIF > W3 K4\nSTART\nSEND W3\nELSE\n\
                     GOTO 6\nFINISH\nSEND W2\n";

pub type Shown = Result<String, (u32, u32)>;

/// The object of a source with spaces for tabs.
pub fn object(source: &str) -> Shown {
    let mut buffer = vec![b'~'; skimp::OBJECT_MOST];
    shown(skimp::compile(source.as_bytes(), &mut buffer))
}

/// The sheet of an object with spaces for tabs.
pub fn sheet_of(object: &str) -> Shown {
    let mut buffer = vec![b'~'; skimp::SHEET_MOST];
    let object = object.replace(' ', "\t");
    shown(skimp::read_back(object.as_bytes(), &mut buffer))
}

/// The sheet of a source, by way of its object.
fn sheet(source: &str) -> Shown {
    sheet_of(&object(source)?)
}

#[test]
fn worked_program() {
    assert_eq!(object(WORKED).as_deref(), Ok(OBJECT));
    assert_eq!(sheet_of(OBJECT).as_deref(), Ok(SHEET));
    let file = include_bytes!("../../../../examples/worked.box");
    assert_eq!(OBJECT.replace(' ', "\t").as_bytes(), file);
}

/// Request L3: "the worked program now sends 5, then 3, in 20 steps."
#[test]
fn worked_run() {
    let (mut object, mut state, mut output) = ([0; 400], [0; 44], [0; 8]);
    let object = skimp::compile(WORKED.as_bytes(), &mut object).expect("a program");
    let reply = skimp::run(object, &mut state, &mut output, 1000);
    assert_eq!((reply.number, reply.value), (20, 20));
    assert_eq!(output, [0, 0, 0, 5, 0, 0, 0, 3]);
    // words 2 and 3
    assert_eq!(state[28..36], [0, 0, 0, 3, 0, 0, 0, 5]);
}

/// V and T other than they are: no sheet, or a word outside the frame.
#[test]
fn other_frames() {
    for (frame, refusal) in [
        ("BOX 2 1 21", (23, 7)),
        ("BOX 2 3 21", (31, 0)),
        ("BOX 3 2 21", (31, 0)),
        ("BOX 1 2 21", (23, 7)),
        ("BOX 1 3 21", (31, 0)),
        ("BOX 3 1 21", (31, 0)),
    ] {
        let object = OBJECT.replace("BOX 2 2 21", frame);
        assert_eq!(sheet_of(&object), Err(refusal), "{frame}");
    }
}

/// Buffers of every length.
#[test]
fn worked_rooms() {
    let object = OBJECT.replace(' ', "\t");
    let sheet = SHEET.replace(' ', "\t");
    for length in 0..=object.len() + 1 {
        let mut buffer = vec![b'~'; length];
        let reply = skimp::raw::compile(WORKED.as_bytes(), &mut buffer);
        holds(reply, &buffer, &object, 12);
    }
    for length in 0..=sheet.len() + 1 {
        let mut buffer = vec![b'~'; length];
        let reply = skimp::raw::read_back(object.as_bytes(), &mut buffer);
        holds(reply, &buffer, &sheet, 32);
    }
}

/// Holds a reply and a buffer to the text, or to the refusal of a buffer that is too short for it.
fn holds(reply: skimp::Reply, buffer: &[u8], text: &str, too_short: u32) {
    let untouched = |bytes: &[u8]| bytes.iter().all(|&byte| byte == b'~');
    if buffer.len() < text.len() {
        assert_eq!((reply.number, reply.value), (too_short, 0));
        assert!(untouched(buffer), "{} bytes", buffer.len());
    } else {
        assert_eq!((reply.number, reply.value), (0, text.len() as u32));
        assert!(buffer.starts_with(text.as_bytes()));
        assert!(untouched(&buffer[text.len()..]), "{} bytes", buffer.len());
    }
}

/// Slices of no bytes, as Rust has them: their pointers lead to no memory.
#[test]
fn empty_slices() {
    assert_eq!(shown(skimp::compile(&[], &mut [])), Err((10, 0)));
    let least = b"%BEGIN;%ENDOFPROGRAM";
    assert_eq!(shown(skimp::compile(least, &mut [])), Err((12, 0)));
    assert_eq!(shown(skimp::read_back(&[], &mut [])), Err((21, 0)));
    let stop = b"BOX\t0\t0\t1\nSTOP\t-\t0\n";
    assert_eq!(shown(skimp::read_back(stop, &mut [])), Err((32, 0)));
}

#[test]
fn refusals_say_what_they_are() {
    let refusal = skimp::compile(b"%BEGIN\n\t", &mut []).expect_err("a tab");
    assert_eq!(refusal.to_string(), "refused with 2 at 7");
}

#[test]
fn readings_of_document_01() {
    for (expression, expected) in [
        ("-7/2", Ok("NEG / K7 K2")),
        ("2147483647+1", Ok("+ K2147483647 K1")),
        ("-(\\2147483647)", Ok("NEG NOT K2147483647")),
        ("0**0", Ok("** K0 K0")),
        ("2**31", Ok("** K2 K31")),
        ("2**32", Ok("** K2 K32")),
        ("(\\0)>>31", Ok(">> NOT K0 K31")),
        ("1/3*3", Ok("* / K1 K3 K3")),
        ("6!!3", Ok("!! K6 K3")),
        ("-2**2", Ok("NEG ** K2 K2")),
        ("-A+B", Ok("+ NEG W2 W3")),
        ("'FRED'", Ok("K1179796804")),
        ("''''", Ok("K39")),
        ("'A' 'B'", Ok("K4269890")),
        ("'A''B'", Ok("K4269890")),
        ("1<<32", Ok("<< K1 K32")),
        ("2147483640", Ok("K2147483640")),
        ("2147483647", Ok("K2147483647")),
        ("2147483648", Err(6)),
        ("'JIM''S'", Err(6)),
        ("''", Err(6)),
    ] {
        let source = format!("%BEGIN\n%INTEGER A,B\nA={expression}\n%ENDOFPROGRAM\n");
        let expected = match expected {
            Ok(fields) => Ok(format!("SHEET 2 1\nSET 2 {fields}\n")),
            Err(number) => Err((number, 3)),
        };
        assert_eq!(sheet(&source), expected, "{expression}");
    }
    assert_eq!(sheet(""), Err((10, 0)));
    assert_eq!(sheet("%BEGIN\n10: ! note\n"), Err((7, 2)));
    let declared = "%BEGIN;%INTEGER NAME;NAME=1;%ENDOFPROGRAM";
    assert_eq!(sheet(declared).as_deref(), Ok("SHEET 1 1\nSET 2 K1\n"));
}

/// "Taking a JMP after an IF for its ELSE wherever the branch leads."
#[test]
fn a_jump_after_an_if() {
    let with_branch = |target: u32, over: &str| {
        let branch = format!("BNE A {target}");
        let orders = format!(
            "LOAD D 2\nCMP K 0\n{branch}\nLOAD K 1\nSEND - 0\n{over}\nLOAD K 2\nSEND - 0\nSTOP - 0\n"
        );
        sheet_of(&format!("BOX 1 0 9\n{orders}"))
    };
    let start = "IF = W2 K0\nSTART\nSEND K1\n";
    for (target, over, expected) in [
        (
            5,
            "JMP A 8",
            Ok(format!("SHEET 1 4\n{start}FINISH\nGOTO 5\nSEND K2\n")),
        ),
        (
            6,
            "JMP A 8",
            Ok(format!("SHEET 1 4\n{start}GOTO 5\nFINISH\nSEND K2\n")),
        ),
        (
            6,
            "SKIP A 8",
            Ok(format!("SHEET 1 3\n{start}ELSE\nSEND K2\nFINISH\n")),
        ),
        (7, "JMP A 8", Err((31, 0))),
        (
            8,
            "JMP A 8",
            Ok(format!("SHEET 1 4\n{start}GOTO 5\nSEND K2\nFINISH\n")),
        ),
        (9, "JMP A 8", Err((24, 2))),
        (5, "SKIP A 8", Err((31, 0))),
        (7, "SKIP A 8", Err((31, 0))),
        (8, "SKIP A 8", Err((31, 0))),
        (6, "SKIP A 7", Err((31, 0))),
        (6, "SKIP A 6", Err((31, 0))),
        (6, "SKIP A 9", Err((24, 5))),
    ] {
        assert_eq!(with_branch(target, over), expected, "{target}, {over}");
    }
}

/// Groups, from source to object, sheet and run.
#[test]
fn groups() {
    let source = "%BEGIN\n%INTEGER A\nA = 2\n%IF A > 1 %THEN %START\n\
                  %IF A = 3 %THEN %START\nSEND(1)\n%FINISH\n1:\n%FINISH %ELSE %START\n->1\n\
                  %FINISH\nSEND(A)\n%ENDOFPROGRAM\n";
    let text = "BOX 1 0 15\nLOAD K 2\nSTR D 2\nLOAD D 2\nCMP K 1\nBLE A 11\nLOAD D 2\nCMP K 3\n\
                BNE A 10\nLOAD K 1\nSEND - 0\nSKIP A 12\nJMP A 12\nLOAD D 2\nSEND - 0\nSTOP - 0\n";
    let lines = "SHEET 1 6\nSET 2 K2\nIF > W2 K1\nSTART\nIF = W2 K3\nSTART\nSEND K1\nFINISH\n\
                 ELSE\nGOTO 6\nFINISH\nSEND W2\n";
    assert_eq!(object(source).as_deref(), Ok(text));
    assert_eq!(sheet_of(text).as_deref(), Ok(lines));
    // the SKIP counts with the inner IF, which fails
    let object = text.replace(' ', "\t");
    let (mut state, mut output) = ([0; 32], [0; 4]);
    for (steps, next) in [(2, 2), (3, 5), (4, 12), (2, 14)] {
        let reply = skimp::run(object.as_bytes(), &mut state, &mut output, steps);
        assert_eq!((reply.number, reply.value), (0, steps));
        assert_eq!(state[4..8], [0, 0, 0, next]);
    }
    assert_eq!(output, [0, 0, 0, 2]);
}

#[test]
fn refusals_of_groups() {
    let program = |statements: &str| format!("%BEGIN;%INTEGER A;{statements};%ENDOFPROGRAM");
    let open = "%IF A=1 %THEN %START;";
    for (statements, refusal) in [
        (format!("{open}A=1"), (13, 3)),
        (format!("->9;{open}A=1;{open}A=1;%FINISH"), (13, 4)),
        ("%FINISH".to_string(), (13, 3)),
        (format!("{open}A=1;%FINISH;%FINISH"), (13, 6)),
        (format!("{open}%FINISH"), (7, 4)),
        (format!("{open}A=1;%FINISH %ELSE A=2"), (7, 5)),
        (
            format!("{}A=1{}", open.repeat(17), ";%FINISH".repeat(17)),
            (11, 19),
        ),
    ] {
        assert_eq!(sheet(&program(&statements)), Err(refusal), "{statements}");
    }
    let deepest = format!("{}A=1{}", open.repeat(16), ";%FINISH".repeat(16));
    let sheet = sheet(&program(&deepest)).expect("sixteen levels");
    assert!(sheet.starts_with("SHEET 1 17\n"), "{sheet}");
}

#[test]
fn example_of_the_manual() {
    let source = include_str!("../../../../examples/heater.skimp");
    let expected = "SHEET 7 32\nSET 2 K121\nSET 3 K120\nSET 4 K122\nSET 5 K0\nIF < W8 K8\n\
                    START\nGOTO 9\nFINISH\nIF <= W8 K16\nSTART\n\
                    SET 5 / - K16 ** - W8 K12 K2 K3\nFINISH\nSET 2 - - + W2 W5 K1 * K2 W6\n\
                    IF > W7 K0\nSTART\nSET 7 - W7 K1\nFINISH\nIF = W6 K1\nSTART\nGOTO 22\n\
                    FINISH\nIF < W2 W4\nSTART\nGOTO 29\nFINISH\nIF > W7 K0\nSTART\nGOTO 29\n\
                    FINISH\nSET 6 K1\nSET 7 K3\nSEND + * K1000 W8 W2\nGOTO 29\nIF < W2 W3\n\
                    START\nGOTO 26\nFINISH\nIF > W7 K0\nSTART\nGOTO 29\nFINISH\nSET 6 K0\n\
                    SET 7 K2\nSEND - NEG * K1000 W8 W2\nSET 8 + W8 K1\nIF < W8 K24\nSTART\n\
                    GOTO 4\nFINISH\nSEND W2\n";
    assert_eq!(sheet(source).as_deref(), Ok(expected));
}

// Spellings that the manual names.
#[test]
fn spellings_of_the_manual() {
    for (source, refusal) in [
        ("%BEGIN;% integer a;%ENDOFPROGRAM", (7, 2)),
        ("%BEGIN;%INTEGER A;A=1 ! note\n%ENDOFPROGRAM", (8, 3)),
        ("%BEGIN;%C;%ENDOFPROGRAM", (5, 2)),
        ("%BEGIN;%INTEGER A;A=2*-1;%ENDOFPROGRAM", (7, 3)),
    ] {
        assert_eq!(sheet(source), Err(refusal), "{source}");
    }
}
