//! include/adapter.h says what tests/product declares, which the comparison holds to the library: the layout of what
//! is lent and answered, and the documents' numbers. It needs a C compiler, as linking this test does.

use baseline::{LONGEST_PLAN, LONGEST_SHEET, LONGEST_TEXT, MOST_SITUATIONS};
use product::{Answer, Compliance, Fault, Part, Record, RowAnswer, SheetAnswer, Stepped};
use std::mem::{align_of, offset_of, size_of};
use std::path::{Path, PathBuf};
use std::process::Command;

const HERE: &str = env!("CARGO_MANIFEST_DIR");

/// The header's, which rises with every change of it.
const VERSION: u32 = 7;

/// The words for the numbers, document 01's for 0 to 16.
#[rustfmt::skip]
const WORDS: [&str; 24] = [
    "ACCEPTED", "LENGTH", "TRAILER", "INDEX", "ROW", "READY", "ACTION", "SUCCESSOR", "ROLE", "NAMES", "RANK",
    "CAPACITY", "NO_ADAPTER", "ROOM", "PLAN", "STATE", "MOVE", "CHOOSING", "CIRCLE", "STATES", "READY_SETS",
    "UNSOUND", "GRAMMAR", "VARIABLE",
];

/// The words for the modes.
const MODES: [&str; 2] = ["PAPER", "SETTLED"];

/// A line with a struct's name, size and alignment, then for each field a line with its place and size.
macro_rules! laid_out {
    ($name:literal, $type:ty $(, $field:ident: $width:ty)*) => {
        [
            format!("{} {} {}\n", $name, size_of::<$type>(), align_of::<$type>()),
            $({
                let _: fn(&$type) -> &$width = |value| &value.$field;
                let place = offset_of!($type, $field);
                format!("{}.{} {place} {}\n", $name, stringify!($field), size_of::<$width>())
            }),*
        ]
        .concat()
    };
}

fn declared() -> String {
    let mut lines = format!("HEADER_VERSION {VERSION}\nLONGEST_SHEET {LONGEST_SHEET}\n");
    lines += &format!("LONGEST_TEXT {LONGEST_TEXT}\nMOST_SITUATIONS {MOST_SITUATIONS}\nLONGEST_PLAN {LONGEST_PLAN}\n");
    for (number, word) in WORDS.iter().enumerate().chain(MODES.iter().enumerate()) {
        lines += &format!("{word} {number}\n");
    }
    lines += &laid_out!("adapter_record", Record);
    lines += &laid_out!("adapter_answer", Answer,
        number: u8, sheet: u8, state: u8, offset: u16, situations: u16, states: u16, rounds: u16, length: u32);
    lines += &laid_out!("adapter_step_answer", Stepped, number: u8, state: u16);
    lines += &laid_out!("adapter_complies_answer", Compliance,
        number: u8, sheet: u8, state: u8, offset: u16, yes: u8);
    lines += &laid_out!("adapter_sheet_answer", SheetAnswer, number: u8, sheet: u8, state: u8, length: u16);
    lines += &laid_out!("adapter_fault", Fault,
        condition: u8, code: u8, ready: u16, state: u16, counts: [u8; 14], old_state: u8, new_state: u8);
    lines += &laid_out!("adapter_part", Part, sheet: u8, offset: u16, length: u16);
    lines += &laid_out!("adapter_row_answer", RowAnswer, number: u8, sheet: u8, state: u8, offset: u16);
    lines
}

/// The C compiler, with every warning an error.
fn compiler() -> Command {
    let found = ["cc", "clang", "gcc"].iter().find(|name| Command::new(name).arg("--version").output().is_ok());
    let mut command = Command::new(found.expect("a C compiler, as cc, clang or gcc"));
    command.args(["-Wall", "-Wextra", "-pedantic", "-Werror"]);
    command
}

fn header() -> PathBuf {
    Path::new(HERE).join("../../include/adapter.h")
}

#[test]
fn the_header_says_what_the_product_declares() {
    let program = std::env::temp_dir().join(format!("cross-header-{}", std::process::id()));
    let source = Path::new(HERE).join("tests/header.c");
    let mut build = compiler();
    build.arg("-std=c99").arg("-o").arg(&program).arg(source);
    assert!(build.status().expect("a compiler that runs").success());
    let ran = Command::new(&program).output().expect("a program that runs");
    std::fs::remove_file(&program).expect("a program to remove");
    let (printed, declared) = (String::from_utf8_lossy(&ran.stdout), declared());
    for (printed, declared) in printed.lines().zip(declared.lines()) {
        assert_eq!(printed, declared);
    }
    assert_eq!(printed.len(), declared.len());
}

/// Whether a file goes through the compiler as this language in this edition.
fn passes(file: &Path, language: &str, edition: &str) -> bool {
    let mut check = compiler();
    check.args(["-fsyntax-only", "-x", language, edition]).arg(file);
    check.output().expect("a compiler that runs").status.success()
}

#[test]
fn the_header_is_c99_and_c11() {
    for edition in ["-std=c99", "-std=c11"] {
        assert!(passes(&header(), "c", edition), "{edition}");
    }
}

/// A C compiler may come without the one for C++; then there is nothing to try.
#[test]
fn the_header_is_cpp() {
    if !passes(Path::new("/dev/null"), "c++", "-std=c++98") {
        eprintln!("not tried: there is no compiler for C++");
        return;
    }
    for edition in ["-std=c++98", "-std=c++11", "-std=c++17"] {
        assert!(passes(&header(), "c++", edition), "{edition}");
    }
}
