//! The C header, by programs in C that are compiled over it and linked with the library.

use crate::ffi;
use spatecanter::Refusal;
use std::collections::BTreeMap;
use std::fs;
use std::path::{Path, PathBuf};
use std::process::Command;

fn host() -> &'static Path {
    Path::new(env!("CARGO_MANIFEST_DIR"))
}

fn header() -> String {
    fs::read_to_string(host().join("include/spatecanter.h")).unwrap()
}

/// Compiles a program in C and runs it: what it prints, if it ends with 0.
fn run_c(source: &Path) -> Result<String, String> {
    let program = Path::new(env!("CARGO_TARGET_TMPDIR"))
        .join(format!("{}.c.run", source.file_stem().unwrap().display()));
    let compiled = Command::new("cc")
        .args(["-std=c99", "-Wall", "-Wextra", "-pedantic", "-Werror", "-I"])
        .arg(host().join("include"))
        .arg(source)
        .arg(env!("SPATECANTER_LIBRARY"))
        .arg("-o")
        .arg(&program)
        .output()
        .expect("a C compiler has to be there, as cc on the PATH");
    assert!(compiled.status.success(), "{}", String::from_utf8_lossy(&compiled.stderr));
    let output = Command::new(program).output().unwrap();
    let text = String::from_utf8_lossy(&output.stdout).into_owned();
    if output.status.success() {
        Ok(text)
    } else {
        Err(text)
    }
}

#[test]
fn a_c_program_links() {
    let printed = run_c(&host().join("../samples/link.c"));
    assert_eq!(printed, Ok("number 0, place 0, length 29\n".into()));
}

#[test]
fn a_c_program_gets_every_number_from_the_library() {
    assert_eq!(run_c(&host().join("tests/host/header.c")), Ok(String::new()));
}

/// The words of a text that start so.
fn words(text: &str, start: &str) -> Vec<String> {
    let is_word = |character: char| character.is_alphanumeric() || character == '_';
    let mut words: Vec<String> = text
        .split(|character| !is_word(character))
        .filter(|word| word.starts_with(start))
        .map(str::to_string)
        .collect();
    words.sort();
    words.dedup();
    words
}

/// The header declares the functions that the library has, and the program in C calls each.
#[test]
fn the_header_has_the_library_s_functions() {
    let symbols = Command::new("nm")
        .args(["--extern-only", "--defined-only", "--format=posix", env!("SPATECANTER_LIBRARY")])
        .output()
        .expect("nm has to be there, from binutils");
    let exported: Vec<String> = words(&String::from_utf8_lossy(&symbols.stdout), "sp_");
    let declared: Vec<String> =
        words(&header(), "sp_").into_iter().filter(|name| name != "sp_number").collect();
    let called = words(&fs::read_to_string(host().join("tests/host/header.c")).unwrap(), "sp_");
    assert_eq!(declared, exported);
    assert_eq!(called, declared);
}

/// Every number and limit of the header, as the C compiler sees it, is that of this package; and all are
/// tried in C.
#[test]
fn the_header_has_the_package_s_numbers() {
    let mut numbers: BTreeMap<String, usize> =
        Refusal::TABLE.iter().map(|(name, number, _)| (format!("SP_{name}"), *number)).collect();
    numbers.insert("SP_ACCEPTED".into(), 0);
    let limits = [
        ("SP_VERSION", unsafe { ffi::sp_version() } as usize),
        ("SP_TAPE_LIMIT", spatecanter::TAPE_LIMIT),
        ("SP_GALLEY_LIMIT", spatecanter::GALLEY_LIMIT),
        ("SP_OLD_GALLEY_LIMIT", spatecanter::OLD_GALLEY_LIMIT),
        ("SP_DVI_LIMIT", spatecanter::DVI_LIMIT),
        ("SP_DVI2_LIMIT", spatecanter::DVI2_LIMIT),
        ("SP_ITEM_LIMIT", spatecanter::ITEM_LIMIT),
        ("SP_HEIGHT_LIMIT", spatecanter::HEIGHT_LIMIT as usize),
        ("SP_DVI_HEIGHT_LIMIT", spatecanter::DVI_HEIGHT_LIMIT as usize),
        ("SP_XGP_LIMIT", spatecanter::XGP_LIMIT),
        ("SP_XGP_WIDTHS", spatecanter::XGP_WIDTHS),
        ("SP_ITEM_CHARACTER", ffi::ITEM_CHARACTER as usize),
        ("SP_ITEM_CUT", ffi::ITEM_CUT as usize),
        ("SP_TAPE_WORDS", ffi::TAPE_WORDS),
    ];
    let report = [
        ("SP_REPORT_LIMIT", spatecanter::REPORT_LIMIT as usize),
        ("SP_REPORT_WORDS", spatecanter::REPORT_WORDS),
        ("SP_REPORT_TAPES", 0),
        ("SP_REPORT_ACCEPTED", 1),
        ("SP_REPORT_REFUSED", 1),
        ("SP_REPORT_NO_MACHINE", 12),
        ("SP_REPORT_FONTS", 13),
        ("SP_REPORT_FORWARD", 133),
        ("SP_REPORT_BACKWARD", 134),
    ];
    numbers.extend(report.map(|(name, word)| (name.to_string(), word)));
    numbers.extend(limits.map(|(name, limit)| (name.to_string(), limit)));
    let names: Vec<&String> = numbers.keys().collect();
    let in_header: Vec<String> = words(&header(), "SP_");
    assert_eq!(names, in_header.iter().collect::<Vec<_>>());
    assert_eq!(words(&fs::read_to_string(host().join("tests/host/header.c")).unwrap(), "SP_"), in_header);
    let expected: String = numbers.iter().map(|(name, number)| format!("{name} {number}\n")).collect();
    assert_eq!(run_c(&printing(&names)), Ok(expected));
}

/// A refusal has one name and one number, in the proved code, in the header and in this package.
#[test]
fn a_refusal_has_one_name() {
    let source = fs::read_to_string(host().join("../crates/octets/src/refusal.rt")).unwrap();
    let proved: BTreeMap<String, usize> = source
        .lines()
        .filter_map(|line| line.trim().strip_suffix(',')?.split_once(" = "))
        .map(|(name, number)| (constant_name(name), number.parse().unwrap()))
        .collect();
    let told: BTreeMap<String, usize> =
        Refusal::TABLE.iter().map(|(name, number, _)| (name.to_string(), *number)).collect();
    assert_eq!(told, proved);
}

/// The name of a constant for a variant: `OUT_OF_32_BITS` for `OutOf32Bits`.
fn constant_name(variant: &str) -> String {
    let mut name = String::new();
    let mut last = '_';
    for letter in variant.chars() {
        if !name.is_empty() && (letter.is_uppercase() || letter.is_ascii_digit() && !last.is_ascii_digit()) {
            name.push('_');
        }
        name.extend(letter.to_uppercase());
        last = letter;
    }
    name
}

/// A program in C that prints names with their values.
fn printing(names: &[&String]) -> PathBuf {
    let prints: String =
        names.iter().map(|name| format!("    printf(\"{name} %lu\\n\", (unsigned long){name});\n")).collect();
    let text = format!(
        "#include <stdio.h>\n#include \"spatecanter.h\"\nint main(void)\n{{\n{prints}    return 0;\n}}\n"
    );
    let path = Path::new(env!("CARGO_TARGET_TMPDIR")).join("numbers.c");
    fs::write(&path, text).unwrap();
    path
}
