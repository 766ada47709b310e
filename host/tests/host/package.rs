//! The Rust package: every public item has an example, which `cargo test --doc` runs; refusals are errors with a source;
//! and checked types take what the operations make.

use crate::hex;
use spatecanter::{Form, Galley, Machine, Refusal, Sheet};
use std::error::Error;
use std::fs;
use std::path::{Path, PathBuf};

/// The package's sources but for the command and what is hidden from its documentation.
fn sources() -> Vec<PathBuf> {
    let source = Path::new(env!("CARGO_MANIFEST_DIR")).join("src");
    let folders = [source.join("explain"), source];
    let entries = folders.iter().flat_map(|folder| fs::read_dir(folder).unwrap());
    let files = entries.map(|entry| entry.unwrap().path());
    files.filter(|path| path.is_file() && !path.ends_with("ffi.rs")).collect()
}

/// The public items of a source that have no example in the comment before them.
fn without_example(text: &str) -> Vec<String> {
    let kinds = ["fn", "struct", "enum", "type", "const", "trait"];
    let mut found = Vec::new();
    let mut has_example = false;
    for line in text.lines().map(str::trim_start) {
        match line.strip_prefix("pub ").and_then(|item| item.split_once(' ')) {
            Some((kind, name)) if kinds.contains(&kind) && !has_example => found.push(name.to_string()),
            _ => {}
        }
        // Attributes stand between a comment and its item.
        has_example = line.starts_with("/// ```") || has_example && line.starts_with(['/', '#']);
    }
    found
}

#[test]
fn every_public_item_has_an_example() {
    for path in sources() {
        let text = fs::read_to_string(&path).unwrap();
        assert_eq!(without_example(&text), [""; 0], "{}", path.display());
    }
    assert_eq!(without_example("/// A.\npub fn a() {}\n/// ```\n/// ```\n#[b]\npub enum B {\n"), ["a() {}"]);
}

#[test]
fn numbers_and_refusals_are_one_to_one() {
    for (_, number, meaning) in Refusal::TABLE {
        let refusal = Refusal::from_parts(*number, 7);
        assert_eq!((refusal.number(), refusal.meaning()), (*number, *meaning));
        assert!([0, 7].contains(&refusal.place()), "{refusal}");
        assert_eq!(refusal.needed().is_some(), meaning.starts_with("the buffer"), "{refusal}");
        assert_eq!(refusal.to_string(), format!("refused {number} at {}: {meaning}", refusal.place()));
    }
    let unknown = Refusal::from_parts(99, 3);
    assert_eq!(unknown, Refusal::Unknown { number: 99, place: 3 });
    assert_eq!(unknown.to_string(), "refused 99 at 3: an unknown refusal");
}

#[test]
fn errors_have_their_refusal_for_a_source() {
    let refused = Galley::from_bytes(hex("02 00 04 00 00 00 07")).unwrap_err();
    let source = refused.source().unwrap().downcast_ref::<Refusal>();
    assert_eq!(source, Some(&Refusal::GalleyMalformed { place: 0 }));
    let words =
        "refused 41 at 0: the galley is malformed\n  at offset 0 (hexadecimal 0) of the galley: bytes 02 \
                 00 04 00 00 00 07\n  expected: an End that counts 0 characters";
    assert_eq!(refused.to_string(), words);
    let boxed: Box<dyn Error + Send + Sync> = refused.into();
    assert_eq!(boxed.to_string(), words);
}

/// An explanation asks nothing of its input: with another tape, file or place it tells what it can.
#[test]
fn explanations_take_any_input() {
    let running = spatecanter::RunningTape::new();
    for (_, number, _) in Refusal::TABLE {
        for place in [0, 1, 5, usize::MAX] {
            let refusal = Refusal::from_parts(*number, place);
            for bytes in
                [&[][..], &[0x4D], &[0x82; 9], &[7, 0, 8, 0, 0], &[129, 0, 0, 0, 1, 255, 255, 255, 255]]
            {
                let explained = [
                    refusal.in_tape(bytes, Machine::Four),
                    refusal.in_piece(&running, 3, bytes, Machine::Eight),
                    refusal.in_galley(bytes, Form::New),
                    refusal.in_galley(bytes, Form::Old),
                    refusal.in_dvi(bytes, &[]),
                ];
                assert!(explained.iter().all(|it| it.to_string().starts_with(&refusal.to_string())));
            }
        }
    }
}

#[test]
fn checked_types_are_what_the_operations_make() {
    let galley = spatecanter::read_tape(&hex("40 EF 52 4E 01 4B 40 EF 02 49"), Machine::Eight).unwrap();
    assert_eq!(Galley::from_bytes(galley.to_vec()), Ok(galley.clone()));
    assert_eq!(Galley::try_from(galley.to_vec()), Ok(galley.clone()));
    let made = spatecanter::reprint(&galley, &[]).unwrap();
    assert_eq!(spatecanter::DviFile::from_bytes(made.dvi.to_vec(), &[]), Ok(made.dvi.clone()));
    assert_eq!(Sheet::try_from(made.sheet.to_vec()), Ok(made.sheet.clone()));
    let shown = made.dvi.commands().filter(|command| command.shows()).count();
    assert_eq!(shown, made.sheet.fields().count());
    let last = made.dvi.commands().last().unwrap();
    assert_eq!((last.code, made.dvi[last.place + 1]), (130, 131), "the last command of a page is before PST");
}
