//! What the command has in common with others: the version, short and long options, how much is told, and the texts
//! for the manual and for shells.

use super::*;
use std::process;

#[test]
fn the_version_names_library_and_toolchain() {
    let folder = folder("version");
    let version = run(&folder, &["--version"]);
    assert_eq!((version.status, version.err.as_str()), (0, ""));
    let text = version.text();
    let lines: Vec<&str> = text.lines().collect();
    assert_eq!(lines.len(), 3, "{text}");
    assert_eq!(lines[0], concat!("spatecanter ", env!("CARGO_PKG_VERSION")));
    let digest = process::Command::new("sha256sum").arg(env!("SPATECANTER_LIBRARY")).output().unwrap().stdout;
    let digest = String::from_utf8(digest).unwrap();
    let (digest, _) = digest.split_once(' ').unwrap();
    assert_eq!(lines[1], format!("library {}, SHA-256 {digest}", env!("CARGO_PKG_VERSION")));
    let beside = Path::new(env!("SPATECANTER_LIBRARY")).with_extension("toolchain");
    let toolchain = fs::read_to_string(beside).unwrap_or_else(|_| "unknown\n".into());
    assert_eq!(format!("{}\n", lines[2]), format!("toolchain {toolchain}"));
    assert_eq!(run(&folder, &["-V"]).text(), text);
}

/// The package's version is the number that the library gives.
#[test]
fn the_package_and_the_library_have_one_version() {
    let parts: Vec<u32> = env!("CARGO_PKG_VERSION").split('.').map(|part| part.parse().unwrap()).collect();
    assert_eq!(spatecanter::version(), 10_000 * parts[0] + 100 * parts[1] + parts[2]);
}

#[test]
fn an_output_is_named_in_each_usual_way() {
    let folder = folder("output_names");
    fs::write(folder.join("p3.tape"), hex(P3_TAPE)).unwrap();
    let ways: [&[&str]; 6] = [
        &["read", "p3.tape", "-o", "a"],
        &["read", "p3.tape", "-oa"],
        &["read", "p3.tape", "--output", "a"],
        &["read", "p3.tape", "--output=a"],
        &["read", "-qoa", "p3.tape"],
        &["read", "-qo", "a", "p3.tape"],
    ];
    for words in ways {
        let run = run(&folder, words);
        assert_eq!(run.status, 0, "{words:?}: {}", run.err);
        let galley = fs::read(folder.join("a")).unwrap();
        assert_eq!(spatecanter::check_galley(&galley), Ok(2), "{words:?}");
        fs::remove_file(folder.join("a")).unwrap();
    }
    assert_eq!(run(&folder, &["reprint", "p3.tape", "-qdout"]).status, 0);
    assert_eq!(run(&folder, &["reprint", "p3.tape", "--directory=out", "--force"]).status, 0);
    assert_eq!(names(&folder.join("out")), ["p3.tape.dvi", "p3.tape.galley", "p3.tape.sheet"]);
    let refused = run(&folder, &["read", "p3.tape", "-o", "a", "--output", "b"]);
    assert_eq!(refused.status, 2);
    assert!(refused.err.starts_with("spatecanter: --output is given twice\n"), "{}", refused.err);
    for (word, what) in [("-qx", "-x is no option of read"), ("--quiet=1", "--quiet takes no value")] {
        let refused = run(&folder, &["read", "p3.tape", word]);
        assert_eq!(refused.status, 2);
        assert!(refused.err.starts_with(&format!("spatecanter: {what}\n")), "{}", refused.err);
    }
}

#[test]
fn quiet_and_verbose() {
    let folder = folder("loudness");
    fs::write(folder.join("p3.tape"), hex(P3_TAPE)).unwrap();
    fs::write(folder.join("four.tape"), hex(PAIRS_TAPE)).unwrap();
    // Neither what was written nor a hint.
    for tape in ["p3.tape", "four.tape"] {
        let quiet = run(&folder, &["read", tape, "--quiet"]);
        assert_eq!((quiet.status, quiet.err.as_str()), (0, ""), "{tape}");
    }
    let refused = run(&folder, &["check", "p3.tape", "-q"]);
    assert_eq!(refused.status, 1);
    assert!(refused.err.contains("refused 41 at 0"), "{}", refused.err);
    let verbose = run(&folder, &["read", "p3.tape", "-v", "--force"]);
    let steps: Vec<&str> = verbose.err.lines().filter(|line| line.ends_with(" s")).collect();
    assert!(steps[0].starts_with("reading p3.tape: 0."), "{}", verbose.err);
    assert!(steps[1].starts_with("reading the tape: 0."), "{}", verbose.err);
    assert!(verbose.err.ends_with(&format!("p3.tape.galley: {P3_TOLD}")), "{}", verbose.err);
    assert_eq!(run(&folder, &["read", "p3.tape", "-qv", "--force"]).status, 2);
}

/// The commands, as the whole help has them.
fn commands(folder: &Path) -> Vec<String> {
    let help = run(folder, &["--help"]).text();
    let lines = help.lines().skip_while(|line| !line.starts_with("Usage")).skip(2);
    lines
        .take_while(|line| !line.is_empty())
        .map(|line| line.split_whitespace().next().unwrap().into())
        .collect()
}

/// The options of a command, as its usage line has them.
fn options(folder: &Path, command: &str) -> Vec<String> {
    let help = run(folder, &[command, "--help"]).text();
    let usage = help.split("Usage: ").nth(1).unwrap().split("\n\n").next().unwrap();
    let is_part = |character: char| character.is_alphanumeric() || character == '-';
    usage
        .split(|character| !is_part(character))
        .filter(|word| word.starts_with('-'))
        .map(String::from)
        .collect()
}

#[test]
fn the_manual_has_the_texts_of_help() {
    let folder = folder("manual");
    let manual = run(&folder, &["--generate", "man"]);
    assert_eq!((manual.status, manual.err.as_str()), (0, ""));
    let plain = manual.text().replace("\\-", "-").replace("\\&", "").replace("\\e", "\\");
    for command in commands(&folder) {
        assert!(plain.contains(&format!("\n.SS {command}\n")), "{command}");
        let help = run(&folder, &[&command, "--help"]).text();
        let (text, options) = help.split_once("\nOptions:\n").unwrap();
        let lines = text.lines().filter(|line| !line.is_empty());
        for line in lines {
            assert!(plain.contains(&format!("\n{line}\n")), "{command}: {line}");
        }
        for option in options.lines() {
            let (_, about) = option.trim_start().split_once("  ").unwrap();
            assert!(plain.contains(about.trim_start()), "{command}: {option}");
        }
    }
    let whole = run(&folder, &["--help"]).text();
    for paragraph in whole.split("\n\n").filter(|text| !text.starts_with("  ") && !text.starts_with("Usage"))
    {
        let text = match paragraph.split_once(". ") {
            Some((title, text)) if title.len() < 20 => {
                assert!(plain.contains(&format!("\n.SH {}\n.PP\n", title.to_uppercase())), "{title}");
                text
            }
            _ => paragraph,
        };
        assert!(plain.contains(text.trim_end()), "{text}");
    }
    for section in ["NAME", "SYNOPSIS", "DESCRIPTION", "COMMANDS", "OPTIONS", "FILES", "EXIT STATUS"] {
        assert!(plain.contains(&format!("\n.SH {section}\n")), "{section}");
    }
}

/// What the completions for bash offer after these words, of which the last is begun.
fn completed(script: &Path, folder: &Path, words: &[&str]) -> Vec<String> {
    let program =
        "source \"$1\"; shift; COMP_WORDS=(\"$@\"); COMP_CWORD=$(($# - 1)); COMPREPLY=(); _spatecanter; \
                   printf '%s\\n' \"${COMPREPLY[@]}\"";
    let output = process::Command::new("bash")
        .args(["-c", program, "bash"])
        .arg(script)
        .arg("spatecanter")
        .args(words)
        .current_dir(folder)
        .output()
        .unwrap();
    assert_eq!(String::from_utf8_lossy(&output.stderr), "");
    let text = String::from_utf8(output.stdout).unwrap();
    text.lines().filter(|line| !line.is_empty()).map(String::from).collect()
}

#[test]
fn bash_completes_commands_options_and_values() {
    let folder = folder("completions");
    fs::create_dir(folder.join("tapes")).unwrap();
    fs::write(folder.join("tape"), "").unwrap();
    let script = folder.join("script");
    fs::write(&script, run(&folder, &["--generate", "bash"]).out).unwrap();
    let completed = |words: &[&str]| completed(&script, &folder, words);
    for command in commands(&folder) {
        assert!(completed(&[&command[..1]]).contains(&command), "{command}");
        assert!(completed(&["help", &command]).contains(&command), "{command}");
        let offered = completed(&[&command, "-"]);
        for option in options(&folder, &command) {
            assert!(offered.contains(&option), "{command} {option}");
        }
        assert!(offered.contains(&"--quiet".into()), "{command}");
    }
    assert_eq!(completed(&["read", "--machine", ""]), ["4", "8"]);
    assert_eq!(completed(&["read", "--machine", "=", "8"]), ["8"]);
    assert_eq!(completed(&["convert", "--to", ""]), ["new", "old"]);
    assert_eq!(completed(&["plot", "--to", ""]), [""; 0]);
    assert_eq!(completed(&["reprint", "tape", "-d", "ta"]), ["tapes"]);
    assert_eq!(completed(&["--generate", "f"]), ["fish"]);
    let mut files = completed(&["read", "ta"]);
    files.sort();
    assert_eq!(files, ["tape", "tapes"]);
}

#[test]
fn zsh_and_fish_have_every_command_and_option() {
    let folder = folder("other_completions");
    for shell in ["zsh", "fish"] {
        let script = run(&folder, &["--generate", shell]).text();
        for command in commands(&folder) {
            assert!(script.contains(&command), "{shell}: {command}");
            for option in options(&folder, &command) {
                let name = option.trim_start_matches('-');
                let is_there = match (shell, option.len()) {
                    ("zsh", _) => script.contains(&option),
                    (_, 2) => script.contains(&format!(" -s {name} ")),
                    _ => script.contains(&format!(" -l {name} ")),
                };
                assert!(is_there, "{shell}: {command} {option}");
            }
        }
        fs::write(folder.join(shell), &script).unwrap();
        // The shell's own reading, where there is one.
        if let Ok(read) = process::Command::new(shell).arg("-n").arg(folder.join(shell)).output() {
            assert!(read.status.success(), "{shell}: {}", String::from_utf8_lossy(&read.stderr));
        }
    }
    assert_eq!(run(&folder, &["--generate", "csh"]).status, 2);
    assert_eq!(run(&folder, &["--generate"]).status, 2);
}
