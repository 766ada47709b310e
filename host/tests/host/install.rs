//! The script `install`, in a small repository, with the library and the command that the tests run on.

use crate::scripts::{err, found, out, Repository};
use std::fs;
use std::io::Write;
use std::path::{Path, PathBuf};
use std::process::{Command, Output};

const INSTALLED: [&str; 12] = [
    "bin/spatecanter",
    "include/spatecanter.h",
    "lib/libspatecanter.a",
    "lib/libspatecanter.so",
    "lib/libspatecanter.so.0",
    "lib/libspatecanter.so.0.1.0",
    "lib/pkgconfig/spatecanter.pc",
    "share/bash-completion/completions/spatecanter",
    "share/fish/vendor_completions.d/spatecanter.fish",
    "share/man/man1/spatecanter.1",
    "share/spatecanter/installed",
    "share/zsh/site-functions/_spatecanter",
];

/// A repository whose cargo gives the command that was built for the tests.
fn repository(name: &str) -> Repository {
    let repository = Repository::new(name);
    let cargo = format!(
        "#!/usr/bin/env bash\nmkdir -p host/target/release\ncp '{}' host/target/release/spatecanter\n",
        env!("CARGO_BIN_EXE_spatecanter")
    );
    repository.write_script("bin/cargo", &cargo);
    let header = Path::new(env!("CARGO_MANIFEST_DIR")).join("include/spatecanter.h");
    repository.write("host/include/spatecanter.h", &fs::read_to_string(header).unwrap());
    repository
}

/// Runs the script with the library of these tests.
fn install(repository: &Repository, words: &[&str]) -> Output {
    script(repository, words).output().unwrap()
}

fn script(repository: &Repository, words: &[&str]) -> Command {
    let mut command = Command::new(repository.root.join("install"));
    command
        .args(words)
        .current_dir(&repository.root)
        .env("PATH", repository.root.join("bin"))
        .env("SPATECANTER_LIB_DIR", Path::new(env!("SPATECANTER_LIBRARY")).parent().unwrap())
        .env_remove("DESTDIR");
    command
}

/// The files below a folder, by their names from there.
fn files(folder: &Path) -> Vec<String> {
    let mut files = Vec::new();
    let mut folders = vec![folder.to_path_buf()];
    while let Some(next) = folders.pop() {
        for entry in fs::read_dir(next).unwrap() {
            let path = entry.unwrap().path();
            if path.is_dir() {
                folders.push(path);
            } else {
                files.push(path.strip_prefix(folder).unwrap().display().to_string());
            }
        }
    }
    files.sort();
    files
}

fn succeeds(command: &mut Command) -> String {
    let output = command.output().unwrap();
    assert!(output.status.success(), "{command:?}: {}", err(&output));
    out(&output)
}

#[test]
fn what_is_installed_is_removed_again() {
    let repository = repository("install_removed");
    let prefix = repository.root.join("new/prefix");
    let prefix_word = prefix.to_str().unwrap();
    // A second time it is put over the first.
    for _ in 0..2 {
        let installed = install(&repository, &["--prefix", prefix_word]);
        assert_eq!(installed.status.code(), Some(0), "{}", err(&installed));
        assert_eq!(out(&installed), format!("spatecanter 0.1.0 is installed in {prefix_word}/\n"));
        assert_eq!(files(&prefix), INSTALLED);
    }
    let archive = fs::read(prefix.join("lib/libspatecanter.a")).unwrap();
    assert!(archive == fs::read(env!("SPATECANTER_LIBRARY")).unwrap());
    let version = succeeds(Command::new(prefix.join("bin/spatecanter")).arg("--version"));
    assert!(version.starts_with("spatecanter 0.1.0\n"), "{version}");
    let removed = install(&repository, &["--remove", &format!("--prefix={prefix_word}")]);
    assert_eq!(removed.status.code(), Some(0), "{}", err(&removed));
    assert!(!repository.root.join("new").exists());
    let again = install(&repository, &["--remove", "--prefix", prefix_word]);
    assert_eq!(again.status.code(), Some(1));
    assert!(err(&again).starts_with("install: nothing is installed in "), "{}", err(&again));
}

#[test]
fn what_others_installed_stays() {
    let repository = repository("install_others");
    repository.write("prefix/bin/other", "");
    repository.write("prefix/share/man/man1/empty/.keep", "");
    fs::remove_file(repository.root.join("prefix/share/man/man1/empty/.keep")).unwrap();
    let installed = install(&repository, &["--prefix", "prefix"]);
    assert_eq!(installed.status.code(), Some(0), "{}", err(&installed));
    let prefix = repository.root.join("prefix");
    fs::write(prefix.join("include/later.h"), "").unwrap();
    assert_eq!(install(&repository, &["--remove", "--prefix", "prefix"]).status.code(), Some(0));
    assert_eq!(files(&prefix), ["bin/other", "include/later.h"]);
    assert!(prefix.join("share/man/man1/empty").is_dir());
    assert!(!prefix.join("lib").exists() && !prefix.join("share/zsh").exists());
}

#[test]
fn a_stage_stands_before_all_paths() {
    let repository = repository("install_stage");
    let stage = repository.root.join("stage");
    let installed = script(&repository, &[]).env("DESTDIR", &stage).output().unwrap();
    assert_eq!(installed.status.code(), Some(0), "{}", err(&installed));
    assert_eq!(files(&stage.join("usr/local")), INSTALLED);
    let package = fs::read_to_string(stage.join("usr/local/lib/pkgconfig/spatecanter.pc")).unwrap();
    assert!(package.starts_with("prefix=/usr/local\n"), "{package}");
    let removed = script(&repository, &["--remove"]).env("DESTDIR", &stage).output().unwrap();
    assert_eq!(removed.status.code(), Some(0), "{}", err(&removed));
    assert_eq!(fs::read_dir(&stage).unwrap().count(), 0);
}

#[test]
fn wrong_words_are_2() {
    let repository = repository("install_words");
    for words in [&["--prefix"][..], &["--force"], &["prefix"]] {
        let refused = install(&repository, words);
        assert_eq!(refused.status.code(), Some(2), "{words:?}");
        assert!(err(&refused).starts_with("install: "), "{words:?}: {}", err(&refused));
    }
    let help = install(&repository, &["--help"]);
    assert!(out(&help).contains("./install --remove [--prefix P]"), "{}", out(&help));
}

/// An installation, and what pkg-config says of it.
struct Package {
    repository: Repository,
}

impl Package {
    fn prefix(&self) -> PathBuf {
        self.repository.root.join("prefix")
    }

    fn says(&self, words: &[&str]) -> Vec<String> {
        let mut command = Command::new("pkg-config");
        command.args(words).arg("spatecanter").env("PKG_CONFIG_PATH", self.prefix().join("lib/pkgconfig"));
        succeeds(&mut command).split_whitespace().map(str::to_string).collect()
    }

    /// Compiles a program by what pkg-config says, with words before the library, and runs it.
    fn run(&self, compiler: &[&str], source: &str, before: &[&str], after: &[&str]) -> String {
        let program = self.repository.root.join("program");
        let source = Path::new(env!("CARGO_MANIFEST_DIR")).join(source);
        succeeds(
            Command::new(compiler[0])
                .args(&compiler[1..])
                .args(["-Wall", "-Wextra", "-Werror"])
                .args(self.says(&["--cflags"]))
                .arg(source)
                .args(before)
                .args(self.says(&["--libs"]))
                .args(after)
                .arg("-o")
                .arg(&program),
        );
        succeeds(Command::new(&program).env("LD_LIBRARY_PATH", self.prefix().join("lib")))
    }
}

#[test]
fn programs_are_compiled_by_pkg_config() {
    if found("pkg-config").is_none() {
        writeln!(std::io::stdout().lock(), "left out: there is no pkg-config to compile programs by")
            .unwrap();
        return;
    }
    let package = Package { repository: repository("install_pkg_config") };
    let installed = install(&package.repository, &["--prefix", package.prefix().to_str().unwrap()]);
    assert_eq!(installed.status.code(), Some(0), "{}", err(&installed));
    assert_eq!(package.says(&["--modversion"]), ["0.1.0"]);
    let printed = "number 0, place 0, length 29\n";
    let (c, cpp) = (["cc", "-std=c99", "-pedantic"], ["c++", "-std=c++11", "-x", "c++"]);
    assert_eq!(package.run(&c, "../samples/link.c", &[], &[]), printed);
    assert_eq!(package.run(&c, "tests/host/header.c", &[], &[]), "");
    // C++ takes no file for a library after -x c++.
    assert_eq!(package.run(&cpp, "../samples/link.c", &["-x", "none"], &[]), printed);
    let (archive, shared) = (&["-Wl,-Bstatic"], &["-Wl,-Bdynamic"]);
    assert_eq!(package.run(&c, "../samples/link.c", archive, shared), printed);
    // The archive is in the program, which needs no shared object.
    assert_eq!(succeeds(&mut Command::new(package.repository.root.join("program"))), printed);
}
