//! The scripts `library` and `spatecanter` at the root, in a small repository with stand-ins for rt and
//! cargo. Those of `install` are beside this file.

use std::env;
use std::fs;
use std::os::unix::fs::{symlink, PermissionsExt};
use std::path::{Path, PathBuf};
use std::process::{self, Command, Output};
use std::thread;
use std::time::Duration;

/// Stands in a crate's folder; proves every crate but those that the file `unproved` names, and exports sp_NAME from crate NAME.
const RT: &str = r#"#!/usr/bin/env bash
if [ "$1" = version ]; then echo "a stand-in for rt"; exit; fi
crate=${PWD##*/}
echo "rt $1 $crate" >>../../calls
if grep -qsx "$crate" ../../unproved; then echo "fn $crate::f: not proved"; exit 1; fi
[ "$1" = lib ] || exit 0
mkdir -p out
rm -f "out/lib$crate.a"
cat src/more.c 2>/dev/null >out/more.c
echo "int sp_$crate(void) { return 0; }" | cat - out/more.c | cc -x c -c - -o out/object.o
ar rcs "out/lib$crate.a" out/object.o
"#;

const CARGO: &str = r#"#!/usr/bin/env bash
echo cargo >>calls
mkdir -p host/target/release
printf '#!/usr/bin/env bash\necho "built: $*"\n' >host/target/release/spatecanter
chmod +x host/target/release/spatecanter
"#;

/// The tools that the scripts and the stand-ins call.
const TOOLS: [&str; 36] = [
    "ar", "as", "awk", "bash", "cat", "cc", "chmod", "cp", "cut", "dirname", "env", "find", "flock", "grep",
    "head", "install", "ld", "ln", "mkdir", "mktemp", "mv", "nm", "nproc", "printf", "readlink", "rm",
    "rmdir", "sed", "sleep", "sort", "tail", "touch", "uniq", "wc", "sh", "xargs",
];

/// A repository in small, outside of this one, whose crates are all that `rt` should find here.
pub struct Repository {
    pub root: PathBuf,
}

impl Drop for Repository {
    fn drop(&mut self) {
        let _ = fs::remove_dir_all(&self.root);
    }
}

impl Repository {
    pub fn new(name: &str) -> Repository {
        let root = env::temp_dir().join(format!("spatecanter.{}.{name}", process::id()));
        let _ = fs::remove_dir_all(&root);
        let repository = Repository { root };
        let source = Path::new(env!("CARGO_MANIFEST_DIR")).join("..");
        for script in ["library", "spatecanter", "install"] {
            repository.write_script(script, &fs::read_to_string(source.join(script)).unwrap());
        }
        repository.write(
            "crates.txt",
            "base:\nleft: base\nright: base\nspatecanter staticlib: left base # the first\nsecond staticlib: right base\n",
        );
        for (name, text) in [
            ("base", ""),
            ("left", ""),
            ("right", ""),
            ("spatecanter", "#[unsafe(no_mangle)]"),
            ("second", "#[unsafe(no_mangle)]"),
        ] {
            repository.write(&format!("crates/{name}/src/lib.rt"), text);
        }
        for file in ["build.rs", "build/sha256.rs", "Cargo.toml", "Cargo.lock", "src/lib.rs"] {
            repository.write(&format!("host/{file}"), "");
        }
        repository.write_script("bin/rt", RT);
        repository.write_script("bin/cargo", CARGO);
        for tool in TOOLS {
            if let Some(path) = found(tool) {
                symlink(path, repository.root.join("bin").join(tool)).unwrap();
            }
        }
        repository
    }

    pub fn write(&self, name: &str, text: &str) {
        let path = self.root.join(name);
        fs::create_dir_all(path.parent().unwrap()).unwrap();
        fs::write(path, text).unwrap();
    }

    pub fn write_script(&self, name: &str, text: &str) {
        self.write(name, text);
        fs::set_permissions(self.root.join(name), fs::Permissions::from_mode(0o755)).unwrap();
    }

    fn remove(&self, name: &str) {
        fs::remove_file(self.root.join(name)).unwrap();
    }

    /// Runs a script with nothing on the PATH but the tools and the stand-ins. What is written after it is newer
    /// than all that it made, also where a file's time is that of the last tick.
    fn run(&self, script: &str, words: &[&str]) -> Output {
        let output = Command::new(self.root.join(script))
            .args(words)
            .current_dir(&self.root)
            .env("PATH", self.root.join("bin"))
            .env_remove("SPATECANTER_LIB_DIR")
            .output()
            .unwrap();
        thread::sleep(Duration::from_millis(50));
        output
    }

    /// What was called since the last time.
    fn calls(&self) -> String {
        let calls = fs::read_to_string(self.root.join("calls")).unwrap_or_default();
        self.write("calls", "");
        calls
    }

    fn archive(&self) -> PathBuf {
        self.root.join("target/staticlib/libspatecanter.a")
    }

    fn in_target(&self) -> Vec<String> {
        let entries = fs::read_dir(self.root.join("target")).unwrap();
        let mut names: Vec<String> =
            entries.map(|entry| entry.unwrap().file_name().into_string().unwrap()).collect();
        names.sort();
        names
    }
}

/// A tool on the PATH.
pub fn found(tool: &str) -> Option<PathBuf> {
    std::env::split_paths(&std::env::var_os("PATH").unwrap())
        .map(|folder| folder.join(tool))
        .find(|path| path.is_file())
}

pub fn out(output: &Output) -> String {
    String::from_utf8_lossy(&output.stdout).into_owned()
}

pub fn err(output: &Output) -> String {
    String::from_utf8_lossy(&output.stderr).into_owned()
}

#[test]
fn the_library_is_joined_of_all_export_crates() {
    let repository = Repository::new("scripts_joined");
    let first = repository.run("library", &[]);
    assert_eq!(first.status.code(), Some(0), "{}", err(&first));
    let lines = "proving 1 of 5: base\nproving 2 of 5: left\nproving 3 of 5: right\n\
                 proving 4 of 5: second\nproving 5 of 5: spatecanter\n\
                 target/staticlib/libspatecanter.a: 2 functions, of second spatecanter\n";
    assert_eq!((out(&first).as_str(), err(&first).as_str()), (lines, ""));
    // The crates of one layer are proved side by side, in any order.
    let calls = repository.calls();
    let mut calls: Vec<&str> = calls.lines().collect();
    calls[1..3].sort();
    let in_order =
        ["rt check base", "rt check left", "rt check right", "rt lib second", "rt lib spatecanter"];
    assert_eq!(calls, in_order);
    let members = Command::new("ar").arg("t").arg(repository.archive()).output().unwrap();
    assert_eq!(out(&members), "second.object.o\nspatecanter.object.o\n");
    // A second run gives the same bytes, and nothing is left but the library and the log.
    let bytes = fs::read(repository.archive()).unwrap();
    assert_eq!(repository.run("library", &[]).status.code(), Some(0));
    assert!(fs::read(repository.archive()).unwrap() == bytes);
    assert_eq!(repository.in_target(), ["library.log", "staticlib"]);
    let left = fs::read_dir(repository.root.join("target/staticlib")).unwrap().count();
    assert_eq!(left, 2);
    let toolchain = fs::read_to_string(repository.archive().with_extension("toolchain"));
    assert_eq!(toolchain.unwrap(), "a stand-in for rt\n");
}

#[test]
fn a_library_that_is_not_proved_names_the_log() {
    let repository = Repository::new("scripts_unproved");
    repository.write("unproved", "right\n");
    let refused = repository.run("library", &[]);
    assert_eq!(refused.status.code(), Some(1));
    assert!(err(&refused).starts_with("fn right::f: not proved"), "{}", err(&refused));
    assert!(err(&refused).contains("target/library.log"), "{}", err(&refused));
    assert!(!repository.archive().exists());
    assert_eq!(repository.in_target(), ["library.log", "staticlib"]);
}

#[test]
fn only_the_c_interface_is_global() {
    let repository = Repository::new("scripts_names");
    repository.write("crates/second/src/more.c", "int helper(void) { return 0; }");
    let refused = repository.run("library", &[]);
    assert_eq!(refused.status.code(), Some(1));
    assert!(err(&refused).contains("only names that start with sp_ may be global"), "{}", err(&refused));
    assert!(err(&refused).starts_with("helper\n"), "{}", err(&refused));
    repository.write("crates/second/src/more.c", "int sp_spatecanter(void) { return 0; }");
    let twice = repository.run("library", &[]);
    assert_eq!(twice.status.code(), Some(1));
    assert!(err(&twice).contains("a function is exported twice"), "{}", err(&twice));
    assert!(!repository.archive().exists());
}

#[test]
fn the_command_is_built_again_when_a_source_changed() {
    let repository = Repository::new("scripts_again");
    let first = repository.run("spatecanter", &["read", "a b"]);
    assert_eq!((first.status.code(), out(&first).as_str()), (Some(0), "built: read a b\n"));
    assert!(err(&first).contains("proving 1 of 5: base"), "{}", err(&first));
    assert!(repository.calls().ends_with("rt lib spatecanter\ncargo\n"));
    let again = repository.run("spatecanter", &[]);
    assert_eq!((out(&again).as_str(), err(&again).as_str()), ("built: \n", ""));
    assert_eq!(repository.calls(), "");
    for changed in ["crates/base/src/lib.rt", "crates/base/specs/New.antt", "crates.txt"] {
        let text = fs::read_to_string(repository.root.join(changed)).unwrap_or_default();
        repository.write(changed, &text);
        assert_eq!(repository.run("spatecanter", &[]).status.code(), Some(0));
        assert!(repository.calls().ends_with("rt lib spatecanter\ncargo\n"), "{changed}");
    }
    repository.remove("crates/base/specs/New.antt");
    assert_eq!(repository.run("spatecanter", &[]).status.code(), Some(0));
    assert!(repository.calls().starts_with("rt check base\n"));
    repository.write("host/src/lib.rs", "");
    assert_eq!(repository.run("spatecanter", &[]).status.code(), Some(0));
    assert_eq!(repository.calls(), "cargo\n");
}

#[test]
fn missing_tools_are_named() {
    let repository = Repository::new("scripts_tools");
    repository.remove("bin/rt");
    let words = [
        ("spatecanter", "and there is no rt.\nInstall the Rattle toolchain"),
        ("library", "there is no rt: install"),
    ];
    for (script, words) in words {
        let refused = repository.run(script, &[]);
        assert_eq!(refused.status.code(), Some(2), "{script}");
        assert!(err(&refused).contains(words), "{}", err(&refused));
    }
    repository.write_script("bin/rt", RT);
    repository.remove("bin/cargo");
    let refused = repository.run("spatecanter", &[]);
    assert_eq!(refused.status.code(), Some(2));
    assert!(err(&refused).contains("there is no cargo.\nInstall Rust"), "{}", err(&refused));
}

#[test]
fn a_library_from_another_folder() {
    let repository = Repository::new("scripts_folder");
    assert_eq!(repository.run("library", &[]).status.code(), Some(0));
    repository.remove("bin/rt");
    fs::create_dir(repository.root.join("other")).unwrap();
    let run = |words: &[&str]| {
        Command::new(repository.root.join("spatecanter"))
            .args(words)
            .current_dir(&repository.root)
            .env("PATH", repository.root.join("bin"))
            .env("SPATECANTER_LIB_DIR", "other")
            .output()
            .unwrap()
    };
    let missing = run(&[]);
    assert_eq!(missing.status.code(), Some(2));
    assert!(err(&missing).contains("other/libspatecanter.a"), "{}", err(&missing));
    fs::rename(repository.archive(), repository.root.join("other/libspatecanter.a")).unwrap();
    assert_eq!(out(&run(&["x"])), "built: x\n");
    // Without it the command is linked again, with the library that is proved here.
    repository.write_script("bin/rt", RT);
    assert_eq!(repository.run("library", &[]).status.code(), Some(0));
    assert_eq!(repository.run("spatecanter", &[]).status.code(), Some(0));
    repository.calls();
    assert_eq!(out(&run(&["y"])), "built: y\n");
    assert_eq!(repository.calls(), "cargo\n");
}
