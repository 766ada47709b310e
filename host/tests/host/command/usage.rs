//! Help and wrong usage.

use super::*;

#[test]
fn help_for_the_whole_and_for_each_command() {
    let folder = folder("help");
    let whole = run(&folder, &["--help"]);
    assert_eq!((whole.status, whole.err.as_str()), (0, ""));
    for name in [
        "read", "check", "list", "text", "index", "set", "show", "back", "sheet", "reprint", "plot", "punch",
        "convert", "compare", "report", "xgp",
    ] {
        assert!(whole.text().contains(&format!("\n  {name} ")), "{name} in the whole help");
        let usage = format!("Usage: spatecanter {name} ");
        for words in [[name, "--help"], [name, "-h"], ["help", name]] {
            let help = run(&folder, &words);
            assert_eq!((help.status, help.err.as_str()), (0, ""));
            assert!(help.text().contains(&usage), "{words:?}");
        }
    }
}

#[test]
fn wrong_usage_is_2() {
    let folder = folder("usage");
    fs::write(folder.join("p3.tape"), hex(P3_TAPE)).unwrap();
    let calls: [&[&str]; 74] = [
        &[],
        &["reed", "p3.tape"],
        &["read"],
        &["read", "p3.tape", "p3.tape"],
        &["read", "p3.tape", "-o"],
        &["read", "p3.tape", "-x"],
        &["read", "p3.tape", "-o", "a", "-o", "b"],
        &["read", "p3.tape", "-d", "out", "-o", "a"],
        &["read", "p3.tape", "--machine"],
        &["read", "p3.tape", "--machine", "8", "--machine", "8"],
        &["check", "p3.tape", "--machine", "8"],
        &["reprint", "p3.tape"],
        &["reprint", "p3.tape", "-d", "out", "--machine", "08"],
        &["plot", "p3.tape", "--machine="],
        &["show", "-", "--widths", "-"],
        &["back", "-", "--widths", "-"],
        &["show", "p3.tape", "--plain", "--check"],
        &["show", "p3.tape", "--plain=yes"],
        &["back", "p3.tape", "--plain"],
        &["read", "missing.tape"],
        &["read", "."],
        &["read", "p3.tape", "-o", "."],
        &["read", "p3.tape", "-o", "p3.tape/p3.galley"],
        &["read", "p3.tape", "--force=yes"],
        &["read", "p3.tape", "--force", "--force"],
        &["check", "p3.tape", "--force"],
        &["reprint", "p3.tape", "-d", "out", "--fonts", "9=measured"],
        &["reprint", "p3.tape", "-d", "out", "--fonts", "1=measured,1=estimated"],
        &["plot", "p3.tape", "--fonts", "1,2,1"],
        &["plot", "p3.tape", "--fonts", "1=measured:#12345"],
        &["plot", "p3.tape", "--fonts", "1:#12345g"],
        &["plot", "p3.tape", "--fonts", ""],
        &["plot", "p3.tape", "--codes", "p3.tape"],
        &["plot", "p3.tape", "--split", "-o", "-"],
        &["plot", "-", "--split"],
        &["plot", "p3.tape", "--split", "--to", "5in"],
        &["plot", "p3.tape", "--split=2"],
        &["index", "p3.tape"],
        &["index", "-d", "out"],
        &["index", "missing.tape", "-d", "out"],
        &["index", "--list", "p3.tape", "-d", "out"],
        &["index", "p3.tape", "p3.tape", "-d", "out"],
        &["index", "p3.tape", "-d", "out", "--page", "1"],
        &["plot", "p3.tape", "--from", "5", "--to", "4"],
        &["plot", "p3.tape", "--from", "-1"],
        &["plot", "p3.tape", "--to", "1000001"],
        &["plot", "p3.tape", "--to", "xin"],
        &["text", "p3.tape"],
        &["text", "p3.tape", "--codes", "missing.codes"],
        &["text", "p3.tape", "--codes", "p3.tape"],
        &["text", "-", "--codes", "-"],
        &["list", "p3.tape", "--format", "xml"],
        &["list", "p3.tape", "--mark", "2=~"],
        &["convert", "p3.tape"],
        &["convert", "--to", "p3.tape"],
        &["convert", "--to", "newer", "p3.tape"],
        &["convert", "--to=", "p3.tape"],
        &["convert", "--to", "new", "--to", "old", "p3.tape"],
        &["check", "p3.tape", "--to", "new"],
        &["compare"],
        &["compare", "p3.tape"],
        &["compare", "p3.tape", "p3.tape", "p3.tape"],
        &["compare", "p3.tape", "p3.tape", "--order", "kept"],
        &["compare", "p3.tape", "missing.tape"],
        &["compare", "-", "-"],
        &["compare", "p3.tape", "p3.tape", "--machine", "5"],
        &["report"],
        &["report", "p3.tape", "--format", "xml"],
        &["report", "p3.tape", "--tapes=yes"],
        &["report", "p3.tape", "--tapes", "--tapes"],
        &["report", "p3.tape", "--machine", "5"],
        &["report", "p3.tape", "missing.tape"],
        &["report", "--list", "missing.list"],
        &["report", "--list", "p3.tape"],
    ];
    for words in calls {
        let run = run(&folder, words);
        assert_eq!(run.status, 2, "{words:?}");
        assert!(run.err.starts_with("spatecanter: "), "{words:?}: {}", run.err);
        assert!(run.out.is_empty());
    }
    assert_eq!(names(&folder), ["p3.tape"]);
}

#[test]
fn another_machine_is_wrong_usage() {
    let folder = folder("machines");
    fs::write(folder.join("a.tape"), hex(PAIRS_TAPE)).unwrap();
    for wrong in ["0", "5", "04", "+4", "four", ""] {
        let calls: [&[&str]; 3] = [
            &["read", "a.tape", "--machine", wrong],
            &["reprint", "a.tape", "-d", "out", "--machine", wrong],
            &["plot", "a.tape", "--machine", wrong],
        ];
        for words in calls {
            let run = run(&folder, words);
            assert_eq!((run.status, run.text().as_str()), (2, ""), "{words:?}");
            let what =
                format!("spatecanter: --machine {wrong} is no machine: it is 4 or 8, the number of fonts\n");
            assert!(run.err.starts_with(&what), "{}", run.err);
        }
    }
    assert_eq!(names(&folder), ["a.tape"]);
}

#[test]
fn file_errors_say_reading_or_writing() {
    let folder = folder("file_errors");
    fs::write(folder.join("p3.tape"), hex(P3_TAPE)).unwrap();
    let rows: [(&[&str], &str); 6] = [
        (&["read", "missing.tape"], "cannot read missing.tape: "),
        (&["show", "p3.tape", "--widths", "missing.widths"], "cannot read missing.widths: "),
        (&["read", "."], "cannot read .: "),
        (&["read", "p3.tape", "-o", "/dev/full"], "cannot write /dev/full: "),
        (&["read", "p3.tape", "-o", "p3.tape/a"], "cannot write p3.tape/a: "),
        (&["reprint", "p3.tape", "-d", "p3.tape"], "cannot write p3.tape/p3.tape.galley: "),
    ];
    for (words, what) in rows {
        let run = run(&folder, words);
        assert_eq!(run.status, 2, "{words:?}");
        assert!(run.err.starts_with(&format!("spatecanter: {what}")), "{words:?}: {}", run.err);
        assert_eq!(run.err.lines().count(), 1, "{words:?}: {}", run.err);
    }
    assert_eq!(names(&folder), ["p3.tape"]);
}
