//! Reports over many tapes.

use super::*;
use spatecanter::sample::yearbook;
use spatecanter::{Machine, Report};

/// One character of font number 2, leads of 31 forward and 1 backward, two pages.
const LEADS: &str = "40 EF 52 4E 01 60 4B 40 7E 4C 7E 49";

/// A folder with folders: four tapes, and a file that is left out.
fn shelf(name: &str) -> PathBuf {
    let folder = folder(name);
    fs::create_dir_all(folder.join("shelf/b/c")).unwrap();
    fs::write(folder.join("shelf/a.tape"), hex(P3_TAPE)).unwrap();
    fs::write(folder.join("shelf/b/c/d.tape"), hex(LEADS)).unwrap();
    fs::write(folder.join("shelf/b/e"), hex("40 EF 52 4E 01")).unwrap();
    fs::write(folder.join("shelf/z"), hex("EF")).unwrap();
    fs::write(folder.join("shelf/.hidden"), hex("EF")).unwrap();
    folder
}

const TABLE: &str = "\
tapes                                        4
accepted                                     2
refused                                      2
  under 3                                    1  a code before the first initialize
  under 9                                    1  the tape ends without stop
characters                                   3
  C110: font 1, 10 points                    3
forward lead, in quanta                     32
backward lead, in quanta                     1
";

const LINES: &str = "\
shelf/a.tape: accepted, 2 characters, 1 page
shelf/b/c/d.tape: accepted, 1 character, 2 pages
shelf/b/e: refused 9 at 5: the tape ends without stop
shelf/z: refused 3 at 0: a code before the first initialize
";

#[test]
fn a_table_for_people() {
    let folder = shelf("report_table");
    let run_in = |words: &[&str]| run(&folder, words);
    let table = run_in(&["report", "shelf"]);
    assert_eq!((table.status, table.err.as_str(), table.text().as_str()), (0, "", TABLE));
    assert_eq!(run_in(&["report", "shelf", "--tapes"]).text(), format!("{TABLE}{LINES}"));
    let others = ["report", "shelf/z", "shelf/b", "--machine", "8", "shelf/a.tape"];
    assert_eq!(run_in(&others).text(), TABLE);
    let none = folder.join("none");
    fs::create_dir(&none).unwrap();
    assert!(run_in(&["report", "none"])
        .text()
        .starts_with("tapes                                        0\n"));
    assert_eq!(
        run_on(&folder, &["report", "-", "--tapes"], &hex(P3_TAPE)).text().lines().last(),
        Some("standard input: accepted, 2 characters, 1 page")
    );
    assert_eq!(names(&folder), ["none", "shelf"]);
}

#[test]
fn texts_for_programs() {
    let folder = shelf("report_programs");
    let csv = run(&folder, &["report", "shelf", "--format", "csv"]).text();
    let lines: Vec<&str> = csv.lines().collect();
    assert_eq!(lines.len(), 1 + 2 + 11 + 120 + 2);
    for line in [
        "count,of,value",
        "tapes,,4",
        "accepted,,2",
        "refused,3,1",
        "refused,50,0",
        "characters,2,3",
        "characters,119,0",
        "forward lead,,32",
        "backward lead,,1",
    ] {
        assert!(lines.contains(&line), "{line}");
    }
    let tapes = run(&folder, &["report", "shelf", "--format=csv", "--tapes"]).text();
    let expected = "path,machine,number,place,characters,pages\n\"shelf/a.tape\",8,0,0,2,1\n\"shelf/b/c/d.tape\",8,0,0,1,2\n\"shelf/b/e\",8,9,5,0,0\n\"shelf/z\",8,3,0,0,0\n";
    assert_eq!(tapes, expected);
    let json = run(&folder, &["report", "shelf", "--format", "json", "--tapes"]).text();
    for part in [
        "\"tapes\": 4,",
        "\"refused\": {\"1\": 0, \"2\": 0, \"3\": 1,",
        "\"characters\": [0, 0, 3, 0,",
        "\"backward_lead\": 1,",
        "{\"path\": \"shelf/b/e\", \"machine\": 8, \"number\": 9, \"place\": 5, \"characters\": 0, \"pages\": 0}",
    ] {
        assert!(json.contains(part), "{part}: {json}");
    }
    fs::write(folder.join("a\"b\\c"), hex(P3_TAPE)).unwrap();
    let odd = run(&folder, &["report", "a\"b\\c", "--format", "json", "--tapes"]).text();
    assert!(odd.contains("\"path\": \"a\\\"b\\\\c\""), "{odd}");
}

#[test]
fn a_list_of_tapes_and_machines() {
    let folder = shelf("report_list");
    let list = "# the shelf\nshelf/a.tape 8\n\n  shelf/a.tape\t4\nshelf/b/c/d.tape 5\n";
    fs::write(folder.join("list"), list).unwrap();
    let lines = "\
shelf/a.tape: accepted, 2 characters, 1 page
shelf/a.tape: refused 2 at 3: illegal code
shelf/b/c/d.tape: refused 50 at 0: the machine is neither the 4-font nor the 8-font machine
";
    let text = run(&folder, &["report", "--list", "list", "--tapes"]).text();
    assert!(text.ends_with(lines), "{text}");
    assert!(text.contains("\n  under 50                                   1  the machine"), "{text}");
    let more = run(&folder, &["report", "shelf/z", "--list", "list", "--tapes"]).text();
    assert!(more.ends_with(&format!("{lines}shelf/z: refused 3 at 0: a code before the first initialize\n")));
    fs::write(folder.join("list"), "shelf/a.tape 8\nshelf/a.tape eight\n").unwrap();
    let wrong = run(&folder, &["report", "--list", "list"]);
    assert_eq!(
        (wrong.status, wrong.err.as_str()),
        (2, "spatecanter: list: line 2 is not a tape's path and its machine, 4 or 8\n")
    );
}

/// More tapes than a thread takes at a time, each in its place, with the sums of the report that one thread counts.
#[test]
fn many_tapes_on_all_processors() {
    let folder = folder("report_many");
    let mut report = Report::new();
    for number in 0..100 {
        let mut tape = yearbook(Machine::Eight, number, 2_000 + 50 * number as usize);
        if number % 3 == 0 {
            tape.pop();
        }
        report.count(&tape, Machine::Eight).unwrap();
        fs::write(folder.join(format!("{number:03}")), tape).unwrap();
    }
    let text = run(&folder, &["report", ".", "--tapes"]).text();
    let count = |what: &str| -> u64 {
        let line = text.lines().find(|line| line.starts_with(what)).unwrap();
        line.rsplit(' ').next().unwrap().replace(',', "").parse().unwrap()
    };
    assert_eq!(count("accepted"), report.accepted());
    assert_eq!(count("characters"), report.characters());
    assert_eq!(count("forward lead"), report.forward_lead());
    assert_eq!(count("backward lead"), report.backward_lead());
    let tapes: Vec<&str> = text.lines().filter(|line| line.starts_with("./")).collect();
    assert_eq!(tapes.len(), 100);
    assert!(tapes.iter().enumerate().all(|(number, line)| line.starts_with(&format!("./{number:03}: "))));
}

#[test]
fn one_tape_too_many() {
    let folder = folder("report_full");
    fs::write(folder.join("a"), hex(P3_TAPE)).unwrap();
    fs::write(folder.join("list"), "a 8\n".repeat(65_536)).unwrap();
    let full = run(&folder, &["report", "--list", "list"]);
    assert_eq!((full.status, full.err.as_str()), (0, ""));
    assert!(full.text().starts_with("tapes                                   65,536\n"), "{}", full.text());
    let more = run(&folder, &["report", "--list", "list", "a"]);
    assert_eq!((more.status, more.text().as_str()), (1, ""));
    assert_eq!(more.err, "spatecanter: 65,537 tapes: refused 47 at 0: the report has 65,536 tapes already\n");
}
