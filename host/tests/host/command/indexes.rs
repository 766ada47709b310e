//! Titles under the pointer, colours, a file for each page, and indexes of many.

use super::*;
use spatecanter::sample::{codes, pages, yearbook};
use spatecanter::Machine;

/// The picture of a tape, with further words.
fn plot(folder: &Path, words: &[&str]) -> String {
    let run = run(folder, &[&["plot", "-o", "-"], words].concat());
    assert_eq!(run.status, 0, "{words:?}: {}", run.err);
    run.text()
}

/// The titles of the words of a picture.
fn titles(picture: &str) -> Vec<&str> {
    let words = picture.lines().filter_map(|line| line.strip_suffix("</title></path>"));
    words.map(|line| line.split("<title>").nth(1).unwrap()).collect()
}

#[test]
fn the_pointer_shows_figures() {
    let folder = folder("titles");
    // 12 in font 1 at x = 0, 3 in font 2 right after it, and 4 in font 2 farther on.
    fs::write(folder.join("a.tape"), hex("40 EF 51 4E 46 0A E7 0B E7 4F 0C CF 0D 49")).unwrap();
    fs::write(folder.join("a.codes"), "1 73 1\n1 74 <\n2 75 3\n").unwrap();
    let plain = plot(&folder, &["a.tape"]);
    assert_eq!(
        titles(&plain),
        [
            "font 1 (measured), 8 points&#10;codes 73 74&#10;x 0.000 in, height 0.000 in",
            "font 2 (estimated), 8 points&#10;code 75&#10;x 0.111 in, height 0.000 in",
            "font 2 (estimated), 8 points&#10;code 76&#10;x 0.222 in, height 0.000 in",
        ]
    );
    let with_codes = plot(&folder, &["a.tape", "--codes", "a.codes", "--fonts", "2=a&b"]);
    let first: Vec<&str> =
        titles(&with_codes).iter().map(|title| title.split("&#10;").next().unwrap()).collect();
    assert_eq!(first, ["1&lt;", "3", "\u{fffd}"]);
    assert!(titles(&with_codes)[1].contains("&#10;font 2 (a&amp;b), 8 points&#10;"));
    assert!(titles(&with_codes)[0].contains("&#10;font 1, 8 points&#10;"));
}

#[test]
fn every_character_has_a_title() {
    let folder = folder("all_titles");
    let tape = yearbook(Machine::Eight, 12, 30_000);
    fs::write(folder.join("a.tape"), &tape).unwrap();
    let picture = plot(&folder, &["a.tape"]);
    let galley = spatecanter::read_tape(&tape, Machine::Eight).unwrap();
    let mut told: Vec<i32> = titles(&picture)
        .iter()
        .flat_map(|title| title.split("&#10;code").nth(1).unwrap().split("&#10;").next().unwrap().split(' '))
        .filter_map(|word| word.parse().ok())
        .collect();
    let mut set: Vec<i32> = galley.characters().map(|it| it.code).collect();
    told.sort();
    set.sort();
    assert_eq!(told, set);
    // However many stand at one place, no title is long.
    let flashes = "01 ".repeat(3_000);
    fs::write(folder.join("b.tape"), hex(&format!("40 EF 52 4E {flashes} 49"))).unwrap();
    let picture = plot(&folder, &["b.tape"]);
    assert_eq!(titles(&picture).len(), 30);
}

#[test]
fn fonts_have_names_and_colours() {
    let folder = folder("colours");
    fs::write(folder.join("a.tape"), yearbook(Machine::Eight, 9, 2_000)).unwrap();
    let picture = plot(&folder, &["a.tape", "--fonts", "1=measured:#00AAFF,2=a:b,3:#000001,4,5,6,7,8"]);
    for part in ["fill=\"#00aaff\"", ">font 2 (a:b): ", "fill=\"#000001\"", ">font 8: 0<", ">other fonts: 0<"]
    {
        assert!(picture.contains(part), "{part}");
    }
    assert!(!picture.contains("fill=\"#003a70\""));
    // Three kinds stand in a row.
    assert!(picture.contains("viewBox=\"0 -720 "));
    assert!(plot(&folder, &["a.tape", "--fonts", "1,2"]).contains("viewBox=\"0 -500 "));
}

#[test]
fn a_file_for_each_page() {
    let folder = folder("split");
    fs::write(folder.join("a.tape"), pages(4, 6)).unwrap();
    let count = |picture: &str| titles(picture).len();
    let told = run(&folder, &["plot", "a.tape", "--split"]);
    assert_eq!(told.status, 0);
    assert!(told.err.starts_with("a.tape-1.svg to a.tape-3.svg: 3 files, "), "{}", told.err);
    assert_eq!(names(&folder), ["a.tape", "a.tape-1.svg", "a.tape-2.svg", "a.tape-3.svg"]);
    for number in ["1", "2", "3"] {
        let page = fs::read_to_string(folder.join(format!("a.tape-{number}.svg"))).unwrap();
        assert_eq!(page, plot(&folder, &["a.tape", "--page", number]));
        assert_eq!(count(&page) == 0, number == "2");
    }
    // All or none, and never over another file.
    fs::remove_file(folder.join("a.tape-1.svg")).unwrap();
    assert_eq!(run(&folder, &["plot", "a.tape", "--split"]).status, 2);
    assert_eq!(names(&folder), ["a.tape", "a.tape-2.svg", "a.tape-3.svg"]);
    assert_eq!(run(&folder, &["plot", "a.tape", "--split", "--force"]).status, 0);
    assert_eq!(run(&folder, &["plot", "a.tape", "--split", "-o", "b/%d.svg"]).status, 0);
    assert_eq!(names(&folder.join("b")), ["1.svg", "2.svg", "3.svg"]);
    assert_eq!(run(&folder, &["plot", "a.tape", "--split", "-o", "c/page"]).status, 0);
    assert_eq!(names(&folder.join("c")), ["page-1", "page-2", "page-3"]);
    let one = run(&folder, &["plot", "a.tape", "--split", "--page", "3", "-o", "d/x.svg"]);
    assert!(one.err.starts_with("d/x-3.svg: 1 file, "), "{}", one.err);
}

#[test]
fn more_pages_than_open_files() {
    let folder = folder("split_many");
    let cuts = "4B 40 ".repeat(99);
    fs::write(folder.join("a.tape"), hex(&format!("40 {cuts} 49"))).unwrap();
    let script = "ulimit -n 40; exec \"$0\" plot a.tape --split -o out/a.svg";
    let command = env!("CARGO_BIN_EXE_spatecanter");
    let run = Command::new("sh").args(["-c", script, command]).current_dir(&folder).output().unwrap();
    assert!(run.status.success(), "{}", String::from_utf8_lossy(&run.stderr));
    let files = names(&folder.join("out"));
    assert_eq!((files.len(), files[0].as_str(), files[99].as_str()), (100, "a-001.svg", "a-100.svg"));
}

#[test]
fn an_index_of_many() {
    let folder = folder("index");
    let shelf = folder.join("shelf");
    fs::create_dir_all(shelf.join("below")).unwrap();
    fs::write(shelf.join("a.tape"), yearbook(Machine::Eight, 4, 3_000)).unwrap();
    fs::write(shelf.join("below/a.tape"), pages(4, 6)).unwrap();
    fs::write(shelf.join("below/q\"<&'% \u{e9}"), hex(NEW_P3)).unwrap();
    fs::write(shelf.join("z.tape"), hex("40 EF 01 49")).unwrap();
    fs::write(shelf.join(".hidden"), "").unwrap();
    fs::write(folder.join("a.codes"), codes()).unwrap();
    let index = ["index", "shelf", "--codes", "a.codes", "-d", "shelf/out"];
    let told = run(&folder, &index);
    assert_eq!((told.status, told.err.as_str()), (0, "shelf/out/index.html: 4 files: 3 drawn, 1 refused\n"));
    let out = shelf.join("out");
    assert_eq!(names(&out), ["a.tape.small.svg", "a.tape.svg", "below", "index.html"]);
    assert_eq!(names(&out.join("below")).len(), 4);
    assert_eq!(
        fs::read_to_string(out.join("below/a.tape.svg")).unwrap(),
        plot(&folder, &["shelf/below/a.tape", "--codes", "a.codes"])
    );
    let page = fs::read_to_string(out.join("index.html")).unwrap();
    for part in [
        "<p>4 files: 3 drawn, 1 refused</p>",
        "<a href=\"below/a.tape.svg\"><img src=\"below/a.tape.small.svg\" alt=\"A page of below/a.tape\" ",
        "<img src=\"below/q%22%3C%26%27%25%20%C3%A9.small.svg\" alt=\"A page of below/q&quot;&lt;&amp;'% \u{e9}\"",
        "<h2><a href=\"below/q%22%3C%26%27%25%20%C3%A9.svg\">below/q\"&lt;&amp;'% \u{e9}</a></h2>\n<p>2 characters, 2 pages</p>",
        "<h2>z.tape</h2>\n<p>shelf/z.tape: refused 6 at 2: ",
        "</span> font 2 (estimated): ",
    ] {
        assert!(page.contains(part), "{part}: {page}");
    }
    assert!(!page.contains("<script") && !page.contains("http"));
    // A second time the pictures are no inputs, and are written over by force alone.
    assert_eq!(run(&folder, &index).status, 2);
    let again = run(&folder, &[&index[..], &["--force"]].concat());
    assert_eq!((again.status, again.err), (0, told.err));
    assert_eq!(fs::read_to_string(out.join("index.html")).unwrap(), page);
}

#[test]
fn an_index_of_a_list() {
    let folder = folder("index_list");
    fs::create_dir(folder.join("shelf")).unwrap();
    fs::write(folder.join("shelf/four"), yearbook(Machine::Four, 4, 3_000)).unwrap();
    fs::write(folder.join("eight"), yearbook(Machine::Eight, 4, 3_000)).unwrap();
    fs::write(folder.join("list"), "shelf/four 4\n./eight 8\nshelf/../eight 5\n").unwrap();
    let told = run(&folder, &["index", "--list", "list", "shelf/four", "-d", "out"]);
    assert!(told.err.ends_with("out/index.html: 4 files: 3 drawn, 1 refused\n"), "{}", told.err);
    let page = fs::read_to_string(folder.join("out/index.html")).unwrap();
    assert!(page.contains("<h2>shelf/eight</h2>\n<p>shelf/../eight: refused 50 at 0: "), "{page}");
    let four = fs::read_to_string(folder.join("out/shelf/four.svg")).unwrap();
    assert_eq!(four, plot(&folder, &["shelf/four", "--machine", "4"]));
    assert_eq!(names(&folder.join("out")).len(), 6);
}

#[test]
fn an_index_is_written_whole_or_not_at_all() {
    let folder = folder("index_whole");
    for name in ["one", "two"] {
        fs::create_dir(folder.join(name)).unwrap();
        fs::write(folder.join(name).join("a.tape"), hex(P3_TAPE)).unwrap();
    }
    let both = run(&folder, &["index", "one", "two", "-d", "out"]);
    assert_eq!(both.status, 2);
    assert!(both.err.contains("one/a.tape and two/a.tape have one name in the index"), "{}", both.err);
    fs::create_dir_all(folder.join("out/a.tape.small.svg")).unwrap();
    assert_eq!(run(&folder, &["index", "one", "-d", "out", "--force"]).status, 2);
    assert_eq!(names(&folder.join("out")), ["a.tape.small.svg"]);
    // No input is written over.
    fs::write(folder.join("one/a.tape.svg"), hex(P3_TAPE)).unwrap();
    let over = run(&folder, &["index", "one", "-d", "one", "--force"]);
    assert_eq!(over.status, 2);
    assert!(over.err.contains("one/a.tape.svg is an input, and is not written over"), "{}", over.err);
    assert_eq!(fs::read(folder.join("one/a.tape.svg")).unwrap(), hex(P3_TAPE));
    fs::create_dir(folder.join("empty")).unwrap();
    assert_eq!(run(&folder, &["index", "empty", "-d", "new"]).status, 2);
    assert!(!folder.join("new").exists());
}
