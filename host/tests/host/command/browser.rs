//! Pictures and indexes, looked at in a real browser, where one is installed.

use super::*;
use spatecanter::sample::{codes, pages, yearbook};
use spatecanter::Machine;
use std::io::stderr;

/// Chromium, or a browser of its kind.
fn browser() -> Option<PathBuf> {
    let path = std::env::var_os("PATH")?;
    let names = ["chromium", "chromium-browser", "google-chrome"];
    std::env::split_paths(&path)
        .flat_map(|folder| names.map(|name| folder.join(name)))
        .find(|it| it.is_file())
}

/// What the browser finds in the folder's index and in its picture out/a.tape.svg: a line for each.
fn looked_at(browser: &Path, folder: &Path) -> String {
    fs::write(folder.join("browser.html"), include_str!("browser.html")).unwrap();
    let output = Command::new(browser)
        .args(["--headless", "--no-sandbox", "--disable-gpu", "--allow-file-access-from-files"])
        .arg(format!("--user-data-dir={}", folder.join("profile").display()))
        .args(["--virtual-time-budget=60000", "--dump-dom"])
        .arg(format!("file://{}", folder.join("browser.html").display()))
        .output()
        .unwrap();
    let page = String::from_utf8(output.stdout).unwrap();
    let found = page.split("<pre id=\"found\">").nth(1).and_then(|rest| rest.split("</pre>").next());
    found.unwrap_or_else(|| panic!("{page}\n{}", String::from_utf8_lossy(&output.stderr))).into()
}

#[test]
fn a_browser_shows_the_index_and_the_picture() {
    let Some(browser) = browser() else {
        // Past the capture of a test's output, so that it is seen.
        let _ = writeln!(
            stderr(),
            "left out: a_browser_shows_the_index_and_the_picture, since there is no chromium"
        );
        return;
    };
    let folder = folder("browser");
    let shelf = folder.join("shelf");
    fs::create_dir_all(shelf.join("below")).unwrap();
    let tape = yearbook(Machine::Eight, 1980, 6_400);
    fs::write(shelf.join("a.tape"), &tape).unwrap();
    fs::write(shelf.join("below/b & \"c\" #1 50%?.tape"), pages(4, 6)).unwrap();
    fs::write(shelf.join("d.tape"), hex("40 EF 01 49")).unwrap();
    fs::write(folder.join("a.codes"), codes()).unwrap();
    let index = run(&folder, &["index", "shelf", "--codes", "a.codes", "-d", "out"]);
    assert_eq!((index.status, index.err.as_str()), (0, "out/index.html: 3 files: 2 drawn, 1 refused\n"));
    let found = looked_at(&browser, &folder);
    let value = |what: &str| {
        let line = found.lines().find_map(|line| line.strip_prefix(&format!("{what}: ")));
        line.unwrap_or_else(|| panic!("{what}: {found}"))
    };
    for (what, count) in
        [("scripts", "0"), ("entries", "3"), ("small pictures", "2"), ("large pictures", "2")]
    {
        assert_eq!(value(what), count, "{what}");
    }
    assert_eq!(value("first"), "Tdk; font 3, 16 points; codes 46 4 11; x 0.000 in, height 0.000 in");
    assert_eq!(value("words"), value("words under the pointer"));
    // A mark is some pixels: of each colour as many as there are characters of its fonts, and more.
    let galley = spatecanter::read_tape(&tape, Machine::Eight).unwrap();
    let of_fonts = |fonts: &[i32]| galley.characters().filter(|it| fonts.contains(&it.font())).count();
    for (colour, fonts) in [("blue", &[1][..]), ("orange", &[2]), ("grey", &[3])] {
        assert!(value(colour).parse::<usize>().unwrap() > 2 * of_fonts(fonts), "{colour}: {found}");
    }
}
