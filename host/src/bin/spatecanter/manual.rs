//! The manual page, made of the texts of --help.

use crate::commands::COMMANDS;
use crate::flags::{COMMON, FLAGS, HELP};
use crate::help;
use std::fmt::Write;

/// The page in roff, for man.
pub fn page() -> String {
    let (name, _) = env!("CARGO_PKG_DESCRIPTION").split_once(':').expect("a description in two parts");
    let mut page = format!(
        ".TH SPATECANTER 1 \"\" \"spatecanter {}\" \"User Commands\"\n.SH NAME\nspatecanter \\- {name}\n.SH SYNOPSIS\n",
        env!("CARGO_PKG_VERSION")
    );
    for command in &COMMANDS {
        let _ = writeln!(page, ".B spatecanter\n{}\n.br", escaped(command.usage));
    }
    let is_list = |text: &&str| text.starts_with("  ") || text.starts_with("Usage: ");
    let whole: Vec<&str> = paragraphs(help::WHOLE).into_iter().filter(|text| !is_list(text)).collect();
    let (sections, description): (Vec<&str>, Vec<&str>) =
        whole.iter().partition(|text| titled(text).is_some());
    section(&mut page, "DESCRIPTION", &description.join("\n\n"));
    page.push_str(".SH COMMANDS\n");
    for command in &COMMANDS {
        let _ = writeln!(page, ".SS {}", command.name);
        page.push_str(&roff(&help::text(command)));
    }
    options(&mut page);
    for (title, text) in sections.into_iter().filter_map(titled) {
        section(&mut page, &title.to_uppercase(), text);
    }
    page
}

fn section(page: &mut String, title: &str, text: &str) {
    let _ = writeln!(page, ".SH {title}");
    page.push_str(&roff(text));
}

/// Every option once, with the command whose own it is.
fn options(page: &mut String) {
    page.push_str(".SH OPTIONS\n");
    for flag in FLAGS.iter().chain(COMMON).chain([HELP]) {
        let of = flag.only.map_or(String::new(), |command| format!(" (of {command})"));
        let _ = writeln!(page, ".TP\n.B {}\n{}{of}", escaped(&flag.spelled()), escaped(flag.about));
    }
}

/// A paragraph of the whole text that starts with its title and a full stop.
fn titled(paragraph: &str) -> Option<(&str, &str)> {
    paragraph.split_once(". ").filter(|(title, _)| title.len() < 20)
}

fn paragraphs(text: &str) -> Vec<&str> {
    text.trim_end().split("\n\n").collect()
}

/// Plain text in roff: paragraphs flow, and lines that are indented or a usage stand as they are.
fn roff(text: &str) -> String {
    let mut page = String::new();
    for paragraph in paragraphs(text) {
        page.push_str(".PP\n");
        let mut is_kept = false;
        for line in paragraph.lines() {
            let is_next_kept = line.starts_with("  ") || line.starts_with("Usage: ");
            if is_kept != is_next_kept {
                page.push_str(if is_next_kept { ".nf\n" } else { ".fi\n" });
                is_kept = is_next_kept;
            }
            let _ = writeln!(page, "{}", escaped(line));
        }
        if is_kept {
            page.push_str(".fi\n");
        }
    }
    page
}

/// A line in which nothing is roff's.
fn escaped(line: &str) -> String {
    let text = line.replace('\\', "\\e").replace('-', "\\-");
    if text.starts_with(['.', '\'']) {
        format!("\\&{text}")
    } else {
        text
    }
}
