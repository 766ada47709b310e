//! Completions of the command line, for three shells, made of the commands and their options.

use crate::commands::COMMANDS;
use crate::flags::{Flag, Value};
use crate::help;
use std::collections::BTreeMap;
use std::fmt::Write;

/// What may stand in the place of a command.
const ALONE: [(&str, &str); 4] = [
    ("help", "more about a command"),
    ("--help", "all commands"),
    ("--version", "the version"),
    ("--generate", "the manual page, or completions"),
];

/// What --generate makes.
const GENERATED: &str = "man bash zsh fish";

pub fn bash() -> String {
    let names = words(COMMANDS.iter().map(|command| command.name));
    let alone = words(ALONE.iter().map(|(word, _)| *word));
    let options: String = COMMANDS
        .iter()
        .map(|command| {
            let names = words(command.told_flags().flat_map(Flag::names));
            format!("    {}) options=\"{names}\" ;;\n", command.name)
        })
        .collect();
    let values = bash_values();
    format!(
        r#"# bash completion for spatecanter

_spatecanter() {{
    local word=${{COMP_WORDS[COMP_CWORD]}} before=${{COMP_WORDS[COMP_CWORD-1]}} command= options= i
    if [ "$word" = = ]; then
        word=
    elif [ "$before" = = ]; then
        before=${{COMP_WORDS[COMP_CWORD-2]}}
    fi
    for ((i = 1; i < COMP_CWORD; i++)); do
        case ${{COMP_WORDS[i]}} in
        -*) ;;
        *)
            command=${{COMP_WORDS[i]}}
            break
            ;;
        esac
    done
    case $command in
{options}    help)
        mapfile -t COMPREPLY < <(compgen -W "{names}" -- "$word")
        return
        ;;
    *)
        case $before in
        --generate) mapfile -t COMPREPLY < <(compgen -W "{GENERATED}" -- "$word") ;;
        *) mapfile -t COMPREPLY < <(compgen -W "{names} {alone}" -- "$word") ;;
        esac
        return
        ;;
    esac
    case $command:$before in
{values}    *)
        case $word in
        -*) mapfile -t COMPREPLY < <(compgen -W "$options" -- "$word") ;;
        *) mapfile -t COMPREPLY < <(compgen -f -- "$word") ;;
        esac
        ;;
    esac
}}

complete -o filenames -F _spatecanter spatecanter
"#
    )
}

/// What completes the values of options, each case for all options of all commands that have such values.
fn bash_values() -> String {
    let mut cases: BTreeMap<String, Vec<String>> = BTreeMap::new();
    for command in &COMMANDS {
        for flag in command.flags() {
            let Some(found) = bash_value(&flag.value) else { continue };
            let named = flag.names().map(|name| format!("{}:{name}", command.name));
            cases.entry(found).or_default().extend(named);
        }
    }
    cases.iter().map(|(found, named)| format!("    {}) {found} ;;\n", named.join(" | "))).collect()
}

fn bash_value(value: &Value) -> Option<String> {
    let found = match value {
        Value::None => return None,
        Value::Words(words) => format!("-W \"{}\"", words.join(" ")),
        Value::File(_) => "-f".into(),
        Value::Folder(_) => "-d".into(),
        Value::Text(_) => return Some("COMPREPLY=()".into()),
    };
    Some(format!("mapfile -t COMPREPLY < <(compgen {found} -- \"$word\")"))
}

fn words<'a>(words: impl Iterator<Item = &'a str>) -> String {
    words.collect::<Vec<_>>().join(" ")
}

pub fn zsh() -> String {
    let described = |word: &str, about: &str| format!("        {}\n", quoted(&format!("{}:{about}", word)));
    let mut commands: String =
        COMMANDS.iter().map(|command| described(command.name, help::about(command))).collect();
    commands.extend(ALONE.iter().map(|(word, about)| described(word, about)));
    let mut cases = String::new();
    for command in &COMMANDS {
        let specs: Vec<String> = command.told_flags().map(zsh_spec).collect();
        let _ = writeln!(
            cases,
            "    {})\n        _arguments -s \\\n            {} \\\n            '*:file:_files'\n        ;;",
            command.name,
            specs.join(" \\\n            ")
        );
    }
    format!(
        r#"#compdef spatecanter

_spatecanter() {{
    local -a commands=(
{commands}    )
    if ((CURRENT == 2)); then
        _describe command commands
        return
    fi
    shift words
    ((CURRENT--))
    case $words[1] in
    --generate) _values kind {GENERATED} ;;
    help) _describe command commands ;;
{cases}    esac
}}

_spatecanter "$@"
"#
    )
}

/// An option as `_arguments` has it: names that exclude each other, what it does, its value.
fn zsh_spec(flag: &Flag) -> String {
    let value = match flag.value {
        Value::None => String::new(),
        Value::Words(words) => format!(":value:({})", words.join(" ")),
        Value::File(name) => format!(":{name}:_files"),
        Value::Folder(name) => format!(":{name}:_files -/"),
        Value::Text(name) => format!(":{name}:"),
    };
    let text = quoted(&format!("[{}]{value}", flag.about));
    let suffixes = if value.is_empty() { ["", ""] } else { ["+", "="] };
    match flag.long {
        Some(long) => {
            let [short_suffix, long_suffix] = suffixes;
            format!("'({} {long})'{{{}{short_suffix},{long}{long_suffix}}}{text}", flag.name, flag.name)
        }
        None => format!("{}{}{text}", flag.name, suffixes[1]),
    }
}

pub fn fish() -> String {
    let mut text = String::from("# fish completion for spatecanter\n\n");
    let alone = "complete -c spatecanter -f -n __fish_use_subcommand";
    for command in &COMMANDS {
        let _ = writeln!(text, "{alone} -a {} -d {}", command.name, quoted(help::about(command)));
    }
    for (word, about) in ALONE {
        let _ = match word.strip_prefix("--") {
            Some("generate") => {
                writeln!(text, "{alone} -l generate -x -a '{GENERATED}' -d {}", quoted(about))
            }
            Some(long) => writeln!(text, "{alone} -l {long} -d {}", quoted(about)),
            None => writeln!(text, "{alone} -a {word} -d {}", quoted(about)),
        };
    }
    for command in &COMMANDS {
        for flag in command.told_flags() {
            let _ = writeln!(
                text,
                "complete -c spatecanter -n '__fish_seen_subcommand_from {}'{} -d {}",
                command.name,
                fish_spec(flag),
                quoted(flag.about)
            );
        }
    }
    text
}

/// The names of an option and what its value is, as `complete` has them.
fn fish_spec(flag: &Flag) -> String {
    let mut spec = String::new();
    for name in flag.names() {
        let _ = match name.strip_prefix("--") {
            Some(long) => write!(spec, " -l {long}"),
            None => write!(spec, " -s {}", &name[1..]),
        };
    }
    let value = match flag.value {
        Value::None => String::new(),
        Value::Words(words) => format!(" -x -a '{}'", words.join(" ")),
        Value::File(_) => " -r -F".into(),
        Value::Folder(_) => " -x -a '(__fish_complete_directories)'".into(),
        Value::Text(_) => " -x".into(),
    };
    spec + &value
}

/// In the quotes of a shell.
fn quoted(text: &str) -> String {
    format!("'{}'", text.replace('\'', "'\\''"))
}
