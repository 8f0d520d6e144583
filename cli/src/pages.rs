//! The man page and the completions, made from the table of commands. `page WHAT`,
//! which no help lists, prints them; cli/share has what it prints.

use crate::help;
use crate::table::{Command, Opt, COMMANDS, OPTIONS};
use crate::tell::{self, Done};
use crate::words::scheme_word;
use crate::{calls, near};
use std::ffi::OsString;
use std::fmt::Write;

/// The pages, by the word that asks for each.
const PAGES: [(&str, fn() -> String); 4] =
    [("man", man), ("bash", bash), ("zsh", zsh), ("fish", fish)];

pub fn run(given: &[OsString]) -> Done {
    match PAGES.iter().find(|(name, _)| given[0] == *name) {
        Some((_, made)) => tell::page(&made()),
        None => Err(tell::words(format!(
            "page takes man, bash, zsh or fish{}",
            near::hint(&given[0], PAGES.map(|(name, _)| name))
        ))),
    }
}

// ---- the man page

fn man() -> String {
    let mut text = String::from(
        ".\\\" made by 'wimmostry page man' from the table of commands\n\
         .TH WIMMOSTRY 1\n.SH NAME\n\
         wimmostry \\- key exchange by BCNS, NewHope and Frodo on files\n.SH SYNOPSIS\n",
    );
    for command in COMMANDS {
        let (name, usage) = (roff(command.name), roff(&command.usage()));
        let lines = format!(".B wimmostry {name}\n{usage}\n.br\n");
        // a command without words would have an empty line, which the page then has too
        text.push_str(&lines.replace("\n\n", "\n"));
    }
    let _ = write!(text, ".SH DESCRIPTION\n{}", plain(help::ABOUT));
    text.push_str(".SH OPTIONS\n");
    for option in OPTIONS {
        let _ = writeln!(
            text,
            ".TP\n.B {}\n{}",
            roff(&names(option)),
            roff(option.what)
        );
    }
    text.push_str(".SH COMMANDS\n");
    for command in COMMANDS {
        let _ = writeln!(text, ".SS wimmostry {}\n.nf", roff(command.name));
        let page = help::page(command);
        text.push_str(&plain(&page));
        text.push_str(".fi\n");
    }
    for (heading, part) in [
        ("WORDS", help::WORDS),
        ("FILES", help::REST),
        ("EXIT STATUS", help::STATUSES),
        ("EXAMPLE", help::LINK),
    ] {
        let _ = write!(
            text,
            ".SH {heading}\n.nf\n{}.fi\n",
            plain(part.trim_start_matches('\n'))
        );
    }
    text
}

fn names(option: &Opt) -> String {
    match option.short {
        "" => option.name.to_string(),
        short => format!("{short}, {}", option.name),
    }
}

/// Lines that roff prints as they stand.
fn plain(text: &str) -> String {
    text.lines().map(|line| roff(line) + "\n").collect()
}

fn roff(line: &str) -> String {
    let escaped = line.replace('\\', "\\e").replace('-', "\\-");
    match escaped.starts_with(['.', '\'']) {
        true => format!("\\&{escaped}"),
        false => escaped,
    }
}

// ---- the completions

/// The words in a name that stand as they are.
fn fixed(command: &Command) -> Vec<&'static str> {
    command
        .name
        .split(' ')
        .filter(|word| *word != "FILE")
        .collect()
}

/// The first words of all names, each once, with what there is to say of it.
fn firsts() -> Vec<(&'static str, String)> {
    let mut all: Vec<(&str, String)> = vec![];
    for command in COMMANDS {
        let words = fixed(command);
        let brief = match words.len() {
            1 => command.brief.to_string(),
            _ => format!(
                "{} ..",
                seconds(words[0])
                    .iter()
                    .map(|x| x.0)
                    .collect::<Vec<_>>()
                    .join(", ")
            ),
        };
        if all.iter().all(|(word, _)| *word != words[0]) {
            all.push((words[0], brief));
        }
    }
    all
}

/// The second words of the names that begin with a word.
fn seconds(first: &str) -> Vec<(&'static str, &'static str)> {
    let several = COMMANDS
        .iter()
        .map(|command| (fixed(command), command.brief));
    let of = several.filter(|(words, _)| words.len() == 2 && words[0] == first);
    of.map(|(words, brief)| (words[1], brief)).collect()
}

/// Where the second word stands: behind the file of a session.
fn place(first: &str) -> usize {
    let begins = |command: &&Command| fixed(command)[0] == first;
    let found = COMMANDS.iter().find(begins);
    if found.is_some_and(|command| command.name.contains(" FILE ")) {
        3
    } else {
        2
    }
}

fn groups() -> Vec<&'static str> {
    let firsts = firsts().into_iter().map(|(first, _)| first);
    firsts.filter(|first| !seconds(first).is_empty()).collect()
}

fn scheme_words() -> String {
    let names: Vec<String> = (0..calls::SCHEMES).map(scheme_word).collect();
    names.join(" ")
}

/// The first words of the commands that take a scheme's name as their next word.
fn by_scheme() -> Vec<&'static str> {
    let takes = |command: &&Command| {
        command
            .usage()
            .trim_start_matches('[')
            .starts_with("SCHEME")
    };
    let names = COMMANDS.iter().filter(takes).map(fixed);
    names
        .filter(|words| words.len() == 1)
        .map(|words| words[0])
        .collect()
}

fn joined<'a>(words: impl IntoIterator<Item = &'a str>) -> String {
    words.into_iter().collect::<Vec<_>>().join(" ")
}

fn options() -> String {
    joined(
        OPTIONS
            .iter()
            .flat_map(|x| [x.name, x.short])
            .filter(|word| !word.is_empty()),
    )
}

fn bash() -> String {
    let mut text = format!(
        "# made by 'wimmostry page bash' from the table of commands\n\
         _wimmostry() {{\n    \
         local word=${{COMP_WORDS[COMP_CWORD]}} words=() at=$COMP_CWORD i\n    \
         for ((i = 1; i < COMP_CWORD; i++)); do\n        \
         case ${{COMP_WORDS[i]}} in -?*) at=$((at - 1)) ;; *) words+=(\"${{COMP_WORDS[i]}}\") ;; esac\n    \
         done\n    \
         local known=''\n    \
         if [[ $word == -* ]]; then\n        known='{}'\n    \
         elif [ \"$at\" = 1 ]; then\n        known='{}'\n    else\n        \
         case ${{words[0]}}:$at in\n",
        options(),
        joined(firsts().iter().map(|x| x.0))
    );
    for first in groups() {
        let second = joined(seconds(first).iter().map(|x| x.0));
        let _ = writeln!(
            text,
            "        {first}:{}) known='{second}' ;;",
            place(first)
        );
    }
    let by = by_scheme().join(":2|");
    let _ = writeln!(text, "        {by}:2) known='{}' ;;", scheme_words());
    text.push_str(
        "        esac\n    fi\n    \
         if [ -n \"$known\" ]; then\n        \
         mapfile -t COMPREPLY < <(compgen -W \"$known\" -- \"$word\")\n    else\n        \
         compopt -o filenames 2>/dev/null\n        \
         mapfile -t COMPREPLY < <(compgen -f -- \"$word\")\n    fi\n}\n\
         complete -F _wimmostry wimmostry\n",
    );
    text
}

/// A text in single quotes, for zsh and fish.
fn quoted(text: &str) -> String {
    text.replace('\'', "'\\''").replace(':', "\\:")
}

fn zsh() -> String {
    let mut text = String::from(
        "#compdef wimmostry\n# made by 'wimmostry page zsh' from the table of commands\n\
         local -a known\nlocal -a given=(${words[2,CURRENT-1]:#-?*})\nlocal at=$((${#given} + 1))\n\
         if [[ $words[CURRENT] == -* ]]; then\n    known=(\n",
    );
    for option in OPTIONS {
        let _ = writeln!(text, "        '{}:{}'", option.name, quoted(option.what));
    }
    text.push_str("    )\n    _describe option known\nelif (( at == 1 )); then\n    known=(\n");
    for (first, brief) in firsts() {
        let _ = writeln!(text, "        '{first}:{}'", quoted(&brief));
    }
    text.push_str("    )\n    _describe command known\nelse\n    case $given[1]:$at in\n");
    for first in groups() {
        let _ = writeln!(text, "    {first}:{})\n        known=(", place(first));
        for (second, brief) in seconds(first) {
            let _ = writeln!(text, "            '{second}:{}'", quoted(brief));
        }
        text.push_str("        )\n        _describe command known ;;\n");
    }
    let by = by_scheme().join(":2|");
    let _ = writeln!(text, "    {by}:2) _values scheme {} ;;", scheme_words());
    text.push_str("    *) _files ;;\n    esac\nfi\n");
    text
}

fn fish() -> String {
    let mut text = String::from(
        "# made by 'wimmostry page fish' from the table of commands\n\
         function __wimmostry_at\n    \
         set -l given (string match -rv -- '^-.' (commandline -opc))\n    \
         test (count $given) -eq $argv[1]; and test \"$given[2]\" = \"$argv[2]\"\nend\n",
    );
    let fish = |text: &str| text.replace('\'', "\\'");
    for option in OPTIONS {
        let short = match option.short.strip_prefix('-') {
            Some(letter) => format!(" -s {letter}"),
            None => String::new(),
        };
        let long = option.name.trim_start_matches('-');
        let what = fish(option.what);
        let _ = writeln!(text, "complete -c wimmostry -l {long}{short} -d '{what}'");
    }
    for (first, brief) in firsts() {
        let brief = fish(&brief);
        let _ = writeln!(
            text,
            "complete -c wimmostry -n __fish_use_subcommand -a {first} -d '{brief}'"
        );
    }
    for first in groups() {
        for (second, brief) in seconds(first) {
            let (at, brief) = (place(first), fish(brief));
            let when = format!("-n '__wimmostry_at {at} {first}'");
            let _ = writeln!(
                text,
                "complete -c wimmostry {when} -a {second} -d '{brief}'"
            );
        }
    }
    for first in by_scheme() {
        let schemes = scheme_words();
        let when = format!("-n '__wimmostry_at 2 {first}'");
        let _ = writeln!(text, "complete -c wimmostry {when} -a '{schemes}'");
    }
    text
}

#[cfg(test)]
mod tests {
    use super::*;

    /// What stands in cli/share is what the table gives.
    #[test]
    fn the_pages_that_ship() {
        let shipped = [
            ("man", include_str!("../share/wimmostry.1")),
            ("bash", include_str!("../share/wimmostry.bash")),
            ("zsh", include_str!("../share/_wimmostry")),
            ("fish", include_str!("../share/wimmostry.fish")),
        ];
        for ((name, made), (page, text)) in PAGES.iter().zip(shipped) {
            assert_eq!(*name, page);
            assert!(
                made() == text,
                "cli/share: make it anew by 'wimmostry page {name}'"
            );
        }
    }

    #[test]
    fn the_synopsis_has_no_gap() {
        let text = man();
        let (before, _) = text.split_once(".SH DESCRIPTION").unwrap();
        assert!(!before.contains("\n\n"), "{before}");
    }

    /// Every command and every option is in every page.
    #[test]
    fn nothing_is_left_out() {
        for (name, made) in PAGES {
            let text = made();
            for command in COMMANDS {
                for word in fixed(command) {
                    let word = if name == "man" {
                        roff(word)
                    } else {
                        word.to_string()
                    };
                    assert!(text.contains(&word), "{name}: {word}");
                }
            }
            for option in OPTIONS {
                let long = match name {
                    "man" => roff(option.name),
                    "fish" => format!("-l {} ", option.name.trim_start_matches('-')),
                    _ => option.name.to_string(),
                };
                assert!(text.contains(&long), "{name}: {long}");
            }
        }
    }
}
