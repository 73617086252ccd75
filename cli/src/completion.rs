//! The completion of zsh and of fish, from the table of commands. (That of bash is `pages::bash`.)
use crate::choice::Choice;
use crate::command::{Command, COMMANDS};
use crate::help::GENERAL;

/// Whether files are what stands behind an option.
fn takes_file(choice: &Choice) -> bool {
    choice.value == "FILE"
}

/// A text in single quotes, each of these characters behind a backslash.
fn quoted(text: &str, marked: &[char], quote: &str) -> String {
    let mut out = String::new();
    for c in text.chars() {
        match c {
            '\'' => out.push_str(quote),
            c if marked.contains(&c) => out.extend(['\\', c]),
            c => out.push(c),
        }
    }
    out
}

/// `-h`, `--help` and what they do, of each option that the command has whatever is asked.
fn general() -> impl Iterator<Item = (&'static str, &'static str, &'static str)> {
    GENERAL.into_iter().filter_map(|(names, words)| {
        let (short, long) = names.split_once(", ")?;
        Some((short, long, words))
    })
}

/// How it begins: the list of commands follows.
const ZSH: &str = "\
#compdef machhurel
# completion of the command machhurel for zsh
_machhurel() {
    local -a commands general
    commands=(
";

/// Behind the lists: the word behind `machhurel` is one of them, and the others are those of a command.
const ZSH_BEHIND: &str = "    )
    if ((CURRENT == 2)); then
        _describe -t commands command commands
        _describe -o option general
        return
    fi
    local command=$words[2]
    shift words
    ((CURRENT--))
    case $command in
";

/// The completion of zsh.
pub fn zsh() -> String {
    let text = |text: &str| quoted(text, &[':', '[', ']', '\\'], "'\\''");
    let mut script = String::from(ZSH);
    for command in COMMANDS {
        let words = text(command.purpose);
        script.push_str(&format!("        '{}:{words}'\n", command.name));
    }
    script.push_str("    )\n    general=(\n");
    for (_, long, words) in general() {
        script.push_str(&format!("        '{long}:{}'\n", text(words)));
    }
    script.push_str(ZSH_BEHIND);
    for command in COMMANDS {
        script.push_str(&format!("    {}) _arguments", command.name));
        for choice in command.choices {
            let action = match choice.values {
                [] if takes_file(choice) => "_files".to_string(),
                [] => String::new(),
                values => format!("({})", values.join(" ")),
            };
            let (name, value) = (choice.name, quoted(choice.value, &[':'], ""));
            let words = text(choice.words);
            script.push_str(&format!(
                " \\\n        '*{name}=[{words}]:{value}:{action}'"
            ));
        }
        script.push_str(" \\\n        '--help[this help]' \\\n        '*:file:_files' ;;\n");
    }
    script.push_str("    esac\n}\n_machhurel \"$@\"\n");
    script
}

/// The completion of fish.
pub fn fish() -> String {
    let text = |text: &str| quoted(text, &['\\'], "\\'");
    let mut script = String::from("# completion of the command machhurel for fish\n");
    let first = "complete -c machhurel -n __fish_use_subcommand";
    for command in COMMANDS {
        let (name, words) = (command.name, text(command.purpose));
        script.push_str(&format!("{first} -f -a {name} -d '{words}'\n"));
    }
    for (short, long, words) in general() {
        let (short, long) = (short.trim_start_matches('-'), long.trim_start_matches('-'));
        let words = text(words);
        script.push_str(&format!("{first} -f -s {short} -l {long} -d '{words}'\n"));
    }
    script.extend(COMMANDS.map(|command| fish_choices(command, text)));
    script
}

fn fish_choices(command: &Command, text: impl Fn(&str) -> String) -> String {
    let behind = format!(
        "complete -c machhurel -n '__fish_seen_subcommand_from {}'",
        command.name
    );
    let choice = |choice: &Choice| {
        let name = choice.name.trim_start_matches('-');
        let value = match choice.values {
            [] if takes_file(choice) => "-r -F".to_string(),
            [] => "-x".to_string(),
            values => format!("-x -a '{}'", values.join(" ")),
        };
        format!("{behind} -l {name} {value} -d '{}'\n", text(choice.words))
    };
    let mut lines: String = command.choices.iter().map(choice).collect();
    lines.push_str(&format!("{behind} -s h -l help -f -d 'this help'\n"));
    lines
}

#[cfg(test)]
mod tests {
    use super::*;

    /// Quotes are even, and every command and option stands in it.
    #[test]
    fn everything_of_the_table() {
        for script in [zsh(), fish()] {
            for line in script.lines() {
                let plain = line.replace("'\\''", "").replace("\\'", "");
                assert_eq!(plain.matches('\'').count() % 2, 0, "{line}");
            }
            for command in COMMANDS {
                assert!(script.contains(command.name));
                for choice in command.choices {
                    let name = choice.name.trim_start_matches('-');
                    let found = script.contains(&format!("--{name}=["))
                        || script.contains(&format!("-l {name} "));
                    assert!(found, "{name}");
                }
            }
        }
        assert!(zsh().contains(":FILE:_files'") && fish().contains("-l html -r -F -d"));
        assert!(zsh().contains(":FORMAT:(text csv json)'"));
        assert!(fish().contains("-l format -x -a 'text csv json'"));
    }

    #[test]
    fn quotes() {
        assert_eq!(quoted("a'b:c\\", &[':', '\\'], "'\\''"), "a'\\''b\\:c\\\\");
    }
}
