//! The man page, and the completion of bash, from the table of commands.
use crate::command::{Command, COMMANDS};
use crate::{help, VERSION};

/// A text in a man page: its backslashes, its dashes, and its dots and quotes at the start of a line, taken as they are.
fn escaped(text: &str) -> String {
    let text = text.replace('\\', "\\e").replace('-', "\\-");
    let line = |line: &str| match line.chars().next() {
        Some('.' | '\'') => format!("\\&{line}\n"),
        _ => format!("{line}\n"),
    };
    text.lines().map(line).collect()
}

/// Lines that keep their shape where they are set in, and flow where they are not.
fn paragraphs(text: &str) -> String {
    let mut page = String::new();
    let mut kept = false;
    // an end without a line makes the last kept lines end too
    for line in text.lines().chain([""]) {
        let keep = line.starts_with("  ");
        match (kept, keep) {
            (false, true) => page.push_str(".nf\n"),
            (true, false) => page.push_str(".fi\n"),
            _ => {}
        }
        kept = keep;
        page.push_str(&if line.is_empty() {
            ".PP\n".to_string()
        } else {
            escaped(line)
        });
    }
    page
}

fn option(left: &str, words: &str) -> String {
    format!(".TP\n.B {}{}", escaped(left), escaped(words))
}

fn section(command: &Command) -> String {
    let mut page = format!(
        ".SS machhurel {} [OPTION..] {}\n",
        command.name, command.operands
    );
    page.push_str(&paragraphs(command.details));
    for choice in command.choices {
        page.push_str(&option(&help::typed(choice), choice.words));
    }
    page
}

/// The man page.
pub fn man() -> String {
    let mut page = format!(".TH MACHHUREL 1 \"\" \"machhurel {VERSION}\" \"Machhurel\"\n");
    page.push_str(".SH NAME\nmachhurel \\- ");
    page.push_str(&escaped(help::PURPOSE));
    page.push_str(".SH SYNOPSIS\n");
    for command in COMMANDS {
        let line = format!("machhurel {} [OPTION..] {}", command.name, command.operands);
        page.push_str(&format!(".B {}.br\n", escaped(&line)));
    }
    page.push_str(".SH DESCRIPTION\n");
    page.push_str(&paragraphs(&(help::common() + &help::further())));
    page.push_str(".SH COMMANDS\n");
    page.extend(COMMANDS.map(section));
    page.push_str(".SH OPTIONS\n");
    page.extend(help::GENERAL.map(|(name, words)| option(name, words)));
    page.push_str(".SH EXAMPLES\n.nf\n");
    page.push_str(&escaped(
        "machhurel show --writes 0x1008+8 --records 100..200 --format csv trace\nmachhurel watch trace 0x1008 8 --html page.html",
    ));
    page.push_str(".fi\n");
    page
}

/// The completion of bash.
pub fn bash() -> String {
    let names: Vec<&str> = COMMANDS.iter().map(|command| command.name).collect();
    let mut script =
        String::from("# completion of the command machhurel for bash\n_machhurel() {\n");
    script.push_str(
        "    local word=${COMP_WORDS[COMP_CWORD]} before=${COMP_WORDS[COMP_CWORD - 1]} words=\n",
    );
    script.push_str("    case ${COMP_WORDS[1]}:$before in\n");
    for command in COMMANDS {
        for choice in command.choices {
            let (name, values) = (choice.name, choice.values.join(" "));
            script.push_str(&format!(
                "    {}:{name}) words='{values}' ;;\n",
                command.name
            ));
        }
        let choices: Vec<&str> = command.choices.iter().map(|choice| choice.name).collect();
        let words = choices.join(" ");
        script.push_str(&format!(
            "    {}:*) words='{words} --help' ;;\n",
            command.name
        ));
    }
    let words = names.join(" ");
    script.push_str(&format!(
        "    *) [ \"$COMP_CWORD\" = 1 ] && words='{words} --help --version' ;;\n"
    ));
    script.push_str(
        "    esac\n    mapfile -t COMPREPLY < <(compgen -W \"$words\" -- \"$word\")\n}\n",
    );
    script.push_str("complete -o default -F _machhurel machhurel\n");
    script
}
