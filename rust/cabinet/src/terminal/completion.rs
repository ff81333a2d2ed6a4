//! Completion for shells, made from the table of commands.

use crate::commands::{Command, COMMANDS};
use crate::terminal::arguments::Setting;

/// The shells that completion is made for.
#[derive(Clone, Copy, PartialEq, Eq, Debug)]
pub enum Shell {
    Bash,
    Zsh,
    Fish,
}

impl Shell {
    /// The shell of a name.
    pub fn named(name: &str) -> Option<Shell> {
        match name {
            "bash" => Some(Shell::Bash),
            "zsh" => Some(Shell::Zsh),
            "fish" => Some(Shell::Fish),
            _ => None,
        }
    }

    /// The completion of the command, as the shell reads it.
    pub fn completion(self) -> String {
        match self {
            Shell::Bash => bash(),
            Shell::Zsh => zsh(),
            Shell::Fish => fish(),
        }
    }
}

/// All commands' names, and help's.
fn names() -> Vec<&'static str> {
    let help = std::iter::once("help");
    COMMANDS
        .iter()
        .map(|command| command.name)
        .chain(help)
        .collect()
}

/// What kind of thing a setting's value is, as far as a shell can complete it.
fn names_a_file(setting: &Setting) -> bool {
    matches!(setting.value, Some("FILE" | "DIR" | "FOLDER"))
}

fn bash() -> String {
    let mut text = format!(
        "# completion of cabinet for bash
_cabinet() {{
    local word=${{COMP_WORDS[COMP_CWORD]}} last=${{COMP_WORDS[COMP_CWORD-1]}} settings values
    COMPREPLY=()
    if [ \"$COMP_CWORD\" -eq 1 ] || {{ [ \"$COMP_CWORD\" -eq 2 ] && [ \"$last\" = help ]; }}; then
        mapfile -t COMPREPLY < <(compgen -W '{}' -- \"$word\")
        return
    fi
    case ${{COMP_WORDS[1]}} in
",
        names().join(" ")
    );
    for command in COMMANDS {
        let (name, settings) = (command.name, command.all_settings());
        let all: Vec<&str> = settings.iter().map(|setting| setting.name).collect();
        let values: Vec<&str> = settings
            .iter()
            .filter(|setting| setting.value.is_some() && !names_a_file(setting))
            .map(|setting| setting.name)
            .collect();
        text.push_str(&format!(
            "    {name}) settings='{}' values=' {} ' ;;\n",
            all.join(" "),
            values.join(" ")
        ));
    }
    text.push_str(
        "    *) return ;;
    esac
    case $word in
    --*) mapfile -t COMPREPLY < <(compgen -W \"$settings\" -- \"$word\") ;;
    *)
        case $values in
        *\" $last \"*) ;;
        *) compopt -o filenames; mapfile -t COMPREPLY < <(compgen -f -- \"$word\") ;;
        esac ;;
    esac
}
complete -F _cabinet cabinet
",
    );
    text
}

fn zsh() -> String {
    let mut text = String::from(
        "#compdef cabinet
# completion of cabinet for zsh
_cabinet() {
    local -a commands
    commands=(
",
    );
    for Command { name, summary, .. } in COMMANDS {
        text.push_str(&format!("        '{name}:{}'\n", quoted(summary)));
    }
    text.push_str(
        "        'help:what a command does, and how it is written'
    )
    if (( CURRENT == 2 )) || [[ CURRENT -eq 3 && $words[2] == help ]]; then
        _describe command commands
        return
    fi
    local name=$words[2]
    shift words
    (( CURRENT-- ))
    case $name in
",
    );
    for command in COMMANDS {
        text.push_str(&format!("    {}) _arguments", command.name));
        for setting in command.all_settings() {
            text.push_str(&format!(" \\\n        {}", zsh_setting(&setting)));
        }
        text.push_str(" \\\n        '*:file:_files' ;;\n");
    }
    text.push_str("    esac\n}\n_cabinet \"$@\"\n");
    text
}

fn zsh_setting(setting: &Setting) -> String {
    let words = quoted(setting.words)
        .replace('[', "\\[")
        .replace(']', "\\]");
    let value = match (setting.value, names_a_file(setting)) {
        (None, _) => String::new(),
        (Some(_), true) => ":file:_files".to_string(),
        (Some(value), false) => format!(":{}: ", quoted(value).replace(':', "\\:")),
    };
    let star = if setting.repeats() { "*" } else { "" };
    format!("'{star}{}[{words}]{value}'", setting.name)
}

/// Text inside single quotes.
fn quoted(text: &str) -> String {
    text.replace('\'', "'\\''")
}

fn fish() -> String {
    let mut text = String::from("# completion of cabinet for fish\n");
    let first = "__fish_use_subcommand";
    for command in COMMANDS {
        let (name, summary) = (command.name, command.summary);
        text.push_str(&format!(
            "complete -c cabinet -n {first} -f -a {name} -d '{}'\n",
            fish_quoted(summary)
        ));
        text.push_str(&format!(
            "complete -c cabinet -n '__fish_seen_subcommand_from help' -f -a {name}\n"
        ));
        for setting in command.all_settings() {
            let value = match (setting.value, names_a_file(&setting)) {
                (None, _) => "",
                (Some(_), true) => " -r -F",
                (Some(_), false) => " -x",
            };
            text.push_str(&format!(
                "complete -c cabinet -n '__fish_seen_subcommand_from {name}' -l {}{value} -d '{}'\n",
                setting.name.trim_start_matches('-'),
                fish_quoted(setting.words)
            ));
        }
    }
    text.push_str(&format!(
        "complete -c cabinet -n {first} -f -a help -d 'what a command does, and how it is written'\n"
    ));
    text
}

/// Text inside fish's single quotes.
fn fish_quoted(text: &str) -> String {
    text.replace('\\', "\\\\").replace('\'', "\\'")
}
