//! Completion for the shells: commands, their options, the words that an option or an operand takes, and files.
use crate::commands::{Command, Operands, Opt, Takes, COMMANDS};

/// The names of all commands, with blanks between them.
fn commands() -> String {
    COMMANDS.iter().map(|command| command.name).collect::<Vec<_>>().join(" ")
}

/// What bash offers at the beginning of a word: options and operands' words.
fn offered(command: &Command) -> String {
    let mut words: Vec<String> = command.options.iter().flat_map(|option| spellings(option)).collect();
    if let Operands::Words(more) = command.completes {
        words.extend(more.iter().map(|word| word.to_string()));
    }
    words.join(" ")
}

fn spellings(option: &Opt) -> Vec<String> {
    option.letter.map(|letter| format!("-{letter}")).into_iter().chain([format!("--{}", option.name)]).collect()
}

pub fn bash() -> String {
    let mut text = format!(
        "_dsr() {{\n    local word=${{COMP_WORDS[COMP_CWORD]}} before=${{COMP_WORDS[COMP_CWORD-1]}} words=\n    COMPREPLY=()\n    \
         if [ \"$COMP_CWORD\" -eq 1 ]; then\n        mapfile -t COMPREPLY < <(compgen -W '{} --help --version' -- \"$word\")\n        return\n    fi\n    \
         case ${{COMP_WORDS[1]}}:$before in\n",
        commands()
    );
    for command in COMMANDS {
        for option in command.options {
            let names = spellings(option).iter().map(|name| format!("{}:{name}", command.name)).collect::<Vec<_>>().join(" | ");
            match option.takes {
                Takes::OneOf(words) => text += &format!("    {names}) words='{}' ;;\n", words.join(" ")),
                Takes::Value(_) => text += &format!("    {names}) return ;;\n"),
                Takes::File(_) => text += &format!("    {names}) compopt -o default; return ;;\n"),
                Takes::Nothing => {}
            }
        }
    }
    COMMANDS.iter().for_each(|command| text += &bash_operands(command));
    text + "    esac\n    mapfile -t COMPREPLY < <(compgen -W \"$words\" -- \"$word\")\n}\ncomplete -F _dsr dsr\n"
}

/// What stands where no option's value is due: a file, unless the word begins as an option does.
fn bash_operands(command: &Command) -> String {
    let files = match command.completes {
        Operands::Files => "case $word in -*) ;; *) compopt -o default; return ;; esac; ",
        Operands::Words(_) => "",
    };
    format!("    {}:*) {files}words='{}' ;;\n", command.name, offered(command))
}

pub fn zsh() -> String {
    let mut text = "#compdef dsr\n_dsr() {\n    local -a commands\n    commands=(\n".to_string();
    COMMANDS.iter().for_each(|command| text += &format!("        '{}:{}'\n", command.name, plain(command.says)));
    text += "    )\n    if (( CURRENT == 2 )); then\n        _describe command commands\n        return\n    fi\n    shift words\n    (( CURRENT-- ))\n    case $words[1] in\n";
    for command in COMMANDS {
        text += &format!("    {})\n        _arguments", command.name);
        command.options.iter().for_each(|option| text += &format!(" \\\n            {}", zsh_option(option)));
        text += &match command.completes {
            Operands::Files => " \\\n            '*:file:_files'".to_string(),
            Operands::Words(words) => format!(" \\\n            '*:word:({})'", words.join(" ")),
        };
        text += "\n        ;;\n";
    }
    text + "    esac\n}\n_dsr \"$@\"\n"
}

fn zsh_option(option: &Opt) -> String {
    let value = match option.takes {
        Takes::Nothing => String::new(),
        Takes::Value(word) => format!(":{}:", plain(word)),
        Takes::File(word) => format!(":{word}:_files"),
        Takes::OneOf(words) => format!(":word:({})", words.join(" ")),
    };
    let again = if option.again { "*" } else { "" };
    let one = |name: &str| format!("'{again}{name}[{}]{value}'", plain(option.says));
    spellings(option).iter().map(|name| one(name)).collect::<Vec<_>>().join(" ")
}

pub fn fish() -> String {
    let mut text = "complete -c dsr -f\n".to_string();
    for command in COMMANDS {
        text += &format!("complete -c dsr -n __fish_use_subcommand -a {} -d '{}'\n", command.name, plain(command.says));
    }
    for command in COMMANDS {
        let seen = format!("complete -c dsr -n '__fish_seen_subcommand_from {}'", command.name);
        command.options.iter().for_each(|option| text += &format!("{seen}{}\n", fish_option(option)));
        text += &match command.completes {
            Operands::Files => format!("{seen} -F\n"),
            Operands::Words([]) => String::new(),
            Operands::Words(words) => format!("{seen} -a '{}'\n", words.join(" ")),
        };
    }
    text
}

fn fish_option(option: &Opt) -> String {
    let letter = option.letter.map_or(String::new(), |letter| format!(" -s {letter}"));
    let value = match option.takes {
        Takes::Nothing => String::new(),
        Takes::Value(_) => " -x".to_string(),
        Takes::File(_) => " -r -F".to_string(),
        Takes::OneOf(words) => format!(" -x -a '{}'", words.join(" ")),
    };
    format!("{letter} -l {}{value} -d '{}'", option.name, plain(option.says))
}

/// A text's first sentence, without what a shell's quoting or zsh's specifications would take for theirs.
fn plain(text: &str) -> String {
    let first = text.split(['.', ';']).next().unwrap_or(text).split(": ").next().unwrap_or(text);
    first.replace(['\'', '[', ']', ':', '\\'], "")
}
