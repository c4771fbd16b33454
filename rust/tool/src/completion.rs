//! Completion for bash, made from the table of arguments.

use crate::arguments::{Command, Opt, COMMANDS};

/// The values that an option's table entry lists by name; `WxH` and its like are shapes, not values.
fn listed(option: &Opt) -> Option<String> {
    let values: Vec<&str> = option.value.split('|').filter(|v| !v.contains("x")).collect();
    (option.value.contains('|') && !values.is_empty()).then(|| values.join(" "))
}

/// A line of the script's table: what a command takes.
fn taken(command: &Command) -> String {
    let options: Vec<&str> = command.options.iter().map(|o| o.name).chain(["--help"]).collect();
    let words = match command.name {
        "help" => names(),
        "completion" => command.words.join(" "),
        _ => String::new(),
    };
    format!("        {}) options='{}' words='{words}' ;;\n", command.name, options.join(" "))
}

/// A line of the script's table: what follows an option.
fn following(option: &Opt) -> String {
    let reply = match (listed(option), option.value) {
        (Some(values), _) => format!("COMPREPLY=($(compgen -W '{values}' -- \"$word\")); return"),
        (None, "FILE") => "COMPREPLY=($(compgen -f -- \"$word\")); return".to_string(),
        _ => "return".to_string(),
    };
    format!("        {}) {reply} ;;\n", option.name)
}

fn names() -> String {
    COMMANDS.iter().map(|c| c.name).collect::<Vec<_>>().join(" ")
}

const START: &str = r#"_lineage() {
    local word=${COMP_WORDS[COMP_CWORD]} before=${COMP_WORDS[COMP_CWORD-1]}
    local command=${COMP_WORDS[1]} options= words=
    COMPREPLY=()
    if [ "$COMP_CWORD" -eq 1 ]; then
        COMPREPLY=($(compgen -W 'NAMES --help --version' -- "$word"))
        return
    fi
    case $command in
"#;

const END: &str = r#"    esac
    case $word in
        -*) COMPREPLY=($(compgen -W "$options" -- "$word")) ;;
        *) if [ -n "$words" ]; then COMPREPLY=($(compgen -W "$words" -- "$word"))
           else COMPREPLY=($(compgen -f -- "$word")); fi ;;
    esac
}
complete -o filenames -F _lineage lineage
"#;

pub fn bash() -> String {
    let mut options: Vec<&Opt> = COMMANDS.iter().flat_map(|c| c.options).copied().collect();
    options.retain(|option| !option.value.is_empty());
    options.sort_by_key(|option| option.name);
    options.dedup_by_key(|option| option.name);
    let commands: String = COMMANDS.iter().map(taken).collect();
    let values: String = options.into_iter().map(following).collect();
    format!("{}{commands}    esac\n    case $before in\n{values}{END}", START.replace("NAMES", &names()))
}
