//! The man page, made from the help of the arguments.

use clap::{Arg, Command};

/// The page of the program, in roff.
pub fn page(command: &Command) -> String {
    let name = command.get_name();
    let version = command.get_version().unwrap_or_default();
    let about = command.get_about().map(|about| about.to_string());
    let mut page = format!(
        ".TH {} 1 \"\" \"{name} {version}\" \"User Commands\"\n.SH NAME\n{name} \\- {}\n",
        name.to_uppercase(),
        escape(&about.unwrap_or_default())
    );
    page += &format!(".SH SYNOPSIS\n.B {name}\n.I COMMAND\n[\\fIARGUMENTS\\fR]\n");
    if let Some(long) = command.get_long_about() {
        page += &format!(".SH DESCRIPTION\n{}\n", escape(&long.to_string()));
    }
    page += ".SH COMMANDS\n";
    for subcommand in command.get_subcommands().filter(|c| !c.is_hide_set()) {
        page += &section(subcommand);
    }
    page
}

fn section(command: &Command) -> String {
    let arguments: Vec<String> = command.get_positionals().map(value).collect();
    let about = command.get_about().map(|about| about.to_string());
    let mut section = format!(
        ".SS \"{} {}\"\n{}.\n",
        command.get_name(),
        arguments.join(" "),
        escape(&about.unwrap_or_default())
    );
    for argument in command.get_arguments().filter(|a| !a.is_hide_set()) {
        let help = argument.get_help().map(|help| help.to_string());
        if let Some(help) = help {
            section += &format!(".TP\n{}\n{}\n", head(argument), escape(&help));
        }
    }
    section
}

/// An option with its value, or an argument's name.
fn head(argument: &Arg) -> String {
    match argument.get_long() {
        None => format!("\\fI{}\\fR", value(argument)),
        Some(long) => {
            let short = argument.get_short().map(|c| format!("\\-{c}, "));
            let taken = argument.get_action().takes_values();
            let value = if taken {
                format!(" \\fI{}\\fR", value(argument))
            } else {
                String::new()
            };
            format!(
                "\\fB{}\\-\\-{}\\fR{value}",
                short.unwrap_or_default(),
                escape(long)
            )
        }
    }
}

/// The name of an argument's value.
fn value(argument: &Arg) -> String {
    let names = argument.get_value_names().unwrap_or_default();
    let name = names.first().map(|name| name.to_string());
    name.unwrap_or_else(|| argument.get_id().to_string().to_uppercase())
}

/// Text as roff takes it.
fn escape(text: &str) -> String {
    let text = text.replace('\\', "\\e").replace('-', "\\-");
    match text.starts_with(['.', '\'']) {
        true => format!("\\&{text}"),
        false => text,
    }
}
