//! The man page, made of the arguments as they are declared. Its language is that of the macros `man`:
//! <https://man7.org/linux/man-pages/man7/groff_man.7.html>.

use crate::arguments::{Arguments, EXAMPLES, STATUSES};
use clap::{Arg, Command, CommandFactory};
use std::fmt::Display;

/// Text as it stands on the page: neither a request nor an escape.
fn plain(text: impl Display) -> String {
    let text = text.to_string().replace('\\', "\\e").replace('-', "\\-");
    let lines =
        text.lines().map(|line| if line.starts_with(['.', '\'']) { format!("\\&{line}") } else { line.to_string() });
    lines.collect::<Vec<_>>().join("\n")
}

/// A help text as a sentence: clap takes away its full stop.
fn sentence(text: impl Display) -> String {
    let text = plain(text);
    if text.is_empty() || text.ends_with('.') {
        text
    } else {
        text + "."
    }
}

/// How an argument is written on the command line.
fn spelling(arg: &Arg) -> String {
    let short = arg.get_short().map(|it| format!("\\fB\\-{it}\\fR"));
    let long = arg.get_long().map(|it| format!("\\fB\\-\\-{}\\fR", plain(it)));
    let names: Vec<String> = short.into_iter().chain(long).collect();
    // A flag has no value, though a name of one.
    let values = arg.get_value_names().filter(|_| arg.get_action().takes_values()).unwrap_or_default();
    let values = values.iter().map(|it| format!("\\fI{}\\fR", plain(it)));
    let named = (!names.is_empty()).then(|| names.join(", "));
    named.into_iter().chain(values).collect::<Vec<_>>().join(" ")
}

/// An argument, what it is for, and the values that it may have.
fn argument(arg: &Arg) -> String {
    let help = arg.get_help().map(sentence).unwrap_or_default();
    let values = arg.get_possible_values();
    // A flag has the values true and false.
    let takes_values = arg.get_action().takes_values();
    let names: Vec<&str> = values.iter().filter(|_| takes_values).map(|it| it.get_name()).collect();
    let one_of = if names.is_empty() { String::new() } else { format!("\nOne of {}.", plain(names.join(", "))) };
    format!(".TP\n{}\n{}\n", spelling(arg), (help + &one_of).trim())
}

/// The arguments of the program, or those of a command that the program does not have.
fn arguments_of(command: &Command, options_of_program: &[String]) -> String {
    let own = command.get_arguments().filter(|it| !["help", "version"].contains(&it.get_id().as_str()));
    own.filter(|it| it.get_long().is_none_or(|long| !options_of_program.iter().any(|it| it == long)))
        .map(argument)
        .collect()
}

/// The usage line of a command.
fn usage_of(command: &mut Command) -> String {
    plain(command.render_usage().to_string().trim_start_matches("Usage:").trim())
}

/// The page.
pub fn page() -> String {
    let mut command = Arguments::command();
    command.build();
    let about = command.get_about().map(plain).unwrap_or_default();
    let name = about.replacen('S', "s", 1);
    let mut text = format!(".TH PE 1 \"\" \"pe {}\" \"User Commands\"\n.SH NAME\n", env!("CARGO_PKG_VERSION"));
    text += &format!("pe \\- {name}\n.SH SYNOPSIS\n");
    let usage = usage_of(&mut command);
    text += &usage.lines().map(|line| format!("{}\n.br\n", line.trim())).collect::<String>();
    text += &format!(
        ".SH DESCRIPTION\n{about}.\nWhat is said of an image comes from calls of the library for C, which was proved if `pe \\-\\-version` says so; hashes, entropy and what a file or an overlay is are the program\'s own. `pe verify` alone says whether signatures fit.\n"
    );
    text += &format!(".SH OPTIONS\n{}.SH COMMANDS\n", arguments_of(&command, &[]));
    let options: Vec<String> = command.get_arguments().filter_map(|it| it.get_long().map(str::to_string)).collect();
    for below in command.get_subcommands_mut().filter(|it| it.get_name() != "help") {
        let usage = usage_of(below);
        let about = below.get_about().map(sentence).unwrap_or_default();
        text += &format!(".SS \"{usage}\"\n{about}\n{}", arguments_of(below, &options));
    }
    text + &format!(".SH EXAMPLES\n.nf\n{}\n.fi\n.SH \"EXIT STATUS\"\n{}\n", plain(EXAMPLES), plain(STATUSES))
}
