//! The manual page, from the words of the command line itself.

use clap::{Arg, Command};

/// The page as roff: the command, then each of its subcommands.
pub fn page(command: &Command) -> String {
    let name = command.get_name();
    let mut out = format!(
        ".TH {} 1 \"\" \"{name} {}\"\n.SH NAME\n{name} \\- {}\n",
        name.to_uppercase(),
        command.get_version().unwrap_or_default(),
        plain(command.get_about())
    );
    out += ".SH SYNOPSIS\n";
    for sub in shown(command) {
        out += &format!("{}\n.br\n", usage(name, sub));
    }
    out += &format!(".SH DESCRIPTION\n{}\n", plain(command.get_long_about()));
    for sub in shown(command) {
        let head = format!("{name} {}", sub.get_name()).to_uppercase();
        out += &format!(".SH \"{}\"\n{}\n", text(&head), plain(sub.get_about()));
        out += &sub.get_arguments().map(item).collect::<String>();
    }
    out += ".SH \"ALL COMMANDS\"\n";
    out += &command.get_arguments().map(item).collect::<String>();
    out += ".SH ENVIRONMENT\n.TP\n\\fBNO_COLOR\\fR\nWhere it is set, no colours are written.\n";
    out += ".SH \"EXIT STATUS\"\n0 where all went well, 1 where the run failed, 2 where the words can't be \
            understood, 130 after Ctrl\\-C.\n";
    out
}

/// The subcommands but clap's own.
fn shown(command: &Command) -> impl Iterator<Item = &Command> {
    command
        .get_subcommands()
        .filter(|sub| sub.get_name() != "help")
}

fn usage(name: &str, sub: &Command) -> String {
    let mut words = format!("\\fB{name} {}\\fR", text(sub.get_name()));
    for arg in sub.get_positionals() {
        words += &format!(" \\fI{}\\fR", text(&value(arg)));
    }
    if sub.get_opts().next().is_some() {
        words += " [\\fIoptions\\fR]";
    }
    words
}

/// One argument and its help.
fn item(arg: &Arg) -> String {
    let short = arg.get_short().map(|short| format!("-{short}"));
    let long = arg.get_long().map(|long| format!("--{long}"));
    let bold = |word: String| format!("\\fB{}\\fR", text(&word));
    let names: Vec<_> = short.into_iter().chain(long).map(bold).collect();
    let mut head = names.join(", ");
    let mut help = plain(arg.get_help());
    if names.is_empty() {
        head = format!("\\fI{}\\fR", text(&value(arg)));
    } else if arg.get_action().takes_values() {
        head += &format!(" \\fI{}\\fR", text(&value(arg)));
        for default in arg.get_default_values() {
            help += &text(&format!(" [default: {}]", default.to_string_lossy()));
        }
    }
    format!(".TP\n{head}\n{help}\n")
}

fn value(arg: &Arg) -> String {
    match arg.get_value_names() {
        Some([name, ..]) => name.to_string(),
        _ => arg.get_id().as_str().to_uppercase(),
    }
}

fn plain(words: Option<&clap::builder::StyledStr>) -> String {
    text(&words.map(ToString::to_string).unwrap_or_default())
}

/// Words as roff wants them: a hyphen is a minus there, and no line begins with a point.
fn text(words: &str) -> String {
    let words = words.replace('\\', "\\e").replace('-', "\\-");
    let lines = words
        .lines()
        .map(|line| match line.starts_with(['.', '\'']) {
            true => format!("\\&{line}"),
            false => line.to_string(),
        });
    let lines: Vec<_> = lines.collect();
    lines.join("\n")
}
