//! host/packages installs nothing unasked. The system's own commands are stood in for.

mod common;

use common::folder;
use std::fs::{self, Permissions};
use std::os::unix::fs::PermissionsExt;
use std::path::{Path, PathBuf};
use std::process::{Command, Stdio};

/// A folder of commands by which every package is missing and this is root; installing leaves a file.
fn machine(name: &str) -> PathBuf {
    let folder = folder(name);
    for (name, body) in [
        ("dpkg-query", "exit 1"),
        ("id", "echo 0"),
        ("apt-get", "echo \"$*\" >> \"$(dirname \"$0\")/installed\""),
    ] {
        let path = folder.join(name);
        fs::write(&path, format!("#!/bin/sh\n{body}\n")).unwrap();
        fs::set_permissions(path, Permissions::from_mode(0o755)).unwrap();
    }
    folder
}

fn script() -> PathBuf {
    Path::new(env!("CARGO_MANIFEST_DIR")).join("../packages")
}

fn ready(mut command: Command, machine: &Path) -> Command {
    let path = format!("{}:{}", machine.display(), std::env::var("PATH").unwrap());
    command.env("PATH", path).env_remove("CI");
    command
}

#[test]
fn without_a_terminal_it_wants_to_be_told() {
    for (words, ci, installs) in [
        (&[][..], None, false),
        (&["--yes"], None, true),
        (&[], Some("true"), true),
    ] {
        let machine = machine("packages");
        let mut command = Command::new("bash");
        command.arg(script()).args(words).stdin(Stdio::null());
        let mut command = ready(command, &machine);
        ci.map(|value| command.env("CI", value));
        let run = command.output().unwrap();
        assert!(run.status.success());
        assert_eq!(
            machine.join("installed").exists(),
            installs,
            "{words:?} {ci:?}"
        );
        assert_eq!(
            !run.stdout.is_empty(),
            installs,
            "cargo is led to what is installed"
        );
        let said = String::from_utf8(run.stderr).unwrap();
        assert_eq!(
            said.contains("as root: bash host/packages --yes"),
            !installs,
            "{said}"
        );
    }
}

#[test]
fn on_a_terminal_it_asks() {
    for (answer, installs) in [("n\n", false), ("\n", false), ("y\n", true)] {
        let machine = machine("asked");
        fs::write(machine.join("answer"), answer).unwrap();
        let mut command = Command::new("script");
        let line = format!("bash '{}'", script().display());
        command.args(["-qec", &line, "/dev/null"]);
        command.stdin(fs::File::open(machine.join("answer")).unwrap());
        let run = ready(command, &machine).output().unwrap();
        let shown = String::from_utf8(run.stdout).unwrap();
        assert!(shown.contains("? [y/N]"), "{shown}");
        assert_eq!(
            machine.join("installed").exists(),
            installs,
            "{answer:?}: {shown}"
        );
    }
}
