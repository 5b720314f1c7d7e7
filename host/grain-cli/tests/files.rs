//! Nothing is written over that is read, and nothing that is there already unless it is asked for.

mod common;

use common::{command, folder, run, said, sample, written};
use std::fs::{self, File, OpenOptions, Permissions};
use std::io::Write;
use std::os::unix::fs::{PermissionsExt, symlink};
use std::path::{Path, PathBuf};
use std::process::{Output, Stdio};

/// A folder with the sample's first two frames as master.y4m, and its bytes.
fn master(name: &str) -> (PathBuf, Vec<u8>) {
    let (samples, _) = sample();
    let folder = folder(name);
    let from = samples.join("grain.y4m");
    let words = [
        "denoise",
        from.to_str().unwrap(),
        "master.y4m",
        "--frames",
        "2",
    ];
    written(&folder, &words);
    let bytes = fs::read(folder.join("master.y4m")).unwrap();
    (folder, bytes)
}

fn mode(path: &Path) -> u32 {
    fs::metadata(path).unwrap().permissions().mode() & 0o777
}

/// The run failed with these words, and the folder's files are what they were.
fn refused(run: Output, words: &str, folder: &Path, master: &[u8]) {
    let said = String::from_utf8(run.stderr).unwrap();
    assert_eq!(run.status.code(), Some(1), "{said}");
    assert!(said.contains(words), "{said}");
    assert_eq!(fs::read(folder.join("master.y4m")).unwrap(), master);
    let left = fs::read_dir(folder).unwrap();
    let parts = left.filter(|entry| {
        let name = entry.as_ref().unwrap().file_name();
        name.to_string_lossy().ends_with(".part")
    });
    assert_eq!(parts.count(), 0);
}

#[test]
fn the_clip_itself_is_not_written_over() {
    let (folder, bytes) = master("one-file");
    fs::hard_link(folder.join("master.y4m"), folder.join("hard.y4m")).unwrap();
    symlink("master.y4m", folder.join("soft.y4m")).unwrap();
    fs::hard_link(folder.join("master.y4m"), folder.join("hard.svg")).unwrap();
    for read_only in [false, true] {
        let mode = if read_only { 0o444 } else { 0o644 };
        fs::set_permissions(folder.join("master.y4m"), Permissions::from_mode(mode)).unwrap();
        for out in ["master.y4m", "./master.y4m", "hard.y4m", "soft.y4m"] {
            for words in [
                &["denoise", "master.y4m", out][..],
                &["denoise", "master.y4m", out, "--force"],
            ] {
                refused(run(&folder, words), "are one file", &folder, &bytes);
            }
        }
        let words = ["report", "master.y4m", "--plot", "hard.svg", "--force"];
        refused(
            run(&folder, &words),
            "hard.svg and master.y4m are one file",
            &folder,
            &bytes,
        );
        written(&folder, &["denoise", "soft.y4m", "copy.y4m", "--force"]);
        let words = [
            "report",
            "copy.y4m",
            "--denoised",
            "soft.y4m",
            "--plot",
            "hard.svg",
            "--force",
        ];
        refused(
            run(&folder, &words),
            "hard.svg and soft.y4m are one file",
            &folder,
            &bytes,
        );
    }
}

/// A redirection names no file, but it is one.
#[test]
fn nor_by_a_redirection() {
    let (folder, bytes) = master("redirected");
    let append = || {
        OpenOptions::new()
            .append(true)
            .open(folder.join("master.y4m"))
            .unwrap()
    };
    for words in [
        &["denoise", "master.y4m", "-"][..],
        &["report", "master.y4m", "--json"],
        &["report", "master.y4m", "--brief"],
    ] {
        let run = command(&folder, words).stdout(append()).output().unwrap();
        refused(
            run,
            "standard output and master.y4m are one file",
            &folder,
            &bytes,
        );
    }
    let input = File::open(folder.join("master.y4m")).unwrap();
    let words = ["denoise", "-", "master.y4m", "--force"];
    let run = command(&folder, &words).stdin(input).output().unwrap();
    refused(
        run,
        "master.y4m and standard input are one file",
        &folder,
        &bytes,
    );
    let plot = File::create(folder.join("plot.svg")).unwrap();
    let words = ["report", "master.y4m", "--plot", "plot.svg", "--force"];
    let run = command(&folder, &words).stdout(plot).output().unwrap();
    refused(
        run,
        "plot.svg and standard output are one file",
        &folder,
        &bytes,
    );
}

#[test]
fn a_file_that_is_there_wants_force() {
    let (folder, bytes) = master("force");
    let out = folder.join("out.y4m");
    fs::write(&out, "before").unwrap();
    let run = run(&folder, &["denoise", "master.y4m", "out.y4m"]);
    refused(
        run,
        "out.y4m is there already: --force replaces it",
        &folder,
        &bytes,
    );
    assert_eq!(fs::read(&out).unwrap(), b"before");
    fs::write(folder.join("out.svg"), "before").unwrap();
    let words = said(&folder, &["report", "master.y4m", "--plot", "out.svg"]);
    assert!(words.contains("out.svg is there already"), "{words}");
    assert_eq!(fs::read(folder.join("out.svg")).unwrap(), b"before");
    for kept in [0o640, 0o600, 0o444] {
        fs::set_permissions(&out, Permissions::from_mode(kept)).unwrap();
        written(&folder, &["denoise", "master.y4m", "out.y4m", "--force"]);
        assert_eq!(
            (mode(&out), fs::metadata(&out).unwrap().len()),
            (kept, bytes.len() as u64)
        );
    }
    // Through a link, what it leads to is replaced.
    symlink("out.y4m", folder.join("link.y4m")).unwrap();
    let words = said(&folder, &["denoise", "master.y4m", "link.y4m"]);
    assert!(words.contains("link.y4m is there already"), "{words}");
    written(&folder, &["denoise", "master.y4m", "link.y4m", "--force"]);
    assert!(
        fs::symlink_metadata(folder.join("link.y4m"))
            .unwrap()
            .is_symlink()
    );
    // A new file has the mode that any new file has.
    written(&folder, &["denoise", "master.y4m", "new.y4m"]);
    fs::write(folder.join("any"), "").unwrap();
    assert_eq!(mode(&folder.join("new.y4m")), mode(&folder.join("any")));
}

#[test]
fn a_device_or_a_pipe_wants_none() {
    let (folder, _) = master("pipes");
    written(&folder, &["denoise", "master.y4m", "/dev/null"]);
    written(&folder, &["denoise", "master.y4m", "out.y4m"]);
    let made = std::process::Command::new("mkfifo")
        .arg(folder.join("pipe"))
        .status()
        .unwrap();
    assert!(made.success());
    let mut writer = command(&folder, &["denoise", "master.y4m", "pipe"])
        .spawn()
        .unwrap();
    let through = fs::read(folder.join("pipe")).unwrap();
    assert!(writer.wait().unwrap().success());
    assert_eq!(through, fs::read(folder.join("out.y4m")).unwrap());
    let words = said(&folder, &["denoise", "master.y4m", "."]);
    assert!(words.contains(". is a folder"), "{words}");
}

/// A file that appears while the work goes on is kept.
#[test]
fn a_name_that_is_taken_meanwhile() {
    let (folder, bytes) = master("meanwhile");
    let mut child = command(&folder, &["denoise", "-", "out.y4m"])
        .stdin(Stdio::piped())
        .stderr(Stdio::piped())
        .spawn()
        .unwrap();
    let mut input = child.stdin.take().unwrap();
    input.write_all(&bytes).unwrap();
    fs::write(folder.join("out.y4m"), "another's").unwrap();
    drop(input);
    refused(
        child.wait_with_output().unwrap(),
        "out.y4m is there already",
        &folder,
        &bytes,
    );
    assert_eq!(fs::read(folder.join("out.y4m")).unwrap(), b"another's");
}

/// A name that lies in wait for the file being written is not followed: `exec` keeps the process's number.
#[test]
fn a_link_in_the_way() {
    let (folder, bytes) = master("in-the-way");
    fs::write(folder.join("another"), "kept").unwrap();
    let line = format!(
        "ln -s another out.y4m.$$.part; exec {} denoise master.y4m out.y4m",
        env!("CARGO_BIN_EXE_grain")
    );
    let run = std::process::Command::new("sh")
        .args(["-c", &line])
        .current_dir(&folder)
        .output()
        .unwrap();
    let said = String::from_utf8(run.stderr).unwrap();
    assert!(
        said.contains("out.y4m can't be written: File exists"),
        "{said}"
    );
    assert_eq!(fs::read(folder.join("another")).unwrap(), b"kept");
    assert_eq!(fs::read(folder.join("master.y4m")).unwrap(), bytes);
    assert!(!folder.join("out.y4m").exists());
}
