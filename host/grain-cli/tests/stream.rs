//! What a run does while it goes on: memory, Ctrl-C, streams that can't be written, threads.

mod common;

use common::{Planes, clip, command, folder, json, parsed, sample, written};
use grain::{Format, Shape};
use std::fs::{self, File, OpenOptions};
use std::io::{self, BufRead, BufReader, Write};
use std::path::Path;
use std::process::{Child, Command, Stdio};

const SMALL: Shape = Shape::new(16, 16, 8, Format::Monochrome);

/// A clip's first line with its first frame, and the bytes of one frame more.
fn frames() -> (Vec<u8>, Vec<u8>) {
    let frame = Planes::random(SMALL, 1);
    let start = clip(std::slice::from_ref(&frame));
    let more = [b"FRAME\n", &frame.bytes()[..]].concat();
    (start, more)
}

fn started(folder: &Path, words: &[&str]) -> Child {
    let mut command = command(folder, words);
    command.stdin(Stdio::piped()).stderr(Stdio::piped());
    command.stdout(Stdio::piped()).spawn().unwrap()
}

/// The most memory that a process has had so far, in kB.
fn most_memory(child: &Child) -> u64 {
    let status = fs::read_to_string(format!("/proc/{}/status", child.id())).unwrap();
    let line = status.lines().find_map(|line| line.strip_prefix("VmHWM:"));
    let number = line.unwrap().split_whitespace().next().unwrap();
    number.parse().unwrap()
}

/// The most memory of a run on so many frames, read while it waits for the end.
fn memory(folder: &Path, words: &[&str], count: usize) -> u64 {
    let mut child = started(folder, words);
    let output = child.stdout.take().unwrap();
    std::thread::spawn(move || io::copy(&mut BufReader::new(output), &mut io::sink()));
    let (start, more) = frames();
    let mut input = child.stdin.take().unwrap();
    input.write_all(&start).unwrap();
    let some = more.repeat(100);
    for at in (1..count).step_by(100) {
        let left = (count - at).min(100);
        input.write_all(&some[..left * more.len()]).unwrap();
    }
    let most = most_memory(&child);
    drop(input);
    assert!(child.wait().unwrap().success());
    most
}

/// Two hours at 24 frames a second, of a small picture, in a memory that a frame's figures kept would fill in minutes.
#[test]
fn a_reel_takes_no_more_memory_than_a_short_clip() {
    let folder = folder("reel");
    let hour = 60 * 60 * 24;
    for (words, count) in [
        (&["report", "-", "--brief", "--threads", "2"][..], 2 * hour),
        (&["report", "-", "--json", "--threads", "2"], hour / 5),
        (
            &["report", "-", "--active", "auto", "--threads", "2"],
            hour / 5,
        ),
        (&["report", "-", "--threads", "2"], hour / 5),
        (&["denoise", "-", "-", "--threads", "2"], hour),
    ] {
        let most = memory(&folder, words, count);
        assert!(most < 16_000, "{words:?}: {most} kB");
    }
}

/// Frames of 1920 × 1080 at 10 bits: a few for each thread, where bars are looked for eight more, and no more.
#[test]
fn a_large_picture_fits_100_megabytes() {
    let folder = folder("large");
    let shape = Shape::new(1920, 1080, 10, Format::Yuv420);
    let bytes = clip(&[Planes::random(shape, 1)]);
    let frame = bytes.iter().position(|&byte| byte == b'\n').unwrap() + 1;
    let words = ["report", "-", "--brief", "--threads", "2"];
    for more in [&[][..], &["--active", "auto"]] {
        let mut child = started(&folder, &[&words, more].concat());
        let mut input = child.stdin.take().unwrap();
        input.write_all(&bytes).unwrap();
        for _ in 1..24 {
            input.write_all(&bytes[frame..]).unwrap();
        }
        let most = most_memory(&child);
        drop(input);
        assert!(child.wait_with_output().unwrap().status.success());
        assert!(most < 100_000, "{more:?}: {most} kB");
    }
}

/// A whole line is there before the frames after it are read.
#[test]
fn lines_are_written_as_they_come() {
    let folder = folder("lines");
    let mut child = started(&folder, &["report", "-", "--json", "--threads", "1"]);
    let (start, more) = frames();
    let mut input = child.stdin.take().unwrap();
    input.write_all(&start).unwrap();
    input.write_all(&more.repeat(9)).unwrap();
    let mut output = BufReader::new(child.stdout.take().unwrap());
    let mut line = String::new();
    output.read_line(&mut line).unwrap();
    assert_eq!(parsed(&line)[0]["frame"], 0);
    drop(input);
    assert_eq!(output.lines().count(), 10);
    assert!(child.wait().unwrap().success());
}

fn interrupt(child: &Child) {
    let id = child.id().to_string();
    assert!(
        Command::new("kill")
            .args(["-INT", &id])
            .status()
            .unwrap()
            .success()
    );
}

/// Ctrl-C while frames come in: what is there is whole lines, and nothing half-written is left.
#[test]
fn ctrl_c_leaves_whole_lines() {
    let folder = folder("ctrl-c");
    let lines = folder.join("lines.json");
    let mut command = command(&folder, &["report", "-", "--json"]);
    command.stdin(Stdio::piped()).stderr(Stdio::piped());
    let mut child = command
        .stdout(File::create(&lines).unwrap())
        .spawn()
        .unwrap();
    let (start, more) = frames();
    let mut input = child.stdin.take().unwrap();
    input.write_all(&start).unwrap();
    let mut fed = 0;
    while fs::metadata(&lines).unwrap().len() < 100_000 {
        input.write_all(&more).unwrap();
        fed += 1;
    }
    interrupt(&child);
    // The run ends by itself, though more comes.
    while fed < 1_000_000 && input.write_all(&more).is_ok() {
        fed += 1;
    }
    let run = child.wait_with_output().unwrap();
    assert_eq!(run.status.code(), Some(130));
    assert_eq!(
        String::from_utf8(run.stderr).unwrap(),
        "grain: stopped before the end\n"
    );
    let lines = fs::read_to_string(lines).unwrap();
    assert!(lines.ends_with('\n'));
    let lines = parsed(&lines);
    assert!(
        lines
            .iter()
            .enumerate()
            .all(|(at, line)| line["frame"] == at),
        "frames alone"
    );

    // Also while nothing comes.
    let mut child = started(&folder, &["denoise", "-", "out.y4m"]);
    let mut input = child.stdin.take().unwrap();
    input
        .write_all(&[&start[..], &more.repeat(1000)].concat())
        .unwrap();
    interrupt(&child);
    assert_eq!(child.wait().unwrap().code(), Some(130));
    assert_eq!(fs::read_dir(&folder).unwrap().count(), 1, "only lines.json");
    drop(input);
}

/// A standard error that is full ends no run and loses no report.
#[test]
fn standard_error_may_be_full() {
    let folder = folder("full");
    let bytes = clip(&[Planes::random(SMALL, 1), Planes::random(SMALL, 2)]);
    let text = String::from_utf8_lossy(&bytes[..40]).replace(" Ip", " It");
    let bytes = [text.as_bytes(), &bytes[40..]].concat();
    fs::write(folder.join("interlaced.y4m"), bytes).unwrap();
    let full = || OpenOptions::new().write(true).open("/dev/full").unwrap();
    let warned = command(&folder, &["report", "interlaced.y4m"])
        .output()
        .unwrap();
    assert!(warned.status.success() && !warned.stderr.is_empty());
    let run = command(&folder, &["report", "interlaced.y4m"])
        .stderr(full())
        .output()
        .unwrap();
    assert!(run.status.success());
    assert_eq!(run.stdout, warned.stdout);
    for (words, status) in [(&["report", "none.y4m"][..], 1), (&["report"], 2)] {
        let run = command(&folder, words).stderr(full()).output().unwrap();
        assert_eq!(run.status.code(), Some(status));
    }
    // A report that is lost is an error.
    let run = command(&folder, &["report", "interlaced.y4m"])
        .stdout(full())
        .output()
        .unwrap();
    assert_eq!(run.status.code(), Some(1));
    assert!(String::from_utf8_lossy(&run.stderr).contains("the report can't be written"));
}

#[test]
fn any_number_of_threads_has_one_report() {
    let (folder, _) = sample();
    let one = written(folder, &["report", "grain.y4m", "--threads", "1", "--json"]);
    for threads in ["2", "3", "16"] {
        let words = ["--threads", threads, "report", "grain.y4m", "--json"];
        assert_eq!(written(folder, &words), one);
    }
    let none = command(folder, &["report", "grain.y4m", "--threads", "0"])
        .output()
        .unwrap();
    assert_eq!(none.status.code(), Some(2));
    let report = json(
        folder,
        &["report", "grain.y4m", "--brief", "--json", "--threads", "1"],
    );
    assert_eq!(report["clip"]["frames"], 6);
}

/// Colours on a terminal, unless NO_COLOR is set.
#[test]
fn colours() {
    let (folder, _) = sample();
    let line = format!("{} report grain.y4m --brief", env!("CARGO_BIN_EXE_grain"));
    let shown = |no_color: Option<&str>| {
        let mut script = Command::new("script");
        script
            .args(["-qec", &line, "/dev/null"])
            .current_dir(folder);
        script
            .stdin(Stdio::null())
            .env("TERM", "xterm")
            .env_remove("NO_COLOR");
        no_color.map(|value| script.env("NO_COLOR", value));
        let run = script.output().unwrap();
        assert!(run.status.success());
        String::from_utf8(run.stdout).unwrap()
    };
    assert!(shown(None).contains("\x1b["));
    assert!(!shown(Some("1")).contains("\x1b["));
}

#[test]
fn completions_and_the_manual_page() {
    let folder = folder("help");
    for (shell, word) in [
        ("bash", "complete -F"),
        ("zsh", "#compdef grain"),
        ("fish", "complete -c grain"),
    ] {
        let words = String::from_utf8(written(&folder, &["completions", shell])).unwrap();
        assert!(
            words.contains(word)
                && ["denoised", "active", "inter"]
                    .iter()
                    .all(|option| words.contains(option)),
            "{shell}: {words}"
        );
    }
    let page = String::from_utf8(written(&folder, &["man"])).unwrap();
    assert!(page.starts_with(".TH GRAIN 1"));
    for option in [
        "denoised", "active", "from", "every", "frames", "brief", "json", "plot", "force",
        "threads", "format", "frame", "output",
    ] {
        assert!(
            page.contains(&format!("\\fB\\-\\-{option}\\fR")),
            "{option}: {page}"
        );
    }
    assert!(
        page.contains("\\fB\\-o\\fR, \\fB\\-\\-output\\fR \\fIOUT\\fR"),
        "{page}"
    );
    assert!(page.contains("4:4:4 [default: 4:2:0]"), "{page}");
    assert!(
        !page.contains("\n'"),
        "no line that roff would take for a request"
    );
}
