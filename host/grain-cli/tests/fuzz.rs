//! Mutated clips and records for a while: each run ends in time with a report or with one line that says why not, and
//! leaves nothing half-written.
//!
//!     GRAIN_FUZZ_SECONDS=60 GRAIN_FUZZ_SEED=7 cargo test --release --test fuzz
//!
//! Half of the time goes to a fixed seed and half to the day's, or to the one that is given. On a failure the files are
//! kept, and their folder, the words of the run and the seed are printed.

mod common;

use common::{Planes, clip, folder, shapes};
use std::env;
use std::fs;
use std::path::Path;
use std::process::{Command, ExitCode, Output, Stdio};
use std::time::{Duration, Instant, SystemTime, UNIX_EPOCH};

const FIXED: u64 = 1;
/// What a run may take.
const PATIENCE: Duration = Duration::from_secs(20);

/// xorshift*: the same numbers from the same seed.
struct Dice(u64);

impl Dice {
    fn new(seed: u64) -> Self {
        let mut dice = Dice(seed.wrapping_mul(0x9e37_79b9_7f4a_7c15) | 1);
        for _ in 0..8 {
            dice.below(2);
        }
        dice
    }

    fn below(&mut self, end: usize) -> usize {
        self.0 ^= self.0 >> 12;
        self.0 ^= self.0 << 25;
        self.0 ^= self.0 >> 27;
        let high = self.0.wrapping_mul(0x2545_f491_4f6c_dd1d) >> 33;
        high as usize % end.max(1)
    }

    fn pick<'a, T: ?Sized>(&mut self, of: &[&'a T]) -> &'a T {
        of[self.below(of.len())]
    }
}

/// Words that a header may have, most of them wrong.
const WORDS: [&str; 28] = [
    "W16",
    "W0",
    "W-1",
    "W4097",
    "W99999999999999999999",
    "W",
    "Wide",
    "H9",
    "H0",
    "H4096",
    "C420",
    "C420p10",
    "C444p12",
    "C422",
    "Cmono",
    "Cmono12",
    "C420p16",
    "C411",
    "C",
    "It",
    "Ip",
    "F25:1",
    "A1:1",
    "XYSCSS=444",
    "XYSCSS=",
    "X",
    "\u{e9}",
    "FRAME",
];

/// A record that passes.
const RECORD: &str = r#"{ "apply_grain": true, "update_grain": true, "num_y_points": 2, "point_y_value": [ 1, 20 ],
"point_y_scaling": [ 9, 60 ], "grain_scaling": 8, "ar_coeff_shift": 7, "grain_seed": 4000 }"#;

/// A whole clip, of any shape and up to five frames.
fn whole(dice: &mut Dice) -> Vec<u8> {
    let (width, height) = (1 + dice.below(20), 1 + dice.below(20));
    let shapes: Vec<_> = shapes(width, height).collect();
    let shape = shapes[dice.below(shapes.len())];
    let frame = |_| Planes::random(shape, dice.below(1000) as u64);
    let frames: Vec<Planes> = (0..1 + (width * height) % 5).map(frame).collect();
    clip(&frames)
}

/// One change of a clip.
fn change(dice: &mut Dice, bytes: &mut Vec<u8>) {
    let head = bytes.iter().position(|&byte| byte == b'\n').unwrap_or(0);
    let any = dice.below(bytes.len());
    match dice.below(10) {
        0 => bytes.truncate(any),
        1 => drop(bytes.drain(any..(any + 1 + dice.below(40)).min(bytes.len()))),
        2 => {
            let byte = dice.below(256) as u8;
            bytes.insert(any, byte);
        }
        3 if !bytes.is_empty() => bytes[any] = dice.below(256) as u8,
        4 if !bytes.is_empty() => bytes[any] ^= 1 << dice.below(8),
        5 => {
            let at = dice.below(head + 1);
            let word = format!(" {} ", dice.pick(&WORDS));
            drop(bytes.splice(at..at, word.bytes()));
        }
        6 => {
            let words = String::from_utf8_lossy(&bytes[..head]).to_string();
            let mut words: Vec<&str> = words.split(' ').collect();
            let at = dice.below(words.len());
            words[at] = dice.pick(&WORDS);
            drop(bytes.splice(..head, words.join(" ").bytes()));
        }
        7 => {
            let (from, to) = (any, (any + dice.below(200)).min(bytes.len()));
            let piece = bytes[from..to].to_vec();
            let at = dice.below(bytes.len());
            drop(bytes.splice(at..at, piece));
        }
        8 => bytes.extend_from_slice(b"FRAME\n"),
        _ => bytes.resize(bytes.len() + dice.below(300), 0xff),
    }
}

/// A rectangle that may fit, or auto.
fn active(dice: &mut Dice) -> String {
    match dice.below(2) {
        0 => "auto".to_string(),
        _ => [4, 4, 12, 12]
            .map(|end| dice.below(end).to_string())
            .join(","),
    }
}

/// The words of a run.
fn words(dice: &mut Dice) -> Vec<String> {
    if dice.below(8) == 0 {
        let words = "header params.json --json -o out.bin --format mono --frame other";
        let words = words.split(' ').map(String::from);
        return words.take([2, 3, 5, 7, 9][dice.below(5)]).collect();
    }
    let mut words: Vec<String> = if dice.below(4) == 0 {
        vec!["denoise".into(), "clip.y4m".into(), "out.y4m".into()]
    } else {
        let mut words = vec!["report".into(), "clip.y4m".into()];
        if dice.below(3) == 0 {
            words.extend(["--denoised".into(), "copy.y4m".into()]);
        }
        if dice.below(4) == 0 {
            words.extend(["--active".into(), active(dice)]);
        }
        if dice.below(2) == 0 {
            words.push("--json".into());
        }
        if dice.below(3) == 0 {
            words.push("--brief".into());
        }
        if dice.below(8) == 0 {
            words.extend(["--plot".into(), "out.svg".into()]);
        }
        if dice.below(4) == 0 {
            words.extend(["--from".into(), dice.below(4).to_string()]);
        }
        if dice.below(4) == 0 {
            words.extend(["--every".into(), (1 + dice.below(3)).to_string()]);
        }
        words
    };
    if dice.below(4) == 0 {
        words.extend(["--frames".into(), (1 + dice.below(3)).to_string()]);
    }
    words.extend(["--threads".into(), "1".into()]);
    words
}

/// Runs the command, and ends it if it takes too long.
fn run(folder: &Path, words: &[String]) -> Result<Output, String> {
    let mut child = Command::new(env!("CARGO_BIN_EXE_grain"))
        .current_dir(folder)
        .args(words)
        .stdin(Stdio::null())
        .stdout(fs::File::create(folder.join("stdout")).unwrap())
        .stderr(fs::File::create(folder.join("stderr")).unwrap())
        .spawn()
        .map_err(|error| error.to_string())?;
    let began = Instant::now();
    let mut pause = Duration::from_micros(200);
    let status = loop {
        match child.try_wait().map_err(|error| error.to_string())? {
            Some(status) => break status,
            None if began.elapsed() > PATIENCE => {
                let _ = child.kill();
                let _ = child.wait();
                return Err(format!("no end after {PATIENCE:?}"));
            }
            None => std::thread::sleep(pause),
        }
        pause = (2 * pause).min(Duration::from_millis(20));
    };
    let read = |name| fs::read(folder.join(name)).unwrap();
    Ok(Output {
        status,
        stdout: read("stdout"),
        stderr: read("stderr"),
    })
}

/// What a run may write.
const OUTPUTS: [&str; 3] = ["out.y4m", "out.svg", "out.bin"];

/// What is wrong with a run, if anything is.
fn wrong(folder: &Path, words: &[String]) -> Result<bool, String> {
    for name in OUTPUTS {
        let _ = fs::remove_file(folder.join(name));
    }
    let run = run(folder, words)?;
    let said = String::from_utf8(run.stderr).map_err(|_| "words that are no UTF-8")?;
    let shown = String::from_utf8(run.stdout).map_err(|_| "a report that is no UTF-8")?;
    let lines: Vec<&str> = said.lines().collect();
    let good = match run.status.code() {
        Some(0) => {
            lines.is_empty()
                || matches!(lines[..], [line] if line.ends_with("is taken as one picture"))
        }
        Some(1) => {
            !lines.is_empty()
                && lines.iter().all(|line| line.starts_with("grain: "))
                && lines.len() <= 2
        }
        _ => false,
    };
    if !good {
        return Err(format!("{}, saying {said:?}", run.status));
    }
    let passed = run.status.success();
    let json = words.iter().any(|word| word == "--json");
    if json {
        let whole = |line: &str| serde_json::from_str::<serde_json::Value>(line).is_ok();
        if !shown.lines().all(whole) || !(shown.is_empty() || shown.ends_with('\n')) {
            return Err("a line that is no JSON".to_string());
        }
    } else if let Some(line) = shown.lines().find(|line| line.chars().count() > 80) {
        return Err(format!("more than 80 columns: {line:?}"));
    }
    let asked = OUTPUTS
        .into_iter()
        .find(|name| words.iter().any(|word| word == name));
    for entry in fs::read_dir(folder).unwrap() {
        let name = entry.unwrap().file_name().into_string().unwrap();
        let known = ["clip.y4m", "copy.y4m", "params.json", "stdout", "stderr"];
        let known = known.contains(&&name[..]);
        if !known && !(passed && asked == Some(&name)) {
            return Err(format!("{name} is left"));
        }
    }
    match asked {
        Some(name) if passed && !folder.join(name).exists() => Err(format!("{name} isn't there")),
        Some("out.y4m") if passed && !words.iter().any(|word| word == "--frames") => {
            let [read, written] =
                ["clip.y4m", "out.y4m"].map(|name| fs::metadata(folder.join(name)).unwrap().len());
            // A frame's own words are trimmed.
            (written <= read)
                .then_some(true)
                .ok_or(format!("{written} bytes of {read}"))
        }
        _ => Ok(passed),
    }
}

/// Runs for so long from a seed; false after a failure.
fn round(seed: u64, long: Duration) -> bool {
    let folder = folder(&format!("fuzz-{seed}"));
    let mut dice = Dice::new(seed);
    let (began, mut runs, mut passed) = (Instant::now(), 0, 0);
    while began.elapsed() < long {
        let mut bytes = whole(&mut dice);
        fs::write(folder.join("copy.y4m"), &bytes).unwrap();
        for _ in 0..dice.below(4) {
            change(&mut dice, &mut bytes);
        }
        fs::write(folder.join("clip.y4m"), &bytes).unwrap();
        let mut bytes = RECORD.into();
        for _ in 0..dice.below(4) {
            change(&mut dice, &mut bytes);
        }
        fs::write(folder.join("params.json"), &bytes).unwrap();
        let words = words(&mut dice);
        match wrong(&folder, &words) {
            Ok(accepted) => passed += usize::from(accepted),
            Err(what) => {
                let (folder, words) = (folder.display(), words.join(" "));
                println!(
                    "fuzz: {what}\n  GRAIN_FUZZ_SEED={seed}, run {runs}\n  cd {folder}; grain {words}"
                );
                return false;
            }
        }
        runs += 1;
    }
    println!("fuzz: seed {seed}: {runs} runs, {passed} accepted, none wrong");
    let both = passed > 0 && passed < runs;
    let _ = fs::remove_dir_all(&folder);
    both || runs < 100
}

fn number(name: &str) -> Option<u64> {
    env::var(name).ok()?.parse().ok()
}

fn main() -> ExitCode {
    let seconds = number("GRAIN_FUZZ_SECONDS").unwrap_or(2);
    let day = || {
        SystemTime::now()
            .duration_since(UNIX_EPOCH)
            .unwrap()
            .as_secs()
            / 86400
    };
    let seeds = [FIXED, number("GRAIN_FUZZ_SEED").unwrap_or_else(day)];
    println!(
        "fuzz: {seconds} seconds, the fixed seed {} and the day's {}",
        seeds[0], seeds[1]
    );
    let long = Duration::from_secs(seconds) / 2;
    match seeds.into_iter().all(|seed| round(seed, long)) {
        true => ExitCode::SUCCESS,
        false => ExitCode::FAILURE,
    }
}
