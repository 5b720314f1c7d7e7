//! Times every call of the library beside the Rust's, in one run on the same planes, and writes docs/BENCHMARKS.md to its
//! standard output.

mod headers;
mod rectangles;
mod roots;

use compare::calls::{CALLS, Call};
use compare::clock;
use compare::input::{Input, Planes};
use compare::noise::Size;
use compare::scan;
use std::cell::RefCell;
use std::hint::black_box;
use std::process::Command;
use std::time::{Duration, Instant};

const USAGE: &str = "\
bench [--quick]

  --quick    512 x 512 alone, and no tables of rectangles and of growth";

const SIZES: [Size; 3] = [(512, 512), (1920, 1080), (4096, 4096)];
const GROWTH: [Size; 7] = [
    (64, 64),
    (128, 128),
    (256, 256),
    (512, 512),
    (1024, 1024),
    (2048, 2048),
    (4096, 4096),
];

/// The figures of a frame pair: what an encoder asks for once for a scan.
const FIGURES: [(&str, u64); 10] = [
    ("denoise_frame", 0),
    ("denoise_frame", 0),
    ("noise_estimate", 0),
    ("film_grain_probe", 0),
    ("chroma_noise_gate/cb", 100),
    ("chroma_noise_gate/cr", 100),
    ("fit_chroma_corr", 0),
    ("fit_ar_lag", 1),
    ("fit_ar_lag", 2),
    ("fit_ar_lag", 3),
];
const FIGURES_TARGET: f64 = 35.0;

/// One row of a table: the calls it makes, each with its number.
struct Row {
    name: String,
    calls: Vec<(&'static Call, u64)>,
    target: Option<f64>,
}

impl Row {
    fn has_planes(&self) -> bool {
        self.calls.iter().all(|(call, _)| !call.lent.is_empty())
    }
}

fn rows() -> Vec<Row> {
    let mut rows = Vec::new();
    for call in CALLS {
        for &(number, target) in call.timed {
            let name = match call.timed.len() {
                1 => call.name.to_string(),
                _ => format!("{}, lag {number}", call.name),
            };
            let calls = vec![(call, number)];
            rows.push(Row {
                name,
                calls,
                target,
            });
        }
    }
    let named = |name: &str| CALLS.iter().find(|call| call.name == name);
    let figures = FIGURES.map(|(name, number)| (named(name).expect("a call"), number));
    rows.push(Row {
        name: "all figures of a frame pair".into(),
        calls: figures.to_vec(),
        target: Some(FIGURES_TARGET),
    });
    rows
}

/// Short work is repeated until it takes about this long.
const TURN: Duration = Duration::from_millis(1);

/// The processor time of one of so many turns of `work`.
fn time(turns: u32, work: &mut dyn FnMut()) -> Duration {
    let start = clock::thread_time();
    for _ in 0..turns {
        work();
    }
    (clock::thread_time() - start) / turns
}

/// The best times of each of these works, taken in turn.
fn best<const N: usize>(works: &mut [&mut dyn FnMut(); N]) -> [Duration; N] {
    let start = Instant::now();
    let mut best = [Duration::MAX; N];
    let mut turns = [1; N];
    for round in 0..15 {
        for (i, work) in works.iter_mut().enumerate() {
            let once = time(turns[i], work).max(Duration::from_nanos(1));
            best[i] = best[i].min(once);
            turns[i] = (TURN.as_nanos() / once.as_nanos()) as u32 + 1;
        }
        if round >= 2 && start.elapsed() > Duration::from_secs(2) {
            break;
        }
    }
    best
}

fn ours(row: &Row, input: &RefCell<Input>, out: &mut Planes) {
    for &(call, number) in &row.calls {
        input.borrow_mut().number = number;
        black_box((call.ours)(&input.borrow(), out)).expect("an accepted call");
    }
}

fn rust(row: &Row, input: &RefCell<Input>, out: &mut Planes) {
    for &(call, number) in &row.calls {
        input.borrow_mut().number = number;
        black_box((call.rust)(&input.borrow(), out));
    }
}

fn milliseconds(time: Duration) -> String {
    let ms = time.as_secs_f64() * 1e3;
    match ms {
        100.0.. => format!("{ms:.0}"),
        1.0.. => format!("{ms:.2}"),
        0.001.. => format!("{ms:.4}"),
        _ => format!("{ms:.6}"),
    }
}

/// What a row writes to: planes of a frame's size, or a register.
fn destination(row: &Row, input: &RefCell<Input>) -> Planes {
    match row.calls[0].0.asks.bits {
        true => [vec![1], vec![], vec![]],
        false => input.borrow().destination.clone(),
    }
}

/// The time to copy a frame's planes, and their bytes.
fn copying(input: &Input) -> (Duration, usize) {
    let frame = &input.frames[0];
    let planes = [&frame.y, &frame.u, &frame.v];
    let mut copies = input.destination.clone();
    let [time] = best(&mut [&mut || {
        for (to, from) in copies.iter_mut().zip(planes) {
            black_box(to).copy_from_slice(black_box(from));
        }
    }]);
    (time, 2 * planes.map(Vec::len).iter().sum::<usize>())
}

fn table(size: Size, depth: u8) {
    let input = RefCell::new(scan::pair(size, depth));
    let (copy, bytes) = copying(&input.borrow());
    println!("\n## {} × {}, {depth} bits\n", size.0, size.1);
    println!(
        "Copying a frame's three planes ({:.1} MB) takes {} ms, {:.1} GB/s.\n",
        bytes as f64 / 1e6,
        milliseconds(copy),
        bytes as f64 / copy.as_secs_f64() / 1e9
    );
    println!("| call | ours, ms | Rust, ms | times as fast | aim | ours, in copies of a frame |");
    println!("|---|---:|---:|---:|---:|---:|");
    for row in rows() {
        let mut written = destination(&row, &input);
        let mut made = destination(&row, &input);
        let mut own = || ours(&row, &input, &mut written);
        let mut other = || rust(&row, &input, &mut made);
        let [a, b] = best(&mut [&mut own, &mut other]);
        let ratio = b.as_secs_f64() / a.as_secs_f64();
        let copies = a.as_secs_f64() / copy.as_secs_f64();
        println!(
            "| {} | {} | {} | {ratio:.1} | {} | {} |",
            row.name,
            milliseconds(a),
            milliseconds(b),
            shown(row.target.filter(|_| size == SIZES[2]), 1),
            shown(Some(copies).filter(|_| row.has_planes()), 2),
        );
    }
}

/// A number with so many places, or nothing.
fn shown(number: Option<f64>, places: usize) -> String {
    number.map_or(String::new(), |x| format!("{x:.places$}"))
}

/// Nanoseconds for a luma sample, at each size.
fn growth(depth: u8) {
    println!("\n## Growth: our nanoseconds for a luma sample, {depth} bits\n");
    let heads: Vec<String> = GROWTH.iter().map(|s| format!(" {}² |", s.0)).collect();
    println!("| call |{}", heads.concat());
    println!("|---|{}", "---:|".repeat(GROWTH.len()));
    let inputs = GROWTH.map(|size| RefCell::new(scan::pair(size, depth)));
    for row in rows().iter().filter(|row| row.has_planes()) {
        print!("| {} |", row.name);
        for (input, (w, h)) in inputs.iter().zip(GROWTH) {
            let mut out = destination(row, input);
            let [time] = best(&mut [&mut || ours(row, input, &mut out)]);
            print!(" {:.3} |", time.as_secs_f64() * 1e9 / (w * h) as f64);
        }
        println!();
    }
}

/// The first line that a program writes.
fn first_line(program: &str, word: &str) -> String {
    let run = Command::new(program).arg(word).output();
    let text = run.map_or(String::new(), |out| {
        String::from_utf8_lossy(&out.stdout).into_owned()
    });
    text.lines().next().unwrap_or("not found").to_string()
}

fn machine() -> String {
    let info = std::fs::read_to_string("/proc/cpuinfo").unwrap_or_default();
    let model = info.lines().find(|line| line.starts_with("model name"));
    let model = model.and_then(|line| line.split(": ").nth(1));
    let processors = std::thread::available_parallelism().map_or(1, usize::from);
    format!(
        "{}, {processors} processors; {}; {}",
        model.unwrap_or("an unknown processor"),
        first_line("rustc", "--version"),
        first_line("rt", "version")
    )
}

fn main() {
    let words: Vec<String> = std::env::args().skip(1).collect();
    let quick = match words.iter().map(String::as_str).collect::<Vec<_>>()[..] {
        [] => false,
        ["--quick"] => true,
        _ => {
            eprintln!("{USAGE}");
            std::process::exit(2);
        }
    };
    println!("# Benchmarks\n");
    println!("Written by `cargo run --release --bin bench` in host/, never by hand.\n");
    println!("Machine: {}.\n", machine());
    println!(
        "Ours is libgrain.a through the safe Rust crate, all questions asked; the Rust is that of oracle/, built with the same \
         profile. One thread, 4:2:0, whole frames, the same planes: a gradient under noise of about four 8-bit steps, and \
         its denoised copies. The two are timed in turn, and the best of each stands here: the \
         processor time of the thread, page faults included. The figures of a frame pair are both \
         frames denoised, the profile, the three gates, the chroma correlation and the fits of lags 1, 2 and 3. The Rust's \
         solver is handed a new `Vec` of `Vec`s each time, whose making is in its time; a register row is five steps."
    );
    for size in SIZES {
        for depth in [8, 10] {
            if !quick || size == SIZES[0] {
                table(size, depth);
            }
        }
    }
    headers::table();
    roots::table();
    if !quick {
        rectangles::tables(10);
        growth(10);
    }
}
