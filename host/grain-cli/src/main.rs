//! The command `grain`: a clip's film-grain figures, its denoised copy, and the grain part of a frame header.

mod active;
mod args;
mod clip;
mod denoise;
mod figures;
mod files;
mod header;
mod json;
mod man;
mod noise;
mod output;
mod plot;
mod pool;
mod progress;
mod reel;
mod report;
mod say;
mod still;
mod stop;
mod summary;
mod table;
mod tally;
mod verdict;
mod window;
mod words;

use anyhow::{Context, Result};
use args::{Arguments, Command};
use clap::{CommandFactory, Parser};
use std::io::{self, Write};
use std::process::ExitCode;

fn main() -> ExitCode {
    match run(Arguments::parse()) {
        Ok(()) => ExitCode::SUCCESS,
        Err(error) => {
            say::say(format!("{error:#}"));
            ExitCode::FAILURE
        }
    }
}

fn run(arguments: Arguments) -> Result<()> {
    if let Some(threads) = arguments.threads {
        rayon::ThreadPoolBuilder::new()
            .num_threads(threads.into())
            .build_global()
            .with_context(|| format!("{threads} threads can't be had"))?;
    }
    match arguments.command {
        Command::Report(asked) => {
            stop::watch()?;
            report::run(&asked)
        }
        Command::Denoise(asked) => {
            stop::watch()?;
            denoise::run(&asked)
        }
        Command::Header(asked) => {
            stop::watch()?;
            header::run(&asked)
        }
        Command::Completions(asked) => {
            let mut words = Vec::new();
            clap_complete::generate(asked.shell, &mut Arguments::command(), "grain", &mut words);
            print(&words)
        }
        Command::Man => print(man::page(&Arguments::command()).as_bytes()),
    }
}

fn print(words: &[u8]) -> Result<()> {
    io::stdout()
        .write_all(words)
        .context("standard output can't be written")
}
