//! The listing of files of any size: `./cedarlash sweep -g LIST -a BASES -b STREAM...`. [`usage::HELP`] says the rest.
#![forbid(unsafe_code)]

mod job;
mod progress;
mod usage;

use job::Trouble;
use std::process::ExitCode;
use usage::Asked;

fn main() -> ExitCode {
    let words = std::env::args_os().skip(1).collect();
    let done = match usage::read(words) {
        Err(why) => {
            eprintln!("cedarlash sweep: {why}\n{}", usage::SHORT);
            return ExitCode::from(2);
        }
        Ok(Asked::Help) => job::help(),
        Ok(Asked::Job(job)) => job::run(&job),
    };
    match done {
        Ok(true) => ExitCode::SUCCESS,
        Ok(false) => ExitCode::from(1),
        Err(Trouble::Silent) => ExitCode::from(2),
        Err(Trouble::Said(why)) => {
            eprintln!("cedarlash sweep: {why}");
            ExitCode::from(2)
        }
    }
}
