//! Wall time of programs on one sheet, process start included. Each is started so many times, in turn with the others.
//! Prints the best and the median in microseconds, a line for each program.

use std::process::{Command, ExitCode, Stdio};
use std::time::Instant;
use std::{env, io};

fn main() -> ExitCode {
    let args: Vec<String> = env::args().skip(1).collect();
    let [runs, sheet, programs @ ..] = args.as_slice() else {
        return usage();
    };
    match runs.parse() {
        Ok(runs) if runs > 0 && !programs.is_empty() => report(runs, sheet, programs),
        _ => usage(),
    }
}

fn usage() -> ExitCode {
    eprintln!("usage: stopwatch RUNS SHEET PROGRAM...");
    ExitCode::from(2)
}

fn report(runs: usize, sheet: &str, programs: &[String]) -> ExitCode {
    let mut times = vec![Vec::new(); programs.len()];
    for _ in 0..runs {
        for (program, times) in programs.iter().zip(&mut times) {
            match microseconds(program, sheet) {
                Ok(time) => times.push(time),
                Err(why) => {
                    eprintln!("stopwatch: {program}: {why}");
                    return ExitCode::FAILURE;
                }
            }
        }
    }
    for mut times in times {
        times.sort_unstable();
        println!("{} {}", times[0], times[times.len() / 2]);
    }
    ExitCode::SUCCESS
}

fn microseconds(program: &str, sheet: &str) -> io::Result<u128> {
    let mut command = Command::new(program);
    command
        .arg(sheet)
        .stdin(Stdio::null())
        .stdout(Stdio::null());
    let start = Instant::now();
    let status = command.status()?;
    let time = start.elapsed().as_micros();
    if !status.success() {
        return Err(io::Error::other(format!("{status}")));
    }
    Ok(time)
}
