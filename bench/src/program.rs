//! The program around a run: arguments, input, output, exit status.

use crate::ears::Ears;
use crate::run::run_sheet;
use std::error::Error;
use std::io::{self, Read, Write};
use std::process::ExitCode;
use std::{env, fs};

/// Runs the sheet that the command line names. Status 0 after its last line, 1 after a refusal or a fault.
pub fn run_program<E: Ears>(name: &str) -> ExitCode {
    match run_named::<E>(name) {
        Ok(()) => ExitCode::SUCCESS,
        Err(why) => {
            eprintln!("{name}: {why}");
            ExitCode::FAILURE
        }
    }
}

fn run_named<E: Ears>(name: &str) -> Result<(), Box<dyn Error>> {
    let args: Vec<String> = env::args().skip(1).collect();
    let sheet = match args.as_slice() {
        [help] if help == "--help" => {
            println!("usage: {name} [FILE]\nRuns a sheet from FILE, or from standard input.");
            return Ok(());
        }
        [] => read_stdin()?,
        [dash] if dash == "-" => read_stdin()?,
        [file] if !file.starts_with('-') => {
            fs::read(file).map_err(|e| format!("cannot read {file}: {e}"))?
        }
        _ => return Err(format!("usage: {name} [FILE]").into()),
    };
    let (text, stop) = run_sheet::<E>(&sheet);
    io::stdout().write_all(text.as_bytes())?;
    match stop {
        Some(stop) => Err(format!("line {}: {}", stop.line, stop.why).into()),
        None => Ok(()),
    }
}

fn read_stdin() -> io::Result<Vec<u8>> {
    let mut bytes = Vec::new();
    io::stdin().read_to_end(&mut bytes)?;
    Ok(bytes)
}
