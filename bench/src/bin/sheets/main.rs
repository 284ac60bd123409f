//! Writes sheets into a folder, the same ones each time: those that are measured, or random ones to compare outputs by.

mod calls;
mod data;
mod linear;
mod random;
mod rng;
mod spoiled;
mod stock;
mod text;

use rng::Rng;
use std::path::Path;
use std::process::ExitCode;
use std::{env, fs, io};

const USAGE: &str = "\
usage: sheets measured FOLDER             the sheets that are measured
       sheets random FOLDER COUNT SEED    COUNT random sheets";

const WORKED: &str = "\
tag,pump,0000
page,0,0,1122334400000000
on
send,050000
send,1d1122334400000000
send,40040000000000000000
send,60000000000000000000
off
";

fn main() -> ExitCode {
    let args: Vec<String> = env::args().skip(1).collect();
    let args: Vec<&str> = args.iter().map(String::as_str).collect();
    let done = match args[..] {
        ["measured", folder] => measured(Path::new(folder)),
        ["random", folder, count, seed] => match (count.parse(), seed.parse()) {
            (Ok(count), Ok(seed)) => random(Path::new(folder), count, seed),
            _ => return usage(),
        },
        _ => return usage(),
    };
    match done {
        Ok(()) => ExitCode::SUCCESS,
        Err(why) => {
            eprintln!("sheets: {why}");
            ExitCode::FAILURE
        }
    }
}

fn usage() -> ExitCode {
    eprintln!("{USAGE}");
    ExitCode::from(2)
}

fn measured(folder: &Path) -> io::Result<()> {
    let write = |name: &str, text: &str| fs::write(folder.join(format!("{name}.sheet")), text);
    let data = data::largest();
    write("worked", WORKED)?;
    write("data", &data)?;
    write("stock", &stock::largest())?;
    write("stock-short", &stock::short())?;
    for (name, text) in linear::in_lines(&data).into_iter().chain(linear::in_tags()) {
        write(&name, &text)?;
    }
    Ok(())
}

fn random(folder: &Path, count: u64, seed: u64) -> io::Result<()> {
    for n in 0..count {
        let mut rng = Rng::new(seed.wrapping_mul(1_000_003).wrapping_add(n));
        let sheet = random::sheet(&mut rng);
        fs::write(folder.join(format!("{n:05}.sheet")), sheet)?;
    }
    Ok(())
}
