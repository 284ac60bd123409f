//! The tray by hand, where every tag reads every frame for itself, bit by bit.

use handtray::ears::Bitwise;
use handtray::program::run_program;
use std::process::ExitCode;

fn main() -> ExitCode {
    run_program::<Bitwise>("bitwise")
}
