//! The tray by hand, where a frame is read once for all tags, by a table.

use handtray::ears::Tabled;
use handtray::program::run_program;
use std::process::ExitCode;

fn main() -> ExitCode {
    run_program::<Tabled>("tabled")
}
