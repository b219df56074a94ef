//! `ncl`: see `ncl help`.

use std::process::ExitCode;

fn main() -> ExitCode {
    ncl::output::live_on_a_full_file();
    match ncl::fresh::ensure() {
        Ok(()) => ExitCode::from(ncl::run(&std::env::args_os().collect::<Vec<_>>())),
        Err(status) => ExitCode::from(status),
    }
}
