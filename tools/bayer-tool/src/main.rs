//! bayer-tool COMMAND ..: what the words ask for, or one line on standard error and a status other than 0.

use std::process::ExitCode;

fn main() -> ExitCode {
    match bayer_tool::run(std::env::args_os().skip(1)) {
        Ok(()) => ExitCode::SUCCESS,
        Err(problem) => {
            eprintln!("bayer-tool: {problem}");
            ExitCode::from(problem.status())
        }
    }
}
