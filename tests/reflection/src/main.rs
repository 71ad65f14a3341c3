//! Prints what `reflection::told` tells of the repository; docs/changes/A3.md says under which condition each line is
//! reached.

use std::path::Path;
use std::process::ExitCode;

const REPOSITORY: &str = concat!(env!("CARGO_MANIFEST_DIR"), "/../..");

fn main() -> ExitCode {
    match reflection::told(Path::new(REPOSITORY)) {
        Ok(lines) => {
            print!("{lines}");
            ExitCode::SUCCESS
        }
        Err(why) => {
            eprintln!("reflection: {why}");
            ExitCode::FAILURE
        }
    }
}
