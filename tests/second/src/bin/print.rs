//! `print FILE`: what the hall printer prints for an order file, by the second program.

use std::process::ExitCode;

fn main() -> ExitCode {
    let Some(name) = std::env::args().nth(1) else {
        eprintln!("print FILE");
        return ExitCode::from(2);
    };
    match std::fs::read(&name) {
        Ok(file) => {
            print!("{}", second::hall::printed(&file));
            ExitCode::SUCCESS
        }
        Err(wrong) => {
            eprintln!("{name}: {wrong}");
            ExitCode::FAILURE
        }
    }
}
