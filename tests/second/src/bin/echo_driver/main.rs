//! The second program as a driver, so that the comparison itself can be tried.
//!
//! `echo_driver` answers as the second program does. `echo_driver --fault NAME` answers one thing
//! wrong; `echo_driver --faults` lists the names, each with a floor that must notice.

mod faults;

use faults::Fault;
use second::wire::{answers, frame};
use std::io::{self, BufReader, BufWriter, Write};
use std::process::ExitCode;

fn list() -> ExitCode {
    for fault in &faults::ALL {
        println!("{} {}", fault.name, fault.floor);
    }
    ExitCode::SUCCESS
}

/// Answers until the input ends. The output is flushed when no request is waiting.
fn serve(fault: Option<&Fault>) -> io::Result<()> {
    let mut input = BufReader::new(io::stdin().lock());
    let mut output = BufWriter::new(io::stdout().lock());
    loop {
        let request = match frame::read_frame(&mut input) {
            Ok(request) => request,
            Err(end) if end.kind() == io::ErrorKind::UnexpectedEof => return Ok(()),
            Err(wrong) => return Err(wrong),
        };
        let answer = answers::answer(&request).ok_or(io::ErrorKind::InvalidData)?;
        let answer = match fault {
            Some(fault) => fault.spoilt(&request, answer).ok_or(io::ErrorKind::Other)?,
            None => answer,
        };
        frame::write_frame(&mut output, &answer)?;
        if input.buffer().is_empty() {
            output.flush()?;
        }
    }
}

fn main() -> ExitCode {
    let words: Vec<String> = std::env::args().skip(1).collect();
    let words: Vec<&str> = words.iter().map(String::as_str).collect();
    let fault = match words[..] {
        [] => None,
        ["--faults"] => return list(),
        ["--fault", name] => match faults::named(name) {
            Some(fault) => Some(fault),
            None => return ExitCode::from(2),
        },
        _ => return ExitCode::from(2),
    };
    match serve(fault) {
        Ok(()) => ExitCode::SUCCESS,
        Err(_) => ExitCode::FAILURE,
    }
}
