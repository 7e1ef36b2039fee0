//! `orders DIR`: writes the sample orders as DIR/NAME.order, and DIR/PRINTED.txt with what the hall
//! printer prints for each, by the second program.

use second::hall;
use second::inputs::samples::{self, Sample};
use std::fs;
use std::io;
use std::path::Path;
use std::process::ExitCode;

/// A sample's part of the table: a line with its name and size, then the printer's lines.
fn entry(sample: &Sample) -> String {
    let printed = hall::printed(&sample.file);
    format!("== {}.order, {} bytes\n{printed}", sample.name, sample.file.len())
}

fn write_all(directory: &Path) -> io::Result<()> {
    fs::create_dir_all(directory)?;
    let samples = samples::all();
    for sample in &samples {
        fs::write(directory.join(format!("{}.order", sample.name)), &sample.file)?;
    }
    let table: String = samples.iter().map(entry).collect();
    fs::write(directory.join("PRINTED.txt"), table)
}

fn main() -> ExitCode {
    let Some(directory) = std::env::args().nth(1) else {
        eprintln!("orders DIR");
        return ExitCode::from(2);
    };
    match write_all(Path::new(&directory)) {
        Ok(()) => ExitCode::SUCCESS,
        Err(wrong) => {
            eprintln!("{directory}: {wrong}");
            ExitCode::FAILURE
        }
    }
}
