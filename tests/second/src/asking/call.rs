//! How a program that asks a driver is called: `[OPTION N] [--seed S] PART.. -- DRIVER [ARGS..]`.

use super::session::Session;
use std::process::ExitCode;
use std::str::FromStr;

/// What differs from one such program to another.
pub struct Call<P> {
    pub usage: &'static str,
    /// The option for the number of cases, and that number where nothing is said.
    pub cases: (&'static str, usize),
    /// What a part is called, and the part of a name.
    pub part: (&'static str, fn(&str) -> Option<P>),
}

/// What the command line asks for.
pub struct Options<P> {
    pub cases: usize,
    pub seed: u64,
    pub parts: Vec<P>,
    pub driver: Vec<String>,
}

impl<P> Call<P> {
    /// This process's options, and a session with its driver. What is wrong with either is said on
    /// standard error, and the code to end with is given.
    pub fn begin(&self) -> Result<(Options<P>, Session), ExitCode> {
        let options = self
            .options(std::env::args().skip(1))
            .map_err(|wrong| said(format!("{wrong}\n{}", self.usage)))?;
        let session = Session::start(&options.driver, options.cases, options.seed)
            .map_err(|wrong| said(format!("the driver doesn't start: {wrong}")))?;
        Ok((options, session))
    }

    fn options(&self, mut words: impl Iterator<Item = String>) -> Result<Options<P>, String> {
        let (option, cases) = self.cases;
        let mut options = Options { cases, seed: 1, parts: Vec::new(), driver: Vec::new() };
        while let Some(word) = words.next() {
            match word.as_str() {
                name if name == option => options.cases = number(words.next())?,
                "--seed" => options.seed = number(words.next())?,
                "--" => options.driver.extend(words.by_ref()),
                name => options.parts.push(self.part(name)?),
            }
        }
        if options.parts.is_empty() || options.driver.is_empty() {
            return Err(format!("a {} and a driver are wanted", self.part.0));
        }
        Ok(options)
    }

    fn part(&self, name: &str) -> Result<P, String> {
        let (called, named) = self.part;
        named(name).ok_or_else(|| format!("no {called} is named {name}"))
    }
}

/// The code that a program ends with.
pub fn ended(all_passed: bool) -> ExitCode {
    if all_passed {
        ExitCode::SUCCESS
    } else {
        ExitCode::FAILURE
    }
}

fn said(wrong: String) -> ExitCode {
    eprintln!("{wrong}");
    ExitCode::from(2)
}

fn number<T: FromStr>(word: Option<String>) -> Result<T, String> {
    let word = word.ok_or("a number is missing")?;
    word.parse().map_err(|_| format!("{word} is no number"))
}
