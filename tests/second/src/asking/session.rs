//! One comparison: trials asked through the driver, counted and judged.

use super::driver::{Case, Driver, Outcome};
use super::report;
use super::tally::Tally;
use crate::inputs::dice::Dice;
use crate::wire::frame::{Cursor, Payload};
use crate::wire::{answers, calls};

/// Enough differences were found, or the driver has ended.
pub struct Stopped;

pub type Go = Result<(), Stopped>;

/// After so many differences the comparison stops.
const DIFFERENCES: usize = 5;

/// Numbers that must come up under a subject.
pub type Needs = &'static [(&'static str, &'static [u64])];

pub struct Session {
    driver: Driver,
    /// The number of cases in a random trial.
    pub cases: usize,
    seed: u64,
    floor: &'static str,
    trial: &'static str,
    tally: Tally,
    passed: usize,
    failed: usize,
    differences: usize,
    stopped: bool,
}

impl Session {
    /// Starts the driver; `cases` is the number of cases in a random trial.
    pub fn start(driver: &[String], cases: usize, seed: u64) -> std::io::Result<Session> {
        Ok(Session {
            driver: Driver::start(driver)?,
            cases,
            seed,
            floor: "driver",
            trial: "",
            tally: Tally::default(),
            passed: 0,
            failed: 0,
            differences: 0,
            stopped: false,
        })
    }

    /// A floor's trials, then the line of what it did and whether all that must come up did.
    pub fn floor(
        &mut self,
        name: &'static str,
        needs: Needs,
        trials: impl FnOnce(&mut Session) -> Go,
    ) -> Go {
        self.floor = name;
        self.tally = Tally::default();
        let went = trials(self);
        println!("{name}: {}", self.tally.line());
        went?;
        let missing: String = needs
            .iter()
            .map(|&(subject, numbers)| (subject, self.tally.missing(subject, numbers)))
            .filter(|(_, missing)| !missing.is_empty())
            .map(|(subject, missing)| format!("never {subject} {missing:?} "))
            .collect();
        self.trial = "every code and place came up";
        self.judge("", &missing);
        Ok(())
    }

    /// One named comparison; it counts as a test.
    pub fn trial(
        &mut self,
        name: &'static str,
        cases: impl FnOnce(&mut Session, &mut Dice) -> Go,
    ) -> Go {
        self.trial = name;
        self.driver.entitle(format!("{}, {name}", self.floor));
        let (before, differed) = (self.tally.cases, self.differences);
        let mut dice = Dice::named(self.seed, name);
        let went = cases(self, &mut dice).and_then(|()| self.wait());
        let asked = self.tally.cases - before;
        let wrong = if self.differences > differed {
            "differs"
        } else if self.stopped {
            "the driver ended"
        } else if asked == 0 {
            "nothing ran"
        } else {
            ""
        };
        self.judge(&format!(" ({asked} cases)"), wrong);
        went
    }

    /// Counts the trial as passed where nothing is wrong.
    fn judge(&mut self, extent: &str, wrong: &str) {
        let title = format!("{}: {}{extent}", self.floor, self.trial);
        if wrong.is_empty() {
            self.passed += 1;
            println!("  ok    {title}");
        } else {
            self.failed += 1;
            println!("  FAIL  {title}: {wrong}");
        }
    }

    /// Asks both programs; hands back what the second one answers.
    pub fn ask(&mut self, request: Payload) -> Result<Vec<u8>, Stopped> {
        let request = request.0;
        let ours = answers::answer(&request).expect("the request has its form");
        self.count(request[0], &ours);
        let outcomes = self.driver.ask(Case { request, ours: ours.clone() });
        self.take(outcomes)?;
        Ok(ours)
    }

    /// Counts the code of an answer, and apart from it the code with a place above 0.
    fn count(&mut self, function: u8, ours: &[u8]) {
        self.tally.cases += 1;
        let mut cursor = Cursor(ours);
        let code = cursor.number().unwrap_or(0);
        match function {
            calls::CHECK => self.count_placed("check", "check with place", code, cursor),
            calls::FORM => self.count_placed("form", "form with place", code, cursor),
            calls::READ | calls::READ_BY_FIELDS => {
                self.count_placed(calls::name(function), "read with place", code, cursor);
            }
            calls::UNION | calls::SHARED | calls::INSERT => self.saw(calls::name(function), 0),
            _ => self.saw(calls::name(function), code),
        }
    }

    fn count_placed(
        &mut self,
        name: &'static str,
        placed: &'static str,
        code: u64,
        mut cursor: Cursor,
    ) {
        self.saw(name, code);
        if cursor.number().is_some_and(|place| place > 0) {
            self.saw(placed, code);
        }
    }

    /// How far the trial is, for whoever waits.
    pub fn show(&self, how_far: &str) {
        self.driver.entitle(format!("{}, {}, {how_far}", self.floor, self.trial));
    }

    /// Something on which the two programs agree and which is wrong all the same.
    pub fn wrong(&mut self, what: &str) -> Go {
        self.differences += 1;
        println!("WRONG in {}, {}: {what}", self.floor, self.trial);
        self.take(Vec::new())
    }

    pub fn saw(&mut self, subject: &'static str, number: u64) {
        self.tally.saw(subject, number);
    }

    fn wait(&mut self) -> Go {
        let outcomes = self.driver.wait();
        self.take(outcomes)
    }

    fn take(&mut self, outcomes: Vec<Outcome>) -> Go {
        for outcome in outcomes {
            let room = DIFFERENCES.saturating_sub(self.differences);
            for difference in outcome.differences.iter().take(room) {
                self.differences += 1;
                println!("{}", report::difference(self.floor, self.trial, difference));
            }
            if let Some(reason) = outcome.ended.filter(|_| !self.stopped) {
                println!("STOPPED in {}, {}: {reason}", self.floor, self.trial);
                self.stopped = true;
            }
        }
        if self.stopped || self.differences >= DIFFERENCES {
            return Err(Stopped);
        }
        Ok(())
    }

    /// How many differences were found, wrong things that both agree on among them.
    pub fn differences(&self) -> usize {
        self.differences
    }

    /// The last line; true if all passed.
    pub fn finish(&mut self) -> bool {
        (self.floor, self.trial) = ("driver", "ends with 0 when its input ends");
        if self.stopped || self.differences >= DIFFERENCES {
            println!("stopped early; seed {}", self.seed);
        } else {
            let wrong = self.driver.close().err().unwrap_or_default();
            self.judge("", &wrong);
        }
        println!("{} passed, {} failed", self.passed, self.failed);
        self.failed == 0 && self.passed > 0
    }
}
