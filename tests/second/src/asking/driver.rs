//! The driver's process, asked in batches.
//!
//! One thread writes requests and another reads answers, so neither pipe can fill up and stop both
//! sides. A batch is announced to the reading thread before it is written; then whatever the driver
//! has answered is always being taken from it.

use crate::wire::frame;
use std::io::{BufReader, Read, Write};
use std::process::{Child, ChildStdin, Command, Stdio};
use std::sync::atomic::{AtomicU64, Ordering};
use std::sync::mpsc::{channel, Receiver, Sender};
use std::sync::{Arc, Mutex};
use std::thread;
use std::time::{Duration, Instant};

/// A request, and the answer that the second program gives to it.
pub struct Case {
    pub request: Vec<u8>,
    pub ours: Vec<u8>,
}

/// A case that the driver answers otherwise.
pub struct Difference {
    pub case: Case,
    pub theirs: Vec<u8>,
}

/// What became of a batch.
pub struct Outcome {
    pub differences: Vec<Difference>,
    /// Why no more answers came, if so.
    pub ended: Option<String>,
}

/// What the ticker shows, and by what it sees that the driver stands still.
#[derive(Default)]
pub struct Progress {
    pub title: Mutex<String>,
    asked: AtomicU64,
    answered: AtomicU64,
}

const BATCH_BYTES: usize = 1 << 16;
const BATCHES_UNDER_WAY: usize = 4;
const DIFFERENCES_KEPT: usize = 5;
const TICK: Duration = Duration::from_secs(2);
const PATIENCE: Duration = Duration::from_secs(120);
const FAREWELL: Duration = Duration::from_secs(20);

pub struct Driver {
    child: Arc<Mutex<Child>>,
    input: Option<ChildStdin>,
    to_reader: Sender<Vec<Case>>,
    outcomes: Receiver<Outcome>,
    progress: Arc<Progress>,
    frames: Vec<u8>,
    cases: Vec<Case>,
    under_way: usize,
}

impl Driver {
    pub fn start(command: &[String]) -> std::io::Result<Driver> {
        let mut child = Command::new(&command[0])
            .args(&command[1..])
            .stdin(Stdio::piped())
            .stdout(Stdio::piped())
            .spawn()?;
        let input = child.stdin.take();
        let output = child.stdout.take().expect("the output is piped");
        let (to_reader, batches) = channel();
        let (to_session, outcomes) = channel();
        let progress = Arc::new(Progress::default());
        let child = Arc::new(Mutex::new(child));
        let shown = progress.clone();
        thread::spawn(move || read_answers(output, batches, to_session, &shown));
        let (shown, watched) = (progress.clone(), child.clone());
        thread::spawn(move || tick(&shown, &watched));
        let (frames, cases, under_way) = (Vec::new(), Vec::new(), 0);
        Ok(Driver { child, input, to_reader, outcomes, progress, frames, cases, under_way })
    }

    pub fn entitle(&self, title: String) {
        *self.progress.title.lock().unwrap() = title;
    }

    /// Takes a case up; hands back what is known of earlier batches.
    pub fn ask(&mut self, case: Case) -> Vec<Outcome> {
        let frame = &mut self.frames;
        frame::write_frame(frame, &case.request).expect("memory takes all");
        self.cases.push(case);
        if self.frames.len() < BATCH_BYTES {
            return Vec::new();
        }
        self.send();
        self.settle(BATCHES_UNDER_WAY)
    }

    /// Sends what is left and waits until all is answered.
    pub fn wait(&mut self) -> Vec<Outcome> {
        if !self.cases.is_empty() {
            self.send();
        }
        self.settle(0)
    }

    fn send(&mut self) {
        let cases = std::mem::take(&mut self.cases);
        let frames = std::mem::take(&mut self.frames);
        self.progress.asked.fetch_add(cases.len() as u64, Ordering::Relaxed);
        self.under_way += 1;
        // Either failure means that the driver has ended, which the reading thread reports.
        let _ = self.to_reader.send(cases);
        let _ = self.input.as_mut().map(|input| input.write_all(&frames));
    }

    fn settle(&mut self, allowed: usize) -> Vec<Outcome> {
        let mut settled = Vec::new();
        while self.under_way > allowed {
            self.under_way -= 1;
            let lost = |_| Outcome { differences: Vec::new(), ended: Some("no answers".into()) };
            settled.push(self.outcomes.recv().unwrap_or_else(lost));
        }
        settled
    }

    /// Closes the driver's input and waits for it; `Ok` if it ends with 0.
    pub fn close(&mut self) -> Result<(), String> {
        self.input = None;
        let since = Instant::now();
        let mut child = self.child.lock().unwrap();
        while since.elapsed() < FAREWELL {
            match child.try_wait().map_err(|wrong| wrong.to_string())? {
                Some(status) if status.success() => return Ok(()),
                Some(status) => return Err(format!("the driver ended with {status}")),
                None => thread::sleep(Duration::from_millis(5)),
            }
        }
        let _ = child.kill();
        Err("the driver doesn't end when its input does".into())
    }
}

impl Drop for Driver {
    /// A driver that is no longer wanted doesn't outlive the comparison.
    fn drop(&mut self) {
        let mut child = self.child.lock().unwrap();
        let _ = child.kill();
        let _ = child.wait();
    }
}

fn read_answers(
    output: impl Read,
    batches: Receiver<Vec<Case>>,
    outcomes: Sender<Outcome>,
    progress: &Progress,
) {
    let mut output = BufReader::with_capacity(BATCH_BYTES, output);
    for batch in batches {
        let outcome = read_batch(&mut output, batch, progress);
        let over = outcome.ended.is_some();
        if outcomes.send(outcome).is_err() || over {
            return;
        }
    }
}

fn read_batch(output: &mut impl Read, batch: Vec<Case>, progress: &Progress) -> Outcome {
    let mut differences = Vec::new();
    for case in batch {
        let theirs = match frame::read_frame(output) {
            Ok(theirs) => theirs,
            Err(wrong) => {
                let ended = Some(format!("the driver gives no more answers: {wrong}"));
                return Outcome { differences, ended };
            }
        };
        progress.answered.fetch_add(1, Ordering::Relaxed);
        if theirs != case.ours && differences.len() < DIFFERENCES_KEPT {
            differences.push(Difference { case, theirs });
        }
    }
    Outcome { differences, ended: None }
}

/// Shows progress, and ends a driver that owes an answer for too long.
fn tick(progress: &Progress, child: &Mutex<Child>) {
    let (mut last, mut since) = (0, Instant::now());
    loop {
        thread::sleep(TICK);
        let answered = progress.answered.load(Ordering::Relaxed);
        eprintln!("  … {}: {answered} answers", progress.title.lock().unwrap());
        if answered != last || answered == progress.asked.load(Ordering::Relaxed) {
            (last, since) = (answered, Instant::now());
        } else if since.elapsed() > PATIENCE {
            eprintln!("  … no answer for {} s: the driver is stopped", PATIENCE.as_secs());
            let _ = child.lock().unwrap().kill();
        }
    }
}
