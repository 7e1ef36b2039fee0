//! The comparison tried on the second program itself: it passes, and it notices every fault.

use std::process::{Command, Output};

const COMPARE: &str = env!("CARGO_BIN_EXE_compare");
const ECHO: &str = env!("CARGO_BIN_EXE_echo_driver");
const FLOORS: [&str; 9] =
    ["sets", "cell", "recording", "group", "lent", "schedule", "order", "reader", "label"];

fn compared(floors: &[&str], driver: &[&str]) -> Output {
    let mut command = Command::new(COMPARE);
    command.args(["--cases", "50"]).args(floors).arg("--").args(driver);
    command.output().expect("compare runs")
}

fn text(output: &Output) -> String {
    String::from_utf8_lossy(&output.stdout).into_owned()
}

#[test]
fn the_second_program_agrees_with_itself() {
    let output = compared(&FLOORS, &[ECHO]);
    let text = text(&output);
    assert!(output.status.success(), "{text}");
    assert!(text.trim_end().ends_with(" passed, 0 failed"), "{text}");
}

#[test]
fn every_fault_is_noticed() {
    let list = Command::new(ECHO).arg("--faults").output().expect("echo_driver runs");
    let list = String::from_utf8(list.stdout).expect("names are text");
    assert!(list.lines().count() > 20);
    for line in list.lines() {
        let (name, floor) = line.split_once(' ').expect("a name and a floor");
        let output = compared(&[floor], &[ECHO, "--fault", name]);
        let text = text(&output);
        assert_eq!(output.status.code(), Some(1), "{name}: {text}");
        let reported = text.contains(&format!("DIFFERENCE in {floor}, "));
        assert!(reported || text.contains("STOPPED"), "{name}: {text}");
        assert!(!text.trim_end().ends_with(" 0 failed"), "{name}: {text}");
    }
}

#[test]
fn a_driver_that_says_nothing_is_noticed() {
    let output = compared(&["label"], &["true"]);
    assert_eq!(output.status.code(), Some(1), "{}", text(&output));
}

#[test]
fn nothing_asked_for_is_an_error() {
    assert_eq!(compared(&[], &[ECHO]).status.code(), Some(2));
    assert_eq!(compared(&["attic"], &[ECHO]).status.code(), Some(2));
    assert_eq!(compared(&["sets"], &[]).status.code(), Some(2));
    assert_eq!(compared(&["sets"], &["/no/such/driver"]).status.code(), Some(2));
}
