//! The campaign tried on the second program itself: it passes, and it notices faults.

use std::process::{Command, Output};

const CAMPAIGN: &str = env!("CARGO_BIN_EXE_campaign");
const ECHO: &str = env!("CARGO_BIN_EXE_echo_driver");

fn campaign(parts: &[&str], driver: &[&str]) -> Output {
    let mut command = Command::new(CAMPAIGN);
    command.args(["--count", "10"]).args(parts).arg("--").args(driver);
    command.output().expect("campaign runs")
}

fn text(output: &Output) -> String {
    String::from_utf8_lossy(&output.stdout).into_owned()
}

#[test]
fn the_second_program_comes_through() {
    let output = campaign(&["runs", "orders"], &[ECHO]);
    let text = text(&output);
    assert!(output.status.success(), "{text}");
    assert!(text.contains("; 0 differences; seed 1\n"), "{text}");
    assert!(text.trim_end().ends_with(" passed, 0 failed"), "{text}");
}

#[test]
fn faults_are_noticed() {
    let faults = [
        ("walk", "yields-with-two"),
        ("walk", "restart-keeps-answered"),
        ("runs", "yields-with-two"),
        ("runs", "restart-all-misses-last"),
        ("runs", "mark-of-answered"),
        ("runs", "longest"),
        ("runs", "refused-open-keeps-start"),
        ("orders", "refused-room-written"),
    ];
    for (part, fault) in faults {
        let output = campaign(&[part], &[ECHO, "--fault", fault]);
        let text = text(&output);
        assert_eq!(output.status.code(), Some(1), "{fault}: {text}");
        assert!(text.contains(&format!("DIFFERENCE in {part}, ")), "{fault}: {text}");
        assert!(!text.trim_end().ends_with(" 0 failed"), "{fault}: {text}");
    }
}

#[test]
fn nothing_asked_for_is_an_error() {
    assert_eq!(campaign(&[], &[ECHO]).status.code(), Some(2));
    assert_eq!(campaign(&["attic"], &[ECHO]).status.code(), Some(2));
    assert_eq!(campaign(&["runs"], &[]).status.code(), Some(2));
    assert_eq!(campaign(&["runs"], &["/no/such/driver"]).status.code(), Some(2));
}
