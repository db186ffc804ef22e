//! A process that does not serve: the caller gets an error, whatever the process does, and never waits for ever.

use second::harness::Exports;
use second::served::Served;
use std::time::Duration;

/// What a call on a shell command gives, and how the process ends.
fn call(limit: Duration, script: &str) -> (Result<u64, String>, Result<(), String>) {
    let command = ["sh", "-c", script].map(String::from);
    let mut served = Served::start(&command, limit).expect("there is a shell");
    let outcome = served.check(&[7; 40_000], &[7; 40_000], &[7; 20]);
    assert_eq!(served.is_gone(), outcome.is_err());
    assert!(!served.is_gone() || served.answers(&[], &mut [0; 16]).is_err());
    (outcome, served.close())
}

const PATIENT: Duration = Duration::from_secs(60);
const BRIEF: Duration = Duration::from_millis(1000);

/// Result 0x0201, nothing changed.
const OUTCOME: &str = r"printf '\001\002\000\000\000\000\000\000\000\000\000\000'";

#[test]
fn a_right_outcome_is_read() {
    let script = format!("{OUTCOME}; exec cat >/dev/null");
    assert_eq!(call(PATIENT, &script), (Ok(0x0201), Ok(())));
}

#[test]
fn a_process_that_dies_is_an_error() {
    for script in ["exit 0", "exit 3", "kill -9 $$", "head -c 100 >/dev/null; exit 1"] {
        assert!(call(PATIENT, script).0.is_err(), "{script}");
    }
}

#[test]
fn a_short_outcome_is_an_error() {
    assert!(call(PATIENT, "head -c 80036 >/dev/null; printf abcdefghijk").0.is_err());
}

#[test]
fn a_silent_process_is_killed() {
    // It reads nothing; it reads all; it says a little.
    for script in ["exec sleep 60", "cat >/dev/null; exit", "printf abc; cat >/dev/null; exit"] {
        let (outcome, end) = call(BRIEF, script);
        assert!(outcome.is_err() && end.is_err(), "{script}");
    }
}

#[test]
fn a_process_that_stays_at_the_end_is_killed() {
    let stays = [format!("{OUTCOME}; exec sleep 60"), format!("{OUTCOME}; exec sleep 60 >/dev/null")];
    for script in stays {
        let script = script.replace("; exec", "; head -c 80036 >/dev/null; exec");
        let (outcome, end) = call(BRIEF, &script);
        assert!(outcome.is_ok() && end.is_err(), "{script}");
    }
}

#[test]
fn a_bad_end_is_an_error() {
    for end in ["exit 1", "printf x"] {
        let (outcome, end) = call(PATIENT, &format!("{OUTCOME}; cat >/dev/null; {end}"));
        assert!(outcome.is_ok() && end.is_err());
    }
}

#[test]
fn something_that_is_no_outcome_is_an_error() {
    assert!(call(PATIENT, "exec cat").0.is_err());
}

#[test]
fn a_command_that_is_not_there_is_an_error() {
    assert!(Served::start(&["./no such command".to_string()], PATIENT).is_err());
    assert!(Served::start(&[], PATIENT).is_err());
}
