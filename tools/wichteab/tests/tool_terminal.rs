//! What a person at a terminal sees.

mod running;

use running::{search_path, tool, top};
use std::path::Path;
use std::process::Command;
use std::thread::sleep;
use std::time::Duration;
use wichteab_tool::progress::told_on;

#[test]
fn long_work_is_told_and_cleared() {
    let mut told = Vec::new();
    let done = told_on(&mut told, Duration::from_millis(20), "planning", || {
        sleep(Duration::from_millis(1300));
        7
    });
    assert_eq!(done, 7);
    let told = String::from_utf8(told).expect("text");
    let lines = told.strip_suffix("\r\x1b[K").expect("it is cleared");
    let second = |line: &str| line.strip_prefix("wichteab: planning, ")?.strip_suffix(" s")?.parse().ok();
    let seconds: Option<Vec<u64>> = lines.split('\r').skip(1).map(second).collect();
    let seconds = seconds.expect("each line has its seconds");
    assert!(seconds.is_sorted() && seconds.len() > 2 && seconds.last() >= Some(&1), "{seconds:?}");
}

#[test]
fn quick_work_is_not_spoken_of() {
    let mut told = Vec::new();
    assert_eq!(told_on(&mut told, Duration::from_secs(60), "planning", || 7), 7);
    assert!(told.is_empty());
}

/// Where there is `script`, which runs a command at a terminal: a record is printed as text there, and nothing else.
#[test]
fn no_bytes_are_spilt_on_a_terminal() {
    let line = "wichteab timetable examples/casebook.order examples/casebook.plan";
    let ran = Command::new("script")
        .args(["-qec", line, "/dev/null"])
        .current_dir(top())
        .env("PATH", search_path(Path::new(env!("CARGO_BIN_EXE_wichteab"))))
        .output();
    if let Ok(ran) = ran {
        let seen = String::from_utf8(ran.stdout).expect("text");
        assert_eq!(seen.replace("\r\n", "\n"), "steps 2 moves 4\n1 0>1 3>2\n2 1>3 2>0\n");
    }
    let piped = tool(&["timetable", "examples/casebook.order", "examples/casebook.plan"], b"");
    assert_eq!(piped.out, [0, 0, 8, 2, 0, 0x10, 0xC2, 2, 4, 0x30, 0x80]);
}
