//! The programs, as a user runs them: standard input in, standard output out. They are in target/bin at the
//! top of the repository, where `tools/build` writes them.

use std::io::{Read, Write};
use std::path::PathBuf;
use std::process::{Command, Stdio};
use std::thread;

/// Where the program is.
pub fn path(name: &str) -> PathBuf {
    let program = PathBuf::from(env!("CARGO_MANIFEST_DIR")).join("../../target/bin").join(name);
    assert!(program.is_file(), "no {}: run `tools/build` first", program.display());
    program
}

/// What the program writes for this input. It may stop reading before the input ends.
pub fn written(name: &str, input: &[u8]) -> Vec<u8> {
    let mut running = Command::new(path(name))
        .stdin(Stdio::piped())
        .stdout(Stdio::piped())
        .spawn()
        .unwrap_or_else(|error| panic!("{name}: {error}"));
    let mut stdin = running.stdin.take().expect("piped");
    let bytes = input.to_vec();
    let writer = thread::spawn(move || {
        let _ = stdin.write_all(&bytes);
    });
    let mut output = Vec::new();
    running.stdout.take().expect("piped").read_to_end(&mut output).expect("it is read");
    writer.join().expect("it does not panic");
    assert!(running.wait().expect("it ends").success());
    output
}
