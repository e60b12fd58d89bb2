//! The tool run as a person runs it, and folders for its files. Each suite uses a part of it.
#![allow(dead_code)]

use std::fs;
use std::io::Write;
use std::path::{Path, PathBuf};
use std::process::{Command, Stdio};

/// What a run of the tool left.
pub struct Run {
    pub status: i32,
    pub out: Vec<u8>,
    pub errors: String,
}

impl Run {
    pub fn text(&self) -> &str {
        std::str::from_utf8(&self.out).expect("text")
    }
}

/// Runs the tool at the top of the repository, with these words and this standard input.
pub fn tool(words: &[&str], input: &[u8]) -> Run {
    let mut running = Command::new(env!("CARGO_BIN_EXE_wichteab"))
        .args(words)
        .current_dir(top())
        .stdin(Stdio::piped())
        .stdout(Stdio::piped())
        .stderr(Stdio::piped())
        .spawn()
        .expect("it runs");
    let mut stdin = running.stdin.take().expect("piped");
    let bytes = input.to_vec();
    let writer = std::thread::spawn(move || {
        let _ = stdin.write_all(&bytes);
    });
    let ended = running.wait_with_output().expect("it ends");
    writer.join().expect("it does not panic");
    Run {
        status: ended.status.code().expect("no signal"),
        out: ended.stdout,
        errors: String::from_utf8(ended.stderr).expect("text"),
    }
}

/// The number of a run that was refused: the first word of its line is `refused`, the second the number.
pub fn number_told(run: &Run) -> u8 {
    assert_eq!((run.status, run.out.len()), (1, 0), "{}", run.errors);
    let words = run.errors.strip_prefix("refused ").expect(&run.errors);
    words.split([' ', ':']).next().expect("a number").parse().expect(words)
}

/// The top of the repository.
pub fn top() -> PathBuf {
    Path::new(env!("CARGO_MANIFEST_DIR")).join("../..").canonicalize().expect("it is there")
}

/// A folder of a test's own, which is removed at its end.
pub struct Folder(pub PathBuf);

impl Folder {
    pub fn new(name: &str) -> Folder {
        let path = std::env::temp_dir().join(format!("wichteab-{name}-{}", std::process::id()));
        fs::create_dir_all(&path).expect("it is made");
        Folder(path)
    }

    /// A file with these bytes; its name.
    pub fn file(&self, name: &str, bytes: &[u8]) -> String {
        let path = self.0.join(name);
        fs::write(&path, bytes).expect("it is written");
        path.to_str().expect("text").to_string()
    }
}

impl Drop for Folder {
    fn drop(&mut self) {
        let _ = fs::remove_dir_all(&self.0);
    }
}

/// PATH with the folder of a program in front.
pub fn search_path(program: &Path) -> String {
    let folder = program.parent().expect("a folder");
    format!("{}:{}", folder.display(), std::env::var("PATH").expect("it is set"))
}
