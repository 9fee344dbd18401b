//! What the tests of the built command share: how it is run, how the line of a call is split into arguments, and folders for files that a test makes.
#![allow(dead_code)] // each test uses some of it

use std::ffi::OsStr;
use std::fs;
use std::io::{ErrorKind, Write};
use std::path::{Path, PathBuf};
use std::process::{Command, Stdio};

/// What a call printed, and its status.
#[derive(Debug, Clone, PartialEq, Eq)]
pub struct Printed {
    pub output: Vec<u8>,
    pub errors: Vec<u8>,
    pub status: i32,
}

impl Printed {
    /// The text of its standard output.
    pub fn output(&self) -> String {
        String::from_utf8_lossy(&self.output).into_owned()
    }

    /// The text of its standard error.
    pub fn errors(&self) -> String {
        String::from_utf8_lossy(&self.errors).into_owned()
    }
}

/// The root of the tree, which stored calls have as their working directory.
pub fn root() -> &'static Path {
    Path::new(concat!(env!("CARGO_MANIFEST_DIR"), "/../.."))
}

/// Runs the built command in a folder, with these bytes on its standard input.
pub fn run_in(folder: &Path, arguments: &[impl AsRef<OsStr>], input: &[u8]) -> Printed {
    let mut command = Command::new(env!("CARGO_BIN_EXE_vanecitron"));
    command.current_dir(folder).args(arguments).stdin(Stdio::piped()).stdout(Stdio::piped()).stderr(Stdio::piped());
    let mut running = command.spawn().expect("the command is built");
    let mut to = running.stdin.take().expect("its standard input is piped");
    let done = std::thread::scope(|scope| {
        scope.spawn(move || match to.write_all(input) {
            Err(error) if error.kind() != ErrorKind::BrokenPipe => panic!("standard input: {error}"),
            _ => {} // a call need not read what it is given
        });
        running.wait_with_output().expect("the command ends")
    });
    let status = done.status.code().expect("the command ends by itself");
    Printed { output: done.stdout, errors: done.stderr, status }
}

/// Runs the built command at the root of the tree, with nothing on its standard input.
pub fn run(arguments: &[&str]) -> Printed {
    run_in(root(), arguments, b"")
}

/// The words of the command, as its help lists them: the lines of the first block that is indented.
pub fn words() -> Vec<String> {
    let help = run(&["--help"]).output();
    let listed = help.lines().skip_while(|line| !line.starts_with("    ")).take_while(|line| line.starts_with("    "));
    let words: Vec<String> = listed.filter_map(|line| line.split_whitespace().next()).map(String::from).collect();
    assert!(!words.is_empty(), "the help lists no words:\n{help}");
    words
}

/// What a shell would take specially outside of quotes, so that no stored call has it there.
const SPECIAL: &str = "\"\\`$&|;<>()*?[]{}~!";

/// The arguments that blanks part in a call's line. What stands between two ' is taken as it is; a # where an argument would begin ends the line.
pub fn split(line: &str) -> Result<Vec<String>, String> {
    let mut arguments = Vec::new();
    let mut open: Option<String> = None; // the argument that has not ended
    let mut characters = line.chars();
    while let Some(character) = characters.next() {
        match character {
            '\'' => {
                let argument = open.get_or_insert_default();
                loop {
                    match characters.next() {
                        Some('\'') => break,
                        Some(other) => argument.push(other),
                        None => return Err("a ' is not closed".into()),
                    }
                }
            }
            '#' if open.is_none() => return Ok(arguments),
            blank if blank.is_whitespace() => arguments.extend(open.take()),
            special if SPECIAL.contains(special) => return Err(format!("{special} stands outside of '...', and no shell is run")),
            other => open.get_or_insert_default().push(other),
        }
    }
    arguments.extend(open);
    Ok(arguments)
}

/// A folder for the files that a test makes, which goes with all of them when the test ends.
pub struct Folder {
    path: PathBuf,
}

impl Folder {
    /// A new folder; no two tests have one of the same name.
    pub fn new(name: &str) -> Folder {
        let path = Path::new(env!("CARGO_TARGET_TMPDIR")).join(format!("{name}-{}", std::process::id()));
        fs::create_dir_all(&path).expect("a folder can be made");
        Folder { path }
    }

    /// Makes a file in it.
    pub fn with(self, file: &str, content: impl AsRef<[u8]>) -> Folder {
        fs::write(self.path.join(file), content).expect("a file can be made");
        self
    }

    /// The bytes of a file in it.
    pub fn read(&self, file: &str) -> Vec<u8> {
        fs::read(self.path.join(file)).unwrap_or_else(|error| panic!("{file}: {error}"))
    }

    /// Runs the built command in it.
    pub fn run(&self, arguments: &[impl AsRef<OsStr>]) -> Printed {
        run_in(&self.path, arguments, b"")
    }

    /// Runs the built command in it, with these bytes on its standard input.
    pub fn run_with(&self, arguments: &[impl AsRef<OsStr>], input: &[u8]) -> Printed {
        run_in(&self.path, arguments, input)
    }
}

impl Drop for Folder {
    fn drop(&mut self) {
        let _ = fs::remove_dir_all(&self.path); // a folder that stays does no harm
    }
}
