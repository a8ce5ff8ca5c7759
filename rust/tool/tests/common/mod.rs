//! The tool, run as its users run it.
#![allow(dead_code)]

use std::fs;
use std::path::{Path, PathBuf};
use std::process::{Command, Output, Stdio};
use std::sync::atomic::{AtomicU32, Ordering::Relaxed};

pub const TOOL: &str = env!("CARGO_BIN_EXE_anhkhovet");

/// The folder with the sample images.
pub fn samples() -> PathBuf {
    Path::new(env!("CARGO_MANIFEST_DIR")).join("../../samples")
}

pub fn sample(name: &str) -> PathBuf {
    samples().join(name)
}

/// A command that runs a program for x86-64: by the emulator that rust/setup names, where there is one.
pub fn program(path: &str) -> Command {
    match std::env::var("ANHKHOVET_RUNNER") {
        Ok(runner) => {
            let mut command = Command::new(runner);
            command.arg(path);
            command
        }
        Err(_) => Command::new(path),
    }
}

/// Whether the tool runs by an emulator, which limits what can be tried.
pub fn emulated() -> bool {
    std::env::var_os("ANHKHOVET_RUNNER").is_some()
}

/// The tool in a folder, with nothing to read from standard input.
pub fn tool(folder: &Path) -> Command {
    let mut command = program(TOOL);
    command.current_dir(folder).stdin(Stdio::null());
    command
}

/// What a run left: status, standard output, standard error.
pub struct Ran {
    pub status: Option<i32>,
    pub out: Vec<u8>,
    pub err: String,
}

impl Ran {
    pub fn of(output: Output) -> Ran {
        Ran {
            status: output.status.code(),
            out: output.stdout,
            err: String::from_utf8_lossy(&output.stderr).into_owned(),
        }
    }

    pub fn text(&self) -> String {
        String::from_utf8_lossy(&self.out).into_owned()
    }

    /// It ended with 0 and said nothing on standard error.
    pub fn well(&self) -> &Ran {
        assert_eq!((self.status, self.err.as_str()), (Some(0), ""));
        self
    }

    /// A file could not be read or written, or changed: status 4, and standard error has these words.
    pub fn ill(&self, words: &str) -> &Ran {
        self.ended(4, words)
    }

    /// It ended with this status, and standard error has these words.
    pub fn ended(&self, status: i32, words: &str) -> &Ran {
        assert_eq!(self.status, Some(status), "{}", self.err);
        assert!(self.err.contains(words), "no '{words}' in: {}", self.err);
        self
    }
}

pub fn run(folder: &Path, words: &[&str]) -> Ran {
    Ran::of(tool(folder).args(words).output().expect("the tool starts"))
}

/// The same where waiting without end would be the mistake: status 124 after a while.
pub fn run_soon(folder: &Path, words: &[&str]) -> Ran {
    let mut command = Command::new("timeout");
    command.arg("30").args(std::env::var_os("ANHKHOVET_RUNNER"));
    command.arg(TOOL).args(words);
    command.current_dir(folder).stdin(Stdio::null());
    Ran::of(command.output().expect("timeout starts"))
}

/// A folder that goes when the test ends.
pub struct Folder(PathBuf);

static COUNT: AtomicU32 = AtomicU32::new(0);

impl Folder {
    pub fn new() -> Folder {
        Folder::inside(&std::env::temp_dir())
    }

    /// On a file system in memory, where there is one.
    pub fn in_memory() -> Folder {
        let memory = Path::new("/dev/shm");
        if memory.is_dir() {
            Folder::inside(memory)
        } else {
            Folder::new()
        }
    }

    fn inside(parent: &Path) -> Folder {
        let name = format!(
            "anhkhovet-{}-{}",
            std::process::id(),
            COUNT.fetch_add(1, Relaxed)
        );
        let path = parent.join(name);
        fs::create_dir(&path).expect("a folder of its own");
        Folder(path)
    }

    pub fn path(&self) -> &Path {
        &self.0
    }

    pub fn at(&self, name: &str) -> PathBuf {
        self.0.join(name)
    }

    /// Copies samples here, so that they can be cut, and so that names in answers are short.
    pub fn with(self, names: &[&str]) -> Folder {
        for name in names {
            fs::copy(sample(name), self.at(name)).expect("a sample");
        }
        self
    }

    /// What is in the folder, hidden names too, in order.
    pub fn names(&self) -> Vec<String> {
        names(&self.0)
    }
}

pub fn names(folder: &Path) -> Vec<String> {
    let mut names: Vec<String> = fs::read_dir(folder)
        .expect("a folder")
        .map(|entry| {
            entry
                .expect("a name")
                .file_name()
                .to_string_lossy()
                .into_owned()
        })
        .collect();
    names.sort();
    names
}

impl Drop for Folder {
    fn drop(&mut self) {
        let _ = fs::remove_dir_all(&self.0);
    }
}
