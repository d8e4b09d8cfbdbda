//! A folder of its own for a test, and the command run in it.

use std::fs;
use std::io::Write;
use std::path::{Path, PathBuf};
use std::process::{Child, Command, Output, Stdio};
use std::sync::atomic::{AtomicU32, Ordering};

pub const SKIMP: &str = env!("CARGO_BIN_EXE_skimp");

/// What a command left behind.
#[derive(Debug, PartialEq, Eq)]
pub struct Ran {
    pub status: Option<i32>,
    pub out: String,
    pub err: String,
}

/// A folder that is removed in the end.
pub struct Session {
    pub folder: PathBuf,
}

impl Session {
    pub fn new() -> Session {
        static COUNT: AtomicU32 = AtomicU32::new(0);
        let count = COUNT.fetch_add(1, Ordering::Relaxed);
        let name = format!("skimp-tool-{}-{count}", std::process::id());
        let folder = std::env::temp_dir().join(name);
        fs::create_dir(&folder).expect("a new folder");
        Session { folder }
    }

    pub fn path(&self, name: &str) -> PathBuf {
        self.folder.join(name)
    }

    /// Makes a file.
    pub fn put(&self, name: &str, bytes: impl AsRef<[u8]>) {
        fs::write(self.path(name), bytes).expect("a file");
    }

    pub fn get(&self, name: &str) -> Vec<u8> {
        fs::read(self.path(name)).expect("a file")
    }

    /// The names of all files, sorted.
    pub fn names(&self) -> Vec<String> {
        let entries = fs::read_dir(&self.folder).expect("the folder");
        let name = |entry: fs::DirEntry| entry.file_name().into_string().expect("a plain name");
        let mut names: Vec<_> = entries
            .map(|entry| name(entry.expect("an entry")))
            .collect();
        names.sort();
        names
    }

    pub fn command(&self, arguments: &[&str]) -> Command {
        let mut command = Command::new(SKIMP);
        command.args(arguments).current_dir(&self.folder);
        command
    }

    /// Runs the command with nothing on standard input.
    pub fn skimp(&self, arguments: &[&str]) -> Ran {
        self.skimp_with(arguments, b"")
    }

    /// Runs the command with a text on standard input.
    pub fn skimp_with(&self, arguments: &[&str], input: &[u8]) -> Ran {
        let mut command = self.command(arguments);
        let command = command.stdin(Stdio::piped()).stdout(Stdio::piped());
        let mut child = command.stderr(Stdio::piped()).spawn().expect("the command");
        feed(&mut child, input);
        ran(child.wait_with_output().expect("its end"))
    }
}

impl Drop for Session {
    fn drop(&mut self) {
        let _ = fs::remove_dir_all(&self.folder);
    }
}

/// Writes the text to standard input. The command may end before it has read all of it.
fn feed(child: &mut Child, input: &[u8]) {
    let mut stdin = child.stdin.take().expect("standard input");
    let _ = stdin.write_all(input);
}

pub fn ran(output: Output) -> Ran {
    let text = |bytes| String::from_utf8(bytes).expect("text");
    Ran {
        status: output.status.code(),
        out: text(output.stdout),
        err: text(output.stderr),
    }
}

/// What a command that succeeds prints.
pub fn done(out: &str) -> Ran {
    Ran {
        status: Some(0),
        out: out.to_string(),
        err: String::new(),
    }
}

/// What a refused or a failed command says.
pub fn said(status: i32, err: &str) -> Ran {
    Ran {
        status: Some(status),
        out: String::new(),
        err: format!("{err}\n"),
    }
}

/// What a command prints on both outputs, with the tool under its name.
pub fn printed(session: &Session, command: &str) -> String {
    let folder = Path::new(SKIMP).parent().expect("a folder").display();
    let path = std::env::var("PATH").expect("a path");
    let output = Command::new("sh")
        .args(["-c", &format!("exec 2>&1; {command}")])
        .env("PATH", format!("{folder}:{path}"))
        .current_dir(&session.folder)
        .output();
    String::from_utf8(output.expect("its end").stdout).expect("text")
}

/// A file of the repository.
pub fn repository(name: &str) -> PathBuf {
    Path::new(env!("CARGO_MANIFEST_DIR"))
        .join("../..")
        .join(name)
}
