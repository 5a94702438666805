//! Starts the programs under test and those of the reference.
use std::fs;
use std::io::Write;
use std::path::{Path, PathBuf};
use std::process::{Command, Output, Stdio};

pub const TASKTEXT: &str = "target/tools/tasktext";
pub const EXPLAIN: &str = "target/tools/explain";
pub const COMPARE: &str = "target/reference/reference-compare";

/// What a program prints, and its exit status.
#[derive(PartialEq, Debug)]
pub struct Printed {
    pub status: Option<i32>,
    pub out: Vec<u8>,
    pub errors: String,
}

impl Printed {
    pub fn success(out: &[u8]) -> Printed {
        Printed {
            status: Some(0),
            out: out.to_vec(),
            errors: String::new(),
        }
    }

    pub fn failure(message: &str) -> Printed {
        Printed {
            status: Some(1),
            out: Vec::new(),
            errors: format!("{message}\n"),
        }
    }
}

pub fn run(program: &str, arguments: &[&str], input: &[u8]) -> Result<Printed, String> {
    let cannot = |error| format!("{program} cannot be run: {error}");
    let mut child = Command::new(program)
        .args(arguments)
        .stdin(Stdio::piped())
        .stdout(Stdio::piped())
        .stderr(Stdio::piped())
        .spawn()
        .map_err(cannot)?;
    if let Some(mut stdin) = child.stdin.take() {
        // A program may end before it has read everything; what it prints is judged.
        let _ = stdin.write_all(input);
    }
    let Output {
        status,
        stdout,
        stderr,
    } = child.wait_with_output().map_err(cannot)?;
    Ok(Printed {
        status: status.code(),
        out: stdout,
        errors: String::from_utf8_lossy(&stderr).into_owned(),
    })
}

/// A file for the tests, with these contents.
pub fn file(name: &str, contents: &[u8]) -> Result<String, String> {
    let folder = folder()?;
    let path = folder.join(name);
    fs::write(&path, contents).map_err(|error| format!("{name} cannot be written: {error}"))?;
    Ok(path.to_string_lossy().into_owned())
}

pub fn folder() -> Result<PathBuf, String> {
    let folder = Path::new("target/tests/tools").to_path_buf();
    fs::create_dir_all(&folder).map_err(|error| format!("{}: {error}", folder.display()))?;
    Ok(folder)
}

pub fn read(path: &Path) -> Result<Vec<u8>, String> {
    fs::read(path).map_err(|error| format!("{}: {error}", path.display()))
}

pub fn text(path: &Path) -> Result<String, String> {
    let bytes = read(path)?;
    String::from_utf8(bytes).map_err(|error| format!("{}: {error}", path.display()))
}
