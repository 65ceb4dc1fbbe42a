//! What a program prints, held line by line to what the reading says.

use std::fmt;
use std::io::{self, Write};
use std::path::Path;
use std::process::{Command, Stdio};

/// The first line at which the program and the reading part; empty where the one or the other has ended.
#[derive(Clone, Debug, PartialEq, Eq)]
pub struct Difference {
    pub read: String,
    pub printed: String,
}

impl fmt::Display for Difference {
    fn fmt(&self, f: &mut fmt::Formatter) -> fmt::Result {
        write!(f, "\n  the reading: {}\n  the program: {}", self.read.trim_end(), self.printed.trim_end())
    }
}

/// The first difference of two texts, if there is one.
pub fn compare(read: &[String], printed: &str) -> Result<(), Difference> {
    let mut left = printed.split_inclusive('\n');
    for line in read {
        let other = left.next().unwrap_or("");
        if line != other {
            return Err(Difference { read: line.clone(), printed: other.into() });
        }
    }
    match left.next() {
        None => Ok(()),
        Some(more) => Err(Difference { read: String::new(), printed: more.into() }),
    }
}

/// What a program prints of an input, of which it may leave a part unread.
pub fn said(program: &Path, input: &[u8]) -> io::Result<String> {
    let mut child = Command::new(program).stdin(Stdio::piped()).stdout(Stdio::piped()).spawn()?;
    let mut stdin = child.stdin.take().expect("it is piped");
    let _ = stdin.write_all(input);
    drop(stdin);
    let output = child.wait_with_output()?;
    if !output.status.success() {
        return Err(io::Error::other(format!("{}: {}", program.display(), output.status)));
    }
    Ok(String::from_utf8_lossy(&output.stdout).into_owned())
}
