//! What the examples in Rust share: a sheet is read, and tokens are written as lines. None of them uses all of it.
#![allow(dead_code)]

use std::collections::TryReserveError;
use std::fs::File;
use std::io::{self, BufWriter, Read, Write};
use std::os::fd::AsFd;
use std::path::{Path, PathBuf};
use tokenglade::Token;

/// Writes what a text has; the exit status.
type Tell = fn(&[u8], &mut dyn Write) -> io::Result<i32>;

/// A byte more than is scanned, so that a longer file is refused too.
const MOST: u64 = 1048577;

fn quoted(text: &str) -> String {
    let mut out = String::from(" \"");
    for c in text.chars() {
        match c {
            '\0'..='\x1f' | '\x7f' | '"' | '\\' => out += &format!("\\x{:02x}", c as u32),
            _ => out.push(c),
        }
    }
    out + "\""
}

pub fn line(t: &Token) -> String {
    let (start, end) = (t.start(), t.end());
    let mut out = format!("{}:{}-{}:{} {}", start.line, start.col + 1, end.line, end.col + 1, t.kind_name());
    if let Some((major, minor)) = t.version() {
        out += &format!(" {major}.{minor}");
    }
    if let Some(style) = t.style() {
        out += &format!(" {style}");
    }
    for text in [t.first(), t.second()].into_iter().flatten() {
        out += &quoted(text);
    }
    out
}

fn read(path: &Path) -> io::Result<Vec<u8>> {
    let mut text = Vec::new();
    File::open(path)?.take(MOST).read_to_end(&mut text)?;
    Ok(text)
}

/// Standard output as a file of its own. What is written to `io::stdout()` counts as written where that is closed or can only be read.
fn output() -> io::Result<BufWriter<File>> {
    Ok(BufWriter::new(File::from(io::stdout().as_fd().try_clone_to_owned()?)))
}

fn tell_text(text: &[u8], tell: Tell) -> io::Result<i32> {
    let mut out = output()?;
    let status = tell(text, &mut out)?;
    out.flush().map(|()| status)
}

/// So many zeros, where there is memory for them.
pub fn zeros<T: Clone + Default>(len: usize) -> Result<Vec<T>, TryReserveError> {
    let mut v = Vec::new();
    v.try_reserve_exact(len)?;
    v.resize(len, T::default());
    Ok(v)
}

/// Says on standard error what is wrong, where it can be said; the exit status.
pub fn complain(what: std::fmt::Arguments) -> i32 {
    let _ = writeln!(io::stderr(), "{what}");
    2
}

/// Reads the file that the arguments name, and lets `tell` write it; the exit status. A pipe that nobody reads any more ends the program by SIGPIPE.
/// The programs give it to C as their `main`: before a `main` of Rust's own, /dev/null is opened in place of an output that is closed, and nobody can tell.
pub fn tell_sheet(name: &str, tell: Tell) -> i32 {
    let args: Vec<PathBuf> = std::env::args_os().map(PathBuf::from).collect();
    let [_, path] = args.as_slice() else {
        return complain(format_args!("usage: {name} FILE"));
    };
    let said = match read(path) {
        Ok(text) => tell_text(&text, tell).map_err(|e| format!("standard output: {e}")),
        Err(e) => Err(format!("{}: {e}", path.display())),
    };
    said.unwrap_or_else(|e| complain(format_args!("{e}")))
}
