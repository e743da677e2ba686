//! list FILE: prints the tokens of a sheet, or why and where it was refused. The exit status is 0, at a refusal 1, and 2 where it can't be read or printed.
#![no_main]
mod print;

use print::{complain, line, tell_sheet, zeros};
use std::io::{self, Write};
use tokenglade::{room, scan_in};

/// The exit status.
fn list(text: &[u8], out: &mut dyn Write) -> io::Result<i32> {
    let (words, bytes) = room(text);
    let (Ok(mut words), Ok(mut bytes)) = (zeros(words), zeros(bytes)) else {
        return Ok(complain(format_args!("no memory")));
    };
    let scanned = scan_in(text, &mut words, &mut bytes);
    match scanned {
        Ok(mut tokens) => tokens.try_for_each(|t| writeln!(out, "{}", line(&t))).map(|()| 0),
        Err(refusal) => writeln!(out, "{refusal}").map(|()| 1),
    }
}

#[no_mangle]
extern "C" fn main() -> i32 {
    tell_sheet("list", list)
}
