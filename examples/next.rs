//! next FILE: prints the tokens of a sheet as they come, then why and where it was refused, if it was. The exit status is 0, at a refusal 1, and 2 where it
//! can't be read or printed. Beside the text it wants room for 4,400 records and for the decoded text, however many tokens there are.
#![no_main]
mod print;

use print::{complain, line, tell_sheet, zeros};
use std::io::{self, Write};
use tokenglade::{stream_room, Stream};

/// The exit status.
fn next(text: &[u8], out: &mut dyn Write) -> io::Result<i32> {
    let (words, bytes) = stream_room(text);
    let (Ok(mut words), Ok(mut bytes)) = (zeros(words), zeros(bytes)) else {
        return Ok(complain(format_args!("no memory")));
    };
    let mut last = "";
    for given in Stream::new(text, &mut words, &mut bytes) {
        match given {
            Ok(token) => {
                writeln!(out, "{}", line(&token))?;
                last = token.kind_name();
            }
            Err(refusal) => return writeln!(out, "{refusal}").map(|()| 1),
        }
    }
    // Ended: only behind StreamEnd is the text accepted.
    if last != "StreamEnd" {
        return Ok(complain(format_args!("the tokens ended without StreamEnd")));
    }
    Ok(0)
}

#[no_mangle]
extern "C" fn main() -> i32 {
    tell_sheet("next", next)
}
