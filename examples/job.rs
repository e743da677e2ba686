//! job FILE: prints the seeds of a job sheet as they are handed over, one a line; then, as the last line, `done COUNT` or `not done NUMBER LINE COLUMN COUNT`,
//! and why in words on standard error. The exit status is 0, where the job is not done 1, 2 where the sheet can't be read or printed, and 4 where it is done and
//! its list is empty.
#![no_main]
mod print;

use print::{complain, tell_sheet, zeros};
use std::io::{self, Write};
use tokenglade::{stream_room, Job};

/// The exit status.
fn job(text: &[u8], out: &mut dyn Write) -> io::Result<i32> {
    let (words, bytes) = stream_room(text);
    let (Ok(mut words), Ok(mut bytes)) = (zeros(words), zeros(bytes)) else {
        return Ok(complain(format_args!("no memory")));
    };
    let mut job = Job::new(text, &mut words, &mut bytes);
    while let Some(Ok(seed)) = job.next() {
        writeln!(out, "{}", seed.value)?;
    }
    match job.finish() {
        Ok(count) => writeln!(out, "done {count}").map(|()| if count == 0 { 4 } else { 0 }),
        Err(not_done) => {
            complain(format_args!("{not_done}"));
            let mark = not_done.mark;
            writeln!(out, "not done {} {} {} {}", not_done.number, mark.line, mark.col + 1, not_done.count).map(|()| 1)
        }
    }
}

#[no_mangle]
extern "C" fn main() -> i32 {
    tell_sheet("job", job)
}
