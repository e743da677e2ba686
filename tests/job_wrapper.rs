//! job_wrapper: what the wrapper's `Job` says where it is finished behind the last seed, early, or not at all. Panics where that is something else.
use tokenglade::{stream_room, Job, NotDone, Seed};

const DONE: &str = "sample: a\npanel: b\nseeds: [7, 8, 9]";
const REFUSED: &str = "sample: a\npanel: b\nseeds: [7, 8, x]";
const EMPTY: &str = "sample: a\npanel: b\nseeds: []";

fn with_job(text: &str, words: usize, bytes: usize, check: impl FnOnce(Job)) {
    let (mut words, mut bytes) = (vec![7; words], vec![7; bytes]);
    check(Job::new(text.as_bytes(), &mut words, &mut bytes));
}

fn with(text: &str, check: impl FnOnce(Job)) {
    let (words, bytes) = stream_room(text.as_bytes());
    with_job(text, words, bytes, check);
}

/// Number, line, column and count.
fn said(finished: Result<u32, NotDone>) -> Result<u32, (u32, u32, u32, u32)> {
    finished.map_err(|n| (n.number, n.mark.line, n.mark.col, n.count))
}

fn finished_at_the_end() {
    with(DONE, |mut job| {
        let seeds: Vec<Seed> = job.by_ref().map(|seed| seed.unwrap()).collect();
        assert_eq!(seeds.iter().map(|s| (s.value, s.count)).collect::<Vec<_>>(), [(7, 1), (8, 2), (9, 3)]);
        assert_eq!(job.next(), None);
        assert_eq!(said(job.finish()), Ok(3));
    });
    with(EMPTY, |job| assert_eq!(said(job.finish()), Ok(0)));
}

/// So many seeds are taken, and nobody looks behind the last of them.
fn finished_behind(text: &str, taken: usize) -> Result<u32, (u32, u32, u32, u32)> {
    let mut answer = Ok(0);
    with(text, |mut job| {
        assert_eq!(job.by_ref().take(taken).filter(Result::is_ok).count(), taken);
        answer = said(job.finish());
    });
    answer
}

fn finished_early() {
    assert_eq!(finished_behind(DONE, 3), Ok(3));
    assert_eq!(finished_behind(DONE, 2), Err((0, 0, 0, 2)));
    assert_eq!(finished_behind(DONE, 0), Err((0, 0, 0, 0)));
    assert_eq!(finished_behind(REFUSED, 1), Err((0, 0, 0, 1)));
    assert_eq!(finished_behind(REFUSED, 2), Err((72, 3, 14, 2)));
}

fn not_done() {
    with(REFUSED, |mut job| {
        assert_eq!(job.by_ref().take(2).filter(Result::is_ok).count(), 2);
        let last = job.next().unwrap().unwrap_err();
        assert_eq!((last.number, last.mark.index, last.count), (72, 33, 2));
        assert!(last.to_string().starts_with("not done (72) at line 3, column 15: job sheet: a seed is not a plain number"));
        assert!(last.to_string().ends_with("seeds before: 2"));
        assert_eq!(job.next(), None);
        assert_eq!(job.finish(), Err(last));
    });
    with(DONE, |job| assert_eq!(job.finish().unwrap_err().to_string(), "not done: finished while seeds were left, behind 0"));
}

/// Who takes all seeds meets the refusal among them.
fn never_finished() {
    with(DONE, |job| assert_eq!(job.collect::<Result<Vec<_>, _>>().unwrap().len(), 3));
    with(REFUSED, |job| assert_eq!(job.collect::<Result<Vec<_>, _>>().unwrap_err().number, 72));
}

fn small_rooms() {
    let (words, bytes) = stream_room(DONE.as_bytes());
    with_job(DONE, words - 1, bytes, |job| assert_eq!(said(job.finish()), Err((52, 1, 0, 0))));
    with_job(DONE, words, 3, |job| assert_eq!(said(job.finish()), Err((5, 1, 0, 0))));
    with_job(DONE, 0, 0, |mut job| assert_eq!(job.next().unwrap().unwrap_err().number, 52));
}

fn main() {
    finished_at_the_end();
    finished_early();
    not_done();
    never_finished();
    small_rooms();
    println!("the wrapper's jobs are done where they were read to their end");
}
