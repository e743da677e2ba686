//! Tokens of a YAML text, by the proved scanner behind `tokenglade_scan`, and one at a time behind `tokenglade_next`; the seeds of a job sheet, behind
//! `tokenglade_job`. include/tokenglade.h says what the three promise.
//! To use this elsewhere take two files, this one and include/tokenglade_names.h (`NAMES` has its path), and link the static library.
use std::marker::PhantomData;

extern "C" {
    fn tokenglade_scan(
        text: *const u8,
        text_len: usize,
        words: *mut u32,
        words_len: usize,
        bytes: *mut u8,
        bytes_len: usize,
        answer: *mut u32,
    );
    fn tokenglade_next(
        state: *mut u32,
        text: *const u8,
        text_len: usize,
        words: *mut u32,
        words_len: usize,
        bytes: *mut u8,
        bytes_len: usize,
        token: *mut u32,
        answer: *mut u32,
    );
    fn tokenglade_job(
        state: *mut u32,
        text: *const u8,
        text_len: usize,
        words: *mut u32,
        words_len: usize,
        bytes: *mut u8,
        bytes_len: usize,
        seed: *mut u32,
        closing: *mut u32,
    );
}

/// Words in a record.
pub const RECORD_WORDS: usize = 12;

/// Words of a state, which a stream keeps from token to token.
const STATE_WORDS: usize = 1809;

/// Words of a job's state.
const JOB_WORDS: usize = 1820;

/// Words that a seed comes in, and a closing record.
const SEED_WORDS: usize = 2;
const CLOSING_WORDS: usize = 7;

/// Words that a stream or a job must be lent, for a text of any length.
const STREAM_WORDS: usize = 4400 * RECORD_WORDS;

/// Room that is always enough: words and bytes for a text. A byte that goes on with a character begins none.
pub fn room(text: &[u8]) -> (usize, usize) {
    let characters = text.iter().filter(|b| **b & 0xC0 != 0x80).count();
    ((2 * characters + 3) * RECORD_WORDS, 3 * text.len() / 2)
}

/// Room that is always enough for a stream, and for a job: neither 5 nor 52 comes.
pub fn stream_room(text: &[u8]) -> (usize, usize) {
    (STREAM_WORDS, 3 * text.len() / 2)
}

#[derive(Clone, Copy, Debug, PartialEq, Eq)]
pub struct Mark {
    pub index: u32,
    pub line: u32,
    pub col: u32,
}

/// Why a text was refused, and where. At 4 and 5 of `scan_in` the room was too small: what is needed is `tokens` records and `decoded` bytes. A `Stream`
/// always has 0 for both, at 5 too; `stream_room` is always enough for it.
#[derive(Clone, Copy, Debug, PartialEq, Eq)]
pub struct Refusal {
    pub number: u32,
    pub mark: Mark,
    pub tokens: u32,
    pub decoded: u32,
}

/// One token: a record and its texts.
#[derive(Clone, Copy)]
pub struct Token<'a> {
    record: [u32; RECORD_WORDS],
    bytes: &'a [u8],
}

impl<'a> Token<'a> {
    pub fn kind(&self) -> u32 {
        self.record[0]
    }

    pub fn kind_name(&self) -> &'static str {
        named("KIND", self.kind())
    }

    pub fn start(&self) -> Mark {
        mark(&self.record[1..])
    }

    pub fn end(&self) -> Mark {
        mark(&self.record[4..])
    }

    /// A scalar's style in words.
    pub fn style(&self) -> Option<&'static str> {
        (self.kind() == 22).then(|| named("STYLE", self.record[11]))
    }

    /// Major and minor of a version directive.
    pub fn version(&self) -> Option<(u32, u32)> {
        (self.kind() == 3).then(|| (self.record[7], self.record[8]))
    }

    pub fn first(&self) -> Option<&'a str> {
        matches!(self.kind(), 4 | 19..=23).then(|| self.text(7))
    }

    pub fn second(&self) -> Option<&'a str> {
        matches!(self.kind(), 4 | 21 | 23).then(|| self.text(9))
    }

    fn text(&self, at: usize) -> &'a str {
        let offset = self.record[at] as usize;
        let text = &self.bytes[offset..offset + self.record[at + 1] as usize];
        std::str::from_utf8(text).expect("decoded text is UTF-8")
    }
}

impl std::fmt::Debug for Token<'_> {
    fn fmt(&self, f: &mut std::fmt::Formatter) -> std::fmt::Result {
        f.debug_struct("Token")
            .field("kind", &self.kind_name())
            .field("start", &self.start())
            .field("end", &self.end())
            .field("version", &self.version())
            .field("style", &self.style())
            .field("first", &self.first())
            .field("second", &self.second())
            .finish()
    }
}

fn mark(words: &[u32]) -> Mark {
    Mark {
        index: words[0],
        line: words[1],
        col: words[2],
    }
}

/// Scans a text in lent room of any length.
pub fn scan_in<'a>(text: &[u8], words: &'a mut [u32], bytes: &'a mut [u8]) -> Result<impl Iterator<Item = Token<'a>>, Refusal> {
    let mut answer = [0u32; 6];
    // Each slice is lent with its own length, and none overlaps another.
    unsafe {
        tokenglade_scan(
            text.as_ptr(),
            text.len(),
            words.as_mut_ptr(),
            words.len(),
            bytes.as_mut_ptr(),
            bytes.len(),
            answer.as_mut_ptr(),
        );
    }
    let [number, .., tokens, decoded] = answer;
    if number != 0 {
        let mark = mark(&answer[1..4]);
        return Err(Refusal { number, mark, tokens, decoded });
    }
    let bytes = &bytes[..decoded as usize];
    let records = words[..tokens as usize * RECORD_WORDS].chunks_exact(RECORD_WORDS);
    Ok(records.map(move |r| Token { record: r.try_into().expect("a chunk is a record"), bytes }))
}

/// The tokens of a text one at a time, in lent room of any length. The last item is StreamEnd or a refusal; tokens before it stay valid, with their texts.
pub struct Stream<'a> {
    state: [u32; STATE_WORDS],
    text: &'a [u8],
    words: &'a mut [u32],
    // the lent bytes; tokens that were given borrow parts of them
    bytes: *mut u8,
    bytes_len: usize,
    lent: PhantomData<&'a mut [u8]>,
    over: bool,
}

// Nobody else has what it holds.
unsafe impl Send for Stream<'_> {}

impl<'a> Stream<'a> {
    pub fn new(text: &'a [u8], words: &'a mut [u32], bytes: &'a mut [u8]) -> Self {
        Stream { state: [0; STATE_WORDS], text, words, bytes: bytes.as_mut_ptr(), bytes_len: bytes.len(), lent: PhantomData, over: false }
    }

    /// The token of a record that was given.
    fn given(&self, record: [u32; RECORD_WORDS]) -> Token<'a> {
        let text_end = |at: usize| record[at] as usize + record[at + 1] as usize;
        // A version directive has numbers there.
        let end = if record[0] == 3 { 0 } else { text_end(7).max(text_end(9)) };
        assert!(end <= self.bytes_len);
        // The bytes of a token that was given are written once, before it is given: no later call writes what is lent here.
        let bytes = unsafe { std::slice::from_raw_parts(self.bytes, end) };
        Token { record, bytes }
    }
}

impl<'a> Iterator for Stream<'a> {
    type Item = Result<Token<'a>, Refusal>;

    fn next(&mut self) -> Option<Self::Item> {
        if self.over {
            return None;
        }
        let (mut record, mut answer) = ([0u32; RECORD_WORDS], [0u32; 5]);
        // Each part is lent with its own length, none overlaps another, and all are those of the call before.
        unsafe {
            tokenglade_next(
                self.state.as_mut_ptr(),
                self.text.as_ptr(),
                self.text.len(),
                self.words.as_mut_ptr(),
                self.words.len(),
                self.bytes,
                self.bytes_len,
                record.as_mut_ptr(),
                answer.as_mut_ptr(),
            );
        }
        if record[0] != 0 {
            return Some(Ok(self.given(record)));
        }
        self.over = true;
        let refusal = Refusal { number: answer[0], mark: mark(&answer[1..4]), tokens: 0, decoded: 0 };
        (answer[0] != 0).then_some(Err(refusal))
    }
}

impl std::iter::FusedIterator for Stream<'_> {}

/// A seed, and how many were handed over with it: 1 at the first.
#[derive(Clone, Copy, Debug, PartialEq, Eq)]
pub struct Seed {
    pub value: u32,
    pub count: u32,
}

/// Why a job is not done: a refusal's number and its mark. `count` seeds were handed over before; they stay valid. Where `number` is 0 nothing was refused,
/// but the job was finished while a seed was left.
#[derive(Clone, Copy, Debug, PartialEq, Eq)]
pub struct NotDone {
    pub number: u32,
    pub mark: Mark,
    pub count: u32,
}

/// The seeds of a job sheet, one at a time, in lent room of any length. Where the job is not done, that is the last item: whoever looks at each item meets it,
/// and `flatten` or `filter_map(Result::ok)` would throw it away. The job is done where `finish` gives its count, and only there; the compiler warns where that
/// is not used.
///
/// ```ignore
/// let mut job = Job::new(text, &mut words, &mut bytes);
/// for seed in &mut job {
///     start(seed?.value);
/// }
/// let count = job.finish()?;
/// ```
#[must_use = "a job is read as its seeds are taken, and is done only where `finish` says so"]
pub struct Job<'a> {
    state: [u32; JOB_WORDS],
    text: &'a [u8],
    words: &'a mut [u32],
    bytes: &'a mut [u8],
    handed: u32,
    closed: Option<Result<u32, NotDone>>,
}

impl<'a> Job<'a> {
    pub fn new(text: &'a [u8], words: &'a mut [u32], bytes: &'a mut [u8]) -> Self {
        Job { state: [0; JOB_WORDS], text, words, bytes, handed: 0, closed: None }
    }

    /// The count of its seeds, where the job is done and each of them was taken. A list may be empty: then it is 0. Where a seed is left, the job is not
    /// done, whatever the sheet has behind it: nothing is read that nobody sees.
    pub fn finish(mut self) -> Result<u32, NotDone> {
        let left = NotDone { number: 0, mark: Mark { index: 0, line: 0, col: 0 }, count: self.handed };
        // Who has taken the last seed need not have looked behind it.
        if let Some(Ok(_)) = self.next() {
            return Err(left);
        }
        self.closed.unwrap_or(Err(left))
    }

    fn call(&mut self) -> ([u32; SEED_WORDS], [u32; CLOSING_WORDS]) {
        let (mut seed, mut closing) = ([0u32; SEED_WORDS], [0u32; CLOSING_WORDS]);
        // Each part is lent with its own length, none overlaps another, and all are those of the call before.
        unsafe {
            tokenglade_job(
                self.state.as_mut_ptr(),
                self.text.as_ptr(),
                self.text.len(),
                self.words.as_mut_ptr(),
                self.words.len(),
                self.bytes.as_mut_ptr(),
                self.bytes.len(),
                seed.as_mut_ptr(),
                closing.as_mut_ptr(),
            );
        }
        (seed, closing)
    }
}

impl Iterator for Job<'_> {
    type Item = Result<Seed, NotDone>;

    fn next(&mut self) -> Option<Self::Item> {
        if self.closed.is_some() {
            return None;
        }
        let ([value, running], closing) = self.call();
        let [said, count, number, ..] = closing;
        if said == 0 {
            self.handed = running;
            return Some(Ok(Seed { value, count: running }));
        }
        let closed = if said == 1 { Ok(count) } else { Err(NotDone { number, mark: mark(&closing[3..6]), count }) };
        self.closed = Some(closed);
        closed.err().map(Err)
    }
}

impl std::iter::FusedIterator for Job<'_> {}

const NAMES: &str = include_str!("../include/tokenglade_names.h");

/// The words that the header has for a number: `TOKENGLADE_LIST(number, "words")`.
fn named(list: &str, number: u32) -> &'static str {
    let start = format!("TOKENGLADE_{list}({number}, \"");
    let line = NAMES.lines().find_map(|l| l.strip_prefix(&start));
    line.and_then(|l| l.strip_suffix("\")")).unwrap_or("unknown")
}

impl std::fmt::Display for Refusal {
    /// Columns are printed from 1, as editors count them.
    fn fmt(&self, f: &mut std::fmt::Formatter) -> std::fmt::Result {
        let words = named("REFUSAL", self.number);
        write!(f, "refused ({}) at line {}, column {}: {}", self.number, self.mark.line, self.mark.col + 1, words)
    }
}

impl std::error::Error for Refusal {}

impl std::fmt::Display for NotDone {
    fn fmt(&self, f: &mut std::fmt::Formatter) -> std::fmt::Result {
        let NotDone { number, mark, count } = self;
        if *number == 0 {
            return write!(f, "not done: finished while seeds were left, behind {count}");
        }
        let words = named("REFUSAL", *number);
        write!(f, "not done ({}) at line {}, column {}: {}; seeds before: {}", number, mark.line, mark.col + 1, words, count)
    }
}

impl std::error::Error for NotDone {}
