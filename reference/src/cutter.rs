//! The program "cutter": frames in, one answer line for each.

use crate::call::{perform, Call};
use crate::frame::{parse, put_hexadecimal, MOST_DIGITS};
use crate::question;
use std::io::{self, BufRead, Write};

/// Most words of its session.
pub const MOST_SESSION_WORDS: usize = 8192;
/// Bytes of its output.
pub const OUTPUT_BYTES: usize = 8192;
/// The number of a line that is no frame.
const MALFORMED: u8 = 0xFF;

/// The session between frames. Before an accepted open it has no words, so
/// that question 1 refuses every other call.
pub struct Cutter {
    session: Vec<u32>,
    output: Vec<u8>,
    /// Room for the last answer.
    answer: Vec<u8>,
}

impl Default for Cutter {
    fn default() -> Self {
        Cutter { session: Vec::new(), output: vec![0; OUTPUT_BYTES], answer: Vec::new() }
    }
}

impl Cutter {
    /// The answer to one line, with its line feed.
    pub fn answer(&mut self, line: &[u8]) -> &[u8] {
        self.answer.clear();
        match parse(line) {
            None => put_hexadecimal(&mut self.answer, &[MALFORMED]),
            Some(call) => {
                let (number, count) = self.perform(&call);
                put_hexadecimal(&mut self.answer, &[number as u8]);
                put_hexadecimal(&mut self.answer, &self.output[..count as usize]);
            }
        }
        self.answer.push(b'\n');
        &self.answer
    }

    /// Carries a call out; gives its number and the bytes written.
    pub fn perform(&mut self, call: &Call) -> (u32, u64) {
        match *call {
            Call::Open { shelves, shelf_words, .. } => (self.open(call, shelves, shelf_words), 0),
            _ => perform(call, &mut self.session, &mut self.output),
        }
    }

    /// The session's words, none before an accepted open.
    pub fn session(&self) -> &[u32] {
        &self.session
    }

    /// A refused open keeps the earlier session, so a new one is made first.
    fn open(&mut self, call: &Call, shelves: u32, shelf_words: u32) -> u32 {
        let words = 4 + u64::from(shelves) * u64::from(shelf_words);
        if words > MOST_SESSION_WORDS as u64 {
            return question::SESSION;
        }
        let mut session = vec![0; words as usize];
        let (number, _) = perform(call, &mut session, &mut []);
        if number == 0 {
            self.session = session;
        }
        number
    }
}

/// Answers every line of the input. No more of a line is kept than shows
/// that it is too long.
pub fn run(mut input: impl BufRead, mut output: impl Write) -> io::Result<()> {
    let mut cutter = Cutter::default();
    let mut line = Vec::with_capacity(MOST_DIGITS + 1);
    loop {
        let part = input.fill_buf()?;
        if part.is_empty() {
            break;
        }
        let end = part.iter().position(|&byte| byte == b'\n');
        let kept = end.unwrap_or(part.len()).min(MOST_DIGITS + 1 - line.len());
        line.extend_from_slice(&part[..kept]);
        let passed = end.map_or(part.len(), |end| end + 1);
        input.consume(passed);
        if end.is_some() {
            output.write_all(cutter.answer(&line))?;
            line.clear();
        }
    }
    if !line.is_empty() {
        output.write_all(cutter.answer(&line))?;
    }
    output.flush()
}
