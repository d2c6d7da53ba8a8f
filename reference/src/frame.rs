//! A frame: one call as a line of uppercase hexadecimal digits.

use crate::call::Call;

/// Most digits in a frame.
pub const MOST_DIGITS: usize = 4000;

/// The call that a line without its line feed stands for; none if the line
/// is too long or malformed.
pub fn parse(line: &[u8]) -> Option<Call> {
    if line.len() > MOST_DIGITS || !line.len().is_multiple_of(2) {
        return None;
    }
    let bytes: Vec<u8> = line.chunks(2).map(byte).collect::<Option<_>>()?;
    let (&call, arguments) = bytes.split_first()?;
    if call == 6 {
        let (shelf, file) = arguments.split_first_chunk::<4>()?;
        return Some(Call::Load { shelf: u32::from_be_bytes(*shelf), file: file.to_vec() });
    }
    let (groups, rest) = arguments.as_chunks::<4>();
    let words: Vec<u32> = groups.iter().map(|group| u32::from_be_bytes(*group)).collect();
    if !rest.is_empty() {
        return None;
    }
    call_of(call, &words)
}

/// The call of a number and its arguments' words.
fn call_of(call: u8, words: &[u32]) -> Option<Call> {
    match (call, words) {
        (1, &[delta, epsilon, shelves, shelf_words]) => {
            Some(Call::Open { delta, epsilon, shelves, shelf_words })
        }
        (2, &[shelf, beats, ref notes @ ..]) => {
            Some(Call::Lay { shelf, beats, notes: notes.to_vec() })
        }
        (3, &[take, beat, left, right]) => Some(Call::Split { take, beat, left, right }),
        (4, &[first, second, result]) => Some(Call::Join { first, second, result }),
        (5, &[shelf]) => Some(Call::Write { shelf }),
        _ => None,
    }
}

fn byte(digits: &[u8]) -> Option<u8> {
    match digits {
        [high, low] => Some(digit(*high)? << 4 | digit(*low)?),
        _ => None,
    }
}

fn digit(character: u8) -> Option<u8> {
    match character {
        b'0'..=b'9' => Some(character - b'0'),
        b'A'..=b'F' => Some(character - b'A' + 10),
        _ => None,
    }
}

/// The line that stands for a call, without its line feed.
pub fn print(call: &Call) -> Vec<u8> {
    let (number, words, file): (u8, Vec<u32>, &[u8]) = match *call {
        Call::Open { delta, epsilon, shelves, shelf_words } => {
            (1, vec![delta, epsilon, shelves, shelf_words], &[])
        }
        Call::Lay { shelf, beats, ref notes } => (2, [&[shelf, beats], &notes[..]].concat(), &[]),
        Call::Split { take, beat, left, right } => (3, vec![take, beat, left, right], &[]),
        Call::Join { first, second, result } => (4, vec![first, second, result], &[]),
        Call::Write { shelf } => (5, vec![shelf], &[]),
        Call::Load { shelf, ref file } => (6, vec![shelf], file),
    };
    let mut line = Vec::new();
    put_hexadecimal(&mut line, &[number]);
    for word in words {
        put_hexadecimal(&mut line, &word.to_be_bytes());
    }
    put_hexadecimal(&mut line, file);
    line
}

/// Puts two uppercase digits for each byte.
pub fn put_hexadecimal(line: &mut Vec<u8>, bytes: &[u8]) {
    const DIGITS: &[u8; 16] = b"0123456789ABCDEF";
    for byte in bytes {
        line.push(DIGITS[usize::from(byte >> 4)]);
        line.push(DIGITS[usize::from(byte & 15)]);
    }
}
