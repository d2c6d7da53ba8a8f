//! The cutter: the paper's example, malformed lines and its limits.

use reference::call::Call;
use reference::cutter::{run, Cutter};
use reference::frame::{parse, print};
use reference::generate::frames::Frames;
use reference::plain;
use std::io::BufReader;

/// The cutter's whole output for an input, read in parts of various sizes.
fn cut(input: &[u8]) -> String {
    let mut whole = Vec::new();
    run(input, &mut whole).unwrap();
    for part in [1, 7, 64] {
        let mut output = Vec::new();
        run(BufReader::with_capacity(part, input), &mut output).unwrap();
        assert!(output == whole, "read in parts of {part}");
    }
    String::from_utf8(whole).unwrap()
}

const OPEN: &str = "010000000A000000030000000400000020\n";

/// The answers to lines behind an accepted open.
fn after_open(lines: &str) -> String {
    let output = cut((OPEN.to_owned() + lines).as_bytes());
    output.strip_prefix("00\n").expect("the open is accepted").to_owned()
}

#[test]
fn the_example() {
    let input = "010000000A000000030000000400000020
0200000000000000020000003C000000080000000C00000064
0300000000000000010000000100000002
04000000010000000200000003
0500000001
0500000003
";
    let output = "00
00
00
00
004D5468640000000600000001000A4D54726B000000040AFF2F00
004D5468640000000600000001000A4D54726B0000000C08903C6404803C4008FF2F00
";
    assert_eq!(cut(input.as_bytes()), output);
}

#[test]
fn ends_of_lines_and_of_the_input() {
    assert_eq!(cut(b""), "");
    assert_eq!(cut(b"\n"), "FF\n");
    assert_eq!(cut(b"\n\n"), "FF\nFF\n");
    assert_eq!(cut(b"0500000000"), "01\n");
    assert_eq!(cut(b"0500000000\n"), "01\n");
    assert_eq!(cut(b"0500000000\n0"), "01\nFF\n");
}

#[test]
fn other_characters() {
    for byte in 0..=255u8 {
        let digit = byte.is_ascii_digit() || (b'A'..=b'F').contains(&byte);
        if digit || byte == b'\n' {
            continue;
        }
        for place in [0, 1, 5, 9] {
            let mut line = *b"0500000000";
            line[place] = byte;
            assert_eq!(cut(&line), "FF\n", "byte {byte:02X} at {place}");
        }
        assert_eq!(cut(&[byte]), "FF\n", "byte {byte:02X}");
    }
    assert_eq!(cut(b"0500000000\r\n"), "FF\n");
    assert_eq!(cut(b" 0500000000\n"), "FF\n");
}

#[test]
fn odd_digits_unknown_calls_and_wrong_words() {
    let words = |call: &str, bytes: usize| format!("{call}{}\n", "00".repeat(bytes));
    assert_eq!(after_open("0\n050000000\n05000000000\n"), "FF\nFF\nFF\n");
    for call in (0..=255).filter(|call| !(1..=6).contains(call)) {
        assert_eq!(after_open(&words(&format!("{call:02X}"), 4)), "FF\n", "call {call:02X}");
    }
    for (call, right) in [("01", 16), ("03", 16), ("04", 12), ("05", 4)] {
        for bytes in (0..24).filter(|&bytes| bytes != right) {
            assert_eq!(after_open(&words(call, bytes)), "FF\n", "call {call}, {bytes} bytes");
        }
        assert_ne!(after_open(&words(call, right)), "FF\n", "call {call}");
    }
}

#[test]
fn lay_takes_any_count_of_whole_words() {
    for bytes in 0..40 {
        let answer = after_open(&format!("02{}\n", "00".repeat(bytes)));
        let expected = match bytes {
            8 => "00\n",
            _ if bytes < 8 || bytes % 4 != 0 => "FF\n",
            _ => "07\n",
        };
        assert_eq!(answer, expected, "{bytes} bytes");
    }
}

#[test]
fn load_takes_any_count_of_bytes() {
    for bytes in 0..12 {
        let answer = after_open(&format!("06{}\n", "00".repeat(bytes)));
        assert_eq!(answer, if bytes < 4 { "FF\n" } else { "09\n" }, "{bytes} bytes");
    }
}

#[test]
fn before_an_accepted_open() {
    let calls = "0200000000000000000000000000000000
0300000000000000010000000100000002
04000000010000000200000003
0500000001
0600000000
05
";
    assert_eq!(cut(calls.as_bytes()), "01\n01\n01\n01\n01\nFF\n");
    let refused =
        "010000000000000003000000040000002\n0100000000000000030000000400000020\n0500000000\n";
    assert_eq!(cut(refused.as_bytes()), "FF\n01\n01\n");
}

#[test]
fn lines_of_4000_digits() {
    // A load of 1,995 file bytes is well formed; one digit or byte more is not.
    for (digits, expected) in
        [(3998, "09\n"), (4000, "09\n"), (4001, "FF\n"), (4002, "FF\n"), (90_000, "FF\n")]
    {
        let line = format!("06{}", "0".repeat(digits - 2));
        assert_eq!(after_open(&line), expected, "{digits} digits");
        assert_eq!(after_open(&(line + "\n0500000004\n")), expected.to_owned() + "02\n");
    }
}

#[test]
fn sessions_of_8192_words() {
    let open = |shelves: u32, words: u32| format!("010000000A00000003{shelves:08X}{words:08X}\n");
    assert_eq!(cut(open(1, 8188).as_bytes()), "00\n");
    assert_eq!(cut(open(1, 8189).as_bytes()), "01\n");
    assert_eq!(cut(open(2, 4094).as_bytes()), "00\n");
    assert_eq!(cut(open(2, 4095).as_bytes()), "01\n");
    assert_eq!(cut(open(64, 127).as_bytes()), "00\n");
    assert_eq!(cut(open(64, 128).as_bytes()), "01\n");
    assert_eq!(cut(open(65, 3).as_bytes()), "01\n");
    assert_eq!(cut(open(65_536, 65_536).as_bytes()), "01\n");
    assert_eq!(cut(open(u32::MAX, u32::MAX).as_bytes()), "01\n");
}

#[test]
fn a_refused_open_keeps_the_session_and_an_accepted_one_starts_afresh() {
    let lay = "0200000000000000020000003C000000080000000C00000064\n";
    let write = "0500000000\n";
    let refused = "010000000A0000000B0000000400000020\n";
    let kept = after_open(&format!("{lay}{refused}{write}"));
    assert_eq!(
        kept,
        "00\n01\n004D5468640000000600000001000A4D54726B0000000C08903C6404803C4008FF2F00\n"
    );
    let afresh = after_open(&format!("{lay}{OPEN}{write}"));
    assert_eq!(afresh, "00\n00\n004D5468640000000600000001000A4D54726B0000000400FF2F00\n");
}

/// A file of 250 notes in one lane, the first at a tick; so many of the
/// other times are 128 ticks and take two bytes, the rest one tick.
fn file_of_250(delta: u32, first: u32, long_times: usize, end: u32) -> Vec<u8> {
    let groups = |ticks: u32| {
        let all = [ticks >> 14 | 0x80, ticks >> 7 & 0x7F | 0x80, ticks & 0x7F];
        all.map(|group| group as u8)
    };
    let mut track = groups(first).to_vec();
    track.extend([0x90, 60, 9]);
    for event in 1..500 {
        let time: &[u8] = if event <= long_times { &[0x81, 0x00] } else { &[0x01] };
        track.extend(time);
        track.extend([60, if event % 2 == 1 { 0 } else { 9 }]);
    }
    track.extend(groups(end - first - 499 - 127 * long_times as u32));
    track.extend([0xFF, 0x2F, 0x00]);
    let mut file = b"MThd\0\0\0\x06\0\0\0\x01".to_vec();
    file.extend((delta as u16).to_be_bytes());
    file.extend(b"MTrk");
    file.extend((track.len() as u32).to_be_bytes());
    file.extend(track);
    file
}

/// The answer to a write of the file's take joined with itself, twice.
fn written_fourfold(delta: u32, file: Vec<u8>) -> String {
    let calls = [
        Call::Open { delta, epsilon: 1, shelves: 2, shelf_words: 4094 },
        Call::Load { shelf: 0, file },
        Call::Join { first: 0, second: 0, result: 1 },
        Call::Join { first: 1, second: 1, result: 0 },
        Call::Write { shelf: 0 },
    ];
    let lines: Vec<Vec<u8>> = calls.iter().map(print).collect();
    let output = cut(&lines.join(&b'\n'));
    let answers: Vec<&str> = output.lines().collect();
    assert_eq!(answers[..4], ["00"; 4]);
    answers[4].to_owned()
}

#[test]
fn an_output_of_8192_bytes() {
    // Four times 250 notes of 8 bytes, less the first times, and the long
    // times; four first times and the last of 3 bytes: 8,192 bytes in all.
    let file = |long_times| file_of_250(32_767, 32_777, long_times, 3 * 32_767);
    let answer = written_fourfold(32_767, file(39));
    assert_eq!((&answer[..2], answer.len()), ("00", 2 + 2 * 8192));
    let answer = written_fourfold(32_767, file(38));
    assert_eq!((&answer[..2], answer.len()), ("00", 2 + 2 * 8188));
    assert_eq!(written_fourfold(32_767, file(40)), "0F");
    // A first and a last time of 1 byte and three of 2 make 8,193 bytes.
    let delta = 200 + 499 + 127 * 41;
    assert_eq!(written_fourfold(delta, file_of_250(delta, 100, 41, delta)), "0F");
    let answer = written_fourfold(delta - 127, file_of_250(delta - 127, 100, 40, delta - 127));
    assert_eq!((&answer[..2], answer.len()), ("00", 2 + 2 * 8189));
}

#[test]
fn printed_calls_are_read_back() {
    for line in Frames::new(5).take(3000) {
        if let Some(call) = parse(&line) {
            assert_eq!(print(&call), line);
        }
    }
}

#[test]
fn random_frames_against_the_literal_calls() {
    for seed in 0..20 {
        let mut cutter = Cutter::default();
        for (place, line) in Frames::new(seed).take(600).enumerate() {
            let session = cutter.session().to_vec();
            let answer = cutter.answer(&line).to_vec();
            let expected = match parse(&line) {
                None => "FF\n".to_owned(),
                Some(Call::Open { .. }) => continue,
                Some(call) => {
                    let outcome = plain::calls::perform(&call, &session, &[0; 8192]);
                    assert!(cutter.session() == outcome.session, "seed {seed}, line {place}");
                    let file = &outcome.output[..outcome.count as usize];
                    let digits: String = file.iter().map(|byte| format!("{byte:02X}")).collect();
                    format!("{:02X}{digits}\n", outcome.number)
                }
            };
            assert_eq!(String::from_utf8(answer).unwrap(), expected, "seed {seed}, line {place}");
        }
    }
}

#[test]
fn random_frames_reach_every_number() {
    let mut input = Vec::new();
    for line in Frames::new(77).take(20_000) {
        input.extend(line);
        input.push(b'\n');
    }
    let mut output = Vec::new();
    run(&input[..], &mut output).unwrap();
    let output = String::from_utf8(output).unwrap();
    assert_eq!(output.lines().count(), 20_000);
    for number in [
        "00", "01", "02", "03", "05", "06", "07", "08", "09", "0A", "0B", "0C", "0D", "0E", "0F",
        "FF",
    ] {
        let count = output.lines().filter(|line| line.starts_with(number)).count();
        assert!(count >= 10, "{number} occurs {count} times");
    }
}
