//! Inputs of the listing program: lines in order, lines of every refusal, lines not of the form, and bytes.

use super::requests;
use crate::rng::Rng;
use model::change::Request;

pub fn line(request: Request) -> String {
    format!("S {} {} {} {}", request.domain, request.start, request.length, request.right)
}

/// Inputs with one thing each to be seen: the name, and the bytes.
pub fn named() -> Vec<(&'static str, Vec<u8>)> {
    let sixty = format!("S 0 0 4 {:0>52}", 1);
    let long = format!("S 0 0 4 {:0>53}", 1);
    assert_eq!((sixty.len(), long.len()), (60, 61));
    let twice_over = format!("{long}{long}{long}\n{sixty}\n");
    let text = |text: &str| text.as_bytes().to_vec();
    vec![
        ("the paper's example", text("S 1 4096 64 2\nS 1 4104 4 1\nS 2 4104 4 2\n")),
        ("empty input", text("")),
        ("an empty line", text("\n")),
        ("empty lines", text("\n\nS 0 0 4 1\n\n")),
        ("no newline at the end", text("S 0 0 4 1\nS 1 8 4 2")),
        ("no newline after a line not of the form", text("S 0 0 4 1\nS 1 8 4")),
        ("60 bytes", text(&sixty)),
        ("60 bytes and a newline", text(&format!("{sixty}\n"))),
        ("61 bytes", text(&long)),
        ("61 bytes and a newline", text(&format!("{long}\nS 0 8 4 1\n"))),
        ("a line much too long", text(&twice_over)),
        ("the greatest number", text("S 0 0 4294967295 1\n")),
        ("a number too great", text("S 0 0 4294967296 1\nS 4294967296 0 4 1\nS 0 99999999999999999999 4 1\n")),
        ("two spaces", text("S  0 0 4 1\nS 0 0  4 1\n")),
        ("a space at the end", text("S 0 0 4 1 \n")),
        ("a space at the start", text(" S 0 0 4 1\n")),
        ("leading zeros", text("S 00 0064 0004 01\n")),
        ("carriage return", text("S 0 0 4 1\r\n")),
        ("tab", text("S\t0 0 4 1\n")),
        ("NUL", b"S 0 0 4 1\0\n\0\nS 0 0 4\x001\n".to_vec()),
        ("signs, letters and points", text("S +0 0 4 1\nS 0 -0 4 1\nS 0 0x0 4 1\nS 0 0 4. 1\ns 0 0 4 1\n")),
        ("too few fields", text("S\nS 0\nS 0 0\nS 0 0 4\nS 0 0 4 \nS  0 0 4\n")),
        ("too many fields", text("S 0 0 4 1 1\n")),
        ("another letter", text("T 0 0 4 1\nSS 0 0 4 1\n0 0 4 1\n")),
        ("refused 2", text("S 4 0 4 1\nS 4294967295 0 0 9\n")),
        ("refused 3", text("S 3 0 4 4\nS 0 0 0 4294967295\n")),
        ("refused 4", text("S 3 4 0 3\n")),
        ("refused 5", text("S 3 4294967292 5 3\nS 0 4 4294967295 1\n")),
        ("refused 8 for middle tables", refused_for_room(1 << 22, 10)),
        ("refused 8 for leaves", refused_for_room(1 << 12, 66)),
        ("changes undone", undone()),
        ("every start and length in the middle of words", middles(0x1000)),
        ("every start and length at the top of memory", middles(0xFFFF_FFF8)),
        ("a sum that does not fit 32 bits", text("S 0 1 4294967295 1\nS 1 2 4294967295 1\nS 1 3 4294967294 1\n")),
        ("the first and the last word", text("S 0 0 4 1\nS 0 4294967292 4 3\n")),
        ("all memory in all domains", text("S 0 0 4294967295 1\nS 1 0 4294967295 1\nS 2 0 4294967295 1\n")),
        ("high bytes", vec![0xFF, 0x80, b'\n', b'S', b' ', 0xB2, b'\n', 0xC3, 0xA9]),
    ]
}

/// A word in each of more blocks or pages than there are places for; the room that comes free is used again.
fn refused_for_room(apart: u32, count: u32) -> Vec<u8> {
    let word = |i: u32, right| Request { domain: i % 4, start: i * apart, length: 4, right };
    let mut lines: Vec<String> = (0..count).map(|i| line(word(i, 1))).collect();
    lines.push(line(word(0, 0)));
    lines.push(line(word(count, 3)));
    lines.push(line(word(count + 1, 3)));
    lines.join("\n").into_bytes()
}

/// Starts in two words and lengths of up to three, each line with another right than the one before.
fn middles(from: u32) -> Vec<u8> {
    let pairs = (0..8).flat_map(|more| (0..13).map(move |length| (from + more, length)));
    let requests =
        pairs.zip(0..).map(|((start, length), i)| Request { domain: i % 4, start, length, right: 1 + i % 3 });
    let lines: Vec<String> = requests.map(line).collect();
    lines.join("\n").into_bytes()
}

fn undone() -> Vec<u8> {
    let mut lines = Vec::new();
    for i in 0..20 {
        let change = Request { domain: i % 4, start: 4100 * i, length: 40 * i + 1, right: 1 + i % 3 };
        lines.push(line(change));
        lines.push(line(Request { right: 0, ..change }));
    }
    lines.join("\n").into_bytes()
}

/// A listing of tens of thousands of runs: words of two rights by turns, in as many pages as there are leaves.
pub fn many_runs(pages: u32) -> Vec<u8> {
    let mut text = String::new();
    for page in 0..pages {
        let (domain, start) = (page % 4, page / 4 * 4096);
        text.push_str(&line(Request { domain, start, length: 4096, right: 1 }));
        text.push('\n');
        for word in (0..1024).step_by(2) {
            text.push_str(&line(Request { domain, start: start + 4 * word, length: 4, right: 2 }));
            text.push('\n');
        }
    }
    text.into_bytes()
}

/// Lines mostly in order, sometimes with a byte changed, dropped or added.
pub fn random(rng: &mut Rng, lines: usize) -> Vec<u8> {
    let mut bytes = Vec::new();
    for _ in 0..lines {
        let request = if rng.once_in(4) { requests::clearing(rng, 4) } else { requests::any(rng, 4) };
        let mut line = line(request).into_bytes();
        if rng.once_in(6) {
            spoil(rng, &mut line);
        }
        bytes.extend(line);
        bytes.push(b'\n');
    }
    if rng.once_in(2) {
        bytes.pop();
    }
    bytes
}

fn spoil(rng: &mut Rng, line: &mut Vec<u8>) {
    let at = rng.index(line.len());
    let byte = rng.pick(b" \t\r\0S0019:/-\xFF\n");
    match rng.below(4) {
        0 => line[at] = byte,
        1 => line.insert(at, byte),
        2 => {
            line.remove(at);
        }
        _ => line.extend(std::iter::repeat_n(b'0', rng.index(70))),
    }
}

/// Bytes without order.
pub fn bytes(rng: &mut Rng, count: usize) -> Vec<u8> {
    (0..count).map(|_| if rng.once_in(40) { b'\n' } else { rng.below(256) as u8 }).collect()
}
