//! The listing program: from the bytes of its input to the text that it prints.

use crate::change::Request;
use crate::listing::runs;
use crate::rights::Rights;
use crate::shape::Shape;
use crate::state::has_room;
use crate::Refusal;

const SHAPE: Shape = Shape::new(4, 8, 64);
const LONGEST: usize = 60;
const NOT_OF_THE_FORM: u32 = 99;

/// The lines of an input, without their newlines; a last line without one counts.
fn lines(input: &[u8]) -> Vec<&[u8]> {
    let mut lines: Vec<&[u8]> = input.split(|byte| *byte == b'\n').collect();
    if lines.last().is_some_and(|last| last.is_empty()) {
        lines.pop();
    }
    lines
}

/// A number of decimal digits, at most 4294967295.
fn number(digits: &[u8]) -> Option<u32> {
    if digits.is_empty() || !digits.iter().all(u8::is_ascii_digit) {
        return None;
    }
    digits.iter().try_fold(0u32, |value, digit| value.checked_mul(10)?.checked_add(u32::from(digit - b'0')))
}

/// The change of a line `S domain start length right`, if the line is of that form.
pub fn parse(line: &[u8]) -> Option<Request> {
    if line.len() > LONGEST {
        return None;
    }
    let fields: Vec<&[u8]> = line.split(|byte| *byte == b' ').collect();
    let [letter, domain, start, length, right] = fields[..] else {
        return None;
    };
    if letter != b"S" {
        return None;
    }
    Some(Request { domain: number(domain)?, start: number(start)?, length: number(length)?, right: number(right)? })
}

/// What the program prints: a number for each line, then the listing.
pub fn output(input: &[u8]) -> String {
    let mut rights = vec![Rights::none(); SHAPE.domains as usize];
    let mut text = String::new();
    for line in lines(input) {
        let number = match parse(line) {
            Some(request) => change(&mut rights, request).err().unwrap_or(0),
            None => NOT_OF_THE_FORM,
        };
        text.push_str(&format!("{number}\n"));
    }
    for run in runs(&rights) {
        text.push_str(&format!("{} {} {} {}\n", run.domain, run.first, run.last, run.right));
    }
    text
}

/// A change as the program makes it, seen in the rights alone.
fn change(rights: &mut [Rights], request: Request) -> Result<(), Refusal> {
    let region = request.region(SHAPE.domains)?;
    let domain = request.domain as usize;
    let painted = rights[domain].painted(region.lo, region.hi, request.right);
    let old = std::mem::replace(&mut rights[domain], painted);
    if !has_room(SHAPE, rights) {
        rights[domain] = old;
        return Err(8);
    }
    Ok(())
}
