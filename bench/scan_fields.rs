//! The yardstick of bench/bytes.py for frames and their fields, in plain Rust: reads a file of frames, one behind the other,
//! and then takes each by its length, compares its sum, and notes of each field of its body the tag and the value, with a data
//! field as long as the length field before it says. Prints the nanoseconds of that pass before what it found.
mod read_file;

use std::time::Instant;

const SOH: u8 = 1;
const HEAD: &[u8] = b"8=FIX.4.4\x019=";
const MOST_FIELDS: usize = 4_096;

struct Field<'a> {
    tag: u32,
    value: &'a [u8],
}

/// The tag of the data field behind a length field of this tag.
fn data_tag_of(tag: u32) -> Option<u32> {
    match tag {
        90 => Some(91),
        93 => Some(89),
        95 => Some(96),
        212 => Some(213),
        348 => Some(349),
        350 => Some(351),
        352 => Some(353),
        354 => Some(355),
        356 => Some(357),
        358 => Some(359),
        360 => Some(361),
        362 => Some(363),
        364 => Some(365),
        445 => Some(446),
        618 => Some(619),
        621 => Some(622),
        _ => None,
    }
}

/// The digits at the front of the text as a number, and how many they are.
fn read_digits(text: &[u8], most: usize) -> (u64, usize) {
    let (mut number, mut count) = (0u64, 0);
    for byte in text.iter().take(most).take_while(|byte| byte.is_ascii_digit()) {
        number = number.wrapping_mul(10).wrapping_add(u64::from(byte - b'0'));
        count += 1;
    }
    (number, count)
}

/// How many bytes the value at the front of the text has, behind the field before, where it has an end.
fn value_length(text: &[u8], tag: u32, before: Option<&Field>) -> Option<usize> {
    match before {
        Some(before) if data_tag_of(before.tag) == Some(tag) => {
            let (length, digits) = read_digits(before.value, 20);
            let length = length as usize;
            (digits == before.value.len() && text.get(length) == Some(&SOH)).then_some(length)
        }
        _ => text.iter().position(|byte| *byte == SOH),
    }
}

/// Notes the fields of a body, unless one is at fault.
fn read_fields<'a>(mut body: &'a [u8], fields: &mut Vec<Field<'a>>) -> Option<()> {
    fields.clear();
    while !body.is_empty() {
        let (tag, digits) = read_digits(body, 9);
        if digits == 0 || body[0] == b'0' || body.get(digits) != Some(&b'=') {
            return None;
        }
        let (tag, text) = (tag as u32, &body[digits + 1..]);
        let length = value_length(text, tag, fields.last())?;
        if length == 0 || fields.len() == MOST_FIELDS {
            return None;
        }
        fields.push(Field { tag, value: &text[..length] });
        body = &text[length + 1..];
    }
    Some(())
}

/// The body of the frame at the front of the text, and how many bytes the frame has, where there is one and its sum is right.
fn take_frame(text: &[u8]) -> Option<(&[u8], usize)> {
    let rest = text.strip_prefix(HEAD)?;
    let (length, digits) = read_digits(rest, 9);
    let start = HEAD.len() + digits + 1;
    let end = start + length as usize;
    if digits == 0 || text.len() < end + 7 || text[start - 1] != SOH {
        return None;
    }
    let (body, tail) = (&text[start..end], &text[end..end + 7]);
    if !body.starts_with(b"35=") || body[body.len() - 1] != SOH || !tail.starts_with(b"10=") || tail[6] != SOH {
        return None;
    }
    let sum = text[..end].iter().fold(0u8, |sum, byte| sum.wrapping_add(*byte));
    (read_digits(&tail[3..], 3) == (u64::from(sum), 3)).then_some((body, end + 7))
}

fn main() {
    let text = read_file::read_file();
    let mut fields = Vec::with_capacity(MOST_FIELDS);
    let start = Instant::now();
    let (mut good, mut found, mut faults) = (0, 0, 0);
    let mut rest = text.as_slice();
    while let Some((body, size)) = take_frame(rest) {
        good += 1;
        match read_fields(body, &mut fields) {
            Some(()) => found += fields.len(),
            None => faults += 1,
        }
        rest = &rest[size..];
    }
    let taken = start.elapsed().as_nanos();
    println!("{taken} good {good} garbled {} fields {found} faults {faults}", rest.len());
}
