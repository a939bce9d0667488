// The JEDEC text reader, in plain steps: cut into fields, judge each, check the end, then the rules.
// Refusal 7 comes from the first three steps; 8, 9, 13, 10 and 11, in this order, only in a text of good form.

use crate::device::{refuse, Answer, Device};
use crate::image::low_16_of_sum;
use crate::layout::{put_fuse, Layout};

pub(crate) const STX: u8 = 2;
pub(crate) const ETX: u8 = 3;
const LONGEST_TEXT: usize = 1_048_576;

/// A stretch of text up to its `*`, and the offset where it starts.
struct Cut<'a> {
    start: usize,
    content: &'a [u8],
}

/// A text that starts with STX, cut at its stars.
struct CutText<'a> {
    design_text: Option<Cut<'a>>,
    fields: Vec<Cut<'a>>,
    /// Where the ETX after the last field is; None if the text ends before one.
    etx: Option<usize>,
}

/// What a field of good form says.
#[derive(Clone, Debug, PartialEq, Eq)]
enum Content {
    FuseCount(u32),
    StartState(bool),
    Fuses { first: u32, states: Vec<bool> },
    Checksum(u16),
    Skipped,
}

/// A field of good form, with the offset where it starts.
struct Field {
    start: usize,
    content: Content,
}

fn is_blank(byte: u8) -> bool {
    [b' ', b'\t', b'\r', b'\n'].contains(&byte)
}

/// The stretch from `start` up to the next star; None if no star follows.
fn cut_at_star(text: &[u8], start: usize) -> Option<Cut<'_>> {
    let length = text[start..].iter().position(|byte| *byte == b'*')?;
    Some(Cut {
        start,
        content: &text[start..start + length],
    })
}

/// Cuts a text whose byte 0 is STX. What the fields hold is not looked at here.
fn cut(text: &[u8]) -> CutText<'_> {
    let mut result = CutText {
        design_text: None,
        fields: Vec::new(),
        etx: None,
    };
    let Some(design_text) = cut_at_star(text, 1) else {
        return result;
    };
    let mut next = design_text.start + design_text.content.len() + 1;
    result.design_text = Some(design_text);
    loop {
        while next < text.len() && is_blank(text[next]) {
            next += 1;
        }
        if next == text.len() {
            return result;
        }
        if text[next] == ETX {
            result.etx = Some(next);
            return result;
        }
        let Some(field) = cut_at_star(text, next) else {
            return result;
        };
        next = field.start + field.content.len() + 1;
        result.fields.push(field);
    }
}

fn holds_stx_or_etx(content: &[u8]) -> bool {
    content.contains(&STX) || content.contains(&ETX)
}

/// The number that 1 to 7 decimal digits, and nothing else, write.
fn decimal(digits: &[u8]) -> Option<u32> {
    if digits.is_empty() || digits.len() > 7 || !digits.iter().all(u8::is_ascii_digit) {
        return None;
    }
    let mut number = 0;
    for digit in digits {
        number = 10 * number + u32::from(digit - b'0');
    }
    Some(number)
}

fn hex_digit(byte: u8) -> Option<u16> {
    match byte {
        b'0'..=b'9' => Some(u16::from(byte - b'0')),
        b'A'..=b'F' => Some(u16::from(byte - b'A') + 10),
        b'a'..=b'f' => Some(u16::from(byte - b'a') + 10),
        _ => None,
    }
}

/// The number that four hex digits, and nothing else, write.
fn four_hex(digits: &[u8]) -> Option<u16> {
    if digits.len() != 4 {
        return None;
    }
    let mut number = 0;
    for digit in digits {
        number = 16 * number + hex_digit(*digit)?;
    }
    Some(number)
}

/// The part after `L`: a number, a blank, then bits and blanks with at least one bit.
fn fuse_list(rest: &[u8]) -> Option<Content> {
    let number_length = rest.iter().position(|byte| is_blank(*byte))?;
    let first = decimal(&rest[..number_length])?;
    let mut states = Vec::new();
    for byte in &rest[number_length..] {
        match byte {
            b'0' => states.push(false),
            b'1' => states.push(true),
            other if is_blank(*other) => {}
            _ => return None,
        }
    }
    if states.is_empty() {
        return None;
    }
    Some(Content::Fuses { first, states })
}

/// What one field says; None if its form is bad.
fn content_of(field: &[u8]) -> Option<Content> {
    if holds_stx_or_etx(field) {
        return None;
    }
    for prefix in [&b"N"[..], b"J", b"X", b"QP", b"QV"] {
        if field.starts_with(prefix) {
            return Some(Content::Skipped);
        }
    }
    if let Some(rest) = field.strip_prefix(b"QF") {
        return decimal(rest).map(Content::FuseCount);
    }
    if field == b"F0" {
        return Some(Content::StartState(false));
    }
    if field == b"F1" {
        return Some(Content::StartState(true));
    }
    if let Some(rest) = field.strip_prefix(b"L") {
        return fuse_list(rest);
    }
    if let Some(rest) = field.strip_prefix(b"C") {
        return four_hex(rest).map(Content::Checksum);
    }
    None
}

/// Judges the fields in order: refusal 7 at the first of bad form or out of order.
fn judge(cuts: &[Cut]) -> Answer<Vec<Field>> {
    let mut seen_fuse_count = false;
    let mut seen_start_state = false;
    let mut seen_fuses = false;
    let mut seen_checksum = false;
    let mut fields = Vec::new();
    for cut in cuts {
        let Some(content) = content_of(cut.content) else {
            return refuse(7, cut.start as u64);
        };
        let in_order = match content {
            Content::FuseCount(_) => !seen_fuse_count,
            Content::StartState(_) => seen_fuse_count && !seen_start_state && !seen_fuses,
            Content::Fuses { .. } => seen_fuse_count && !seen_checksum,
            Content::Checksum(_) => seen_fuse_count && !seen_checksum,
            Content::Skipped => true,
        };
        if !in_order {
            return refuse(7, cut.start as u64);
        }
        match content {
            Content::FuseCount(_) => seen_fuse_count = true,
            Content::StartState(_) => seen_start_state = true,
            Content::Fuses { .. } => seen_fuses = true,
            Content::Checksum(_) => seen_checksum = true,
            Content::Skipped => {}
        }
        fields.push(Field {
            start: cut.start,
            content,
        });
    }
    Ok(fields)
}

/// The four hex digits after ETX and the blanks up to the end of the text.
fn transmission_sum_after(text: &[u8], etx: usize) -> Answer<u16> {
    let mut sum = 0;
    for offset in etx + 1..etx + 5 {
        let Some(byte) = text.get(offset) else {
            return refuse(7, text.len() as u64);
        };
        match hex_digit(*byte) {
            Some(digit) => sum = 16 * sum + digit,
            None => return refuse(7, offset as u64),
        }
    }
    for (offset, byte) in text.iter().enumerate().skip(etx + 5) {
        if !is_blank(*byte) {
            return refuse(7, offset as u64);
        }
    }
    Ok(sum)
}

/// The image that a text describes for a part with `fuse_count` fuses, be there such a device or not.
pub fn image_of_text(fuse_count: usize, text: &[u8]) -> Answer<Vec<u8>> {
    // Refusal 7: size, STX, design text, fields, ETX, what follows it.
    if text.len() > LONGEST_TEXT {
        return refuse(7, LONGEST_TEXT as u64);
    }
    if text.first() != Some(&STX) {
        return refuse(7, 0);
    }
    let cut_text = cut(text);
    if let Some(design_text) = &cut_text.design_text {
        if holds_stx_or_etx(design_text.content) {
            return refuse(7, design_text.start as u64);
        }
    }
    let fields = judge(&cut_text.fields)?;
    let Some(etx) = cut_text.etx else {
        return refuse(7, text.len() as u64);
    };
    let given_sum = transmission_sum_after(text, etx)?;

    // Refusal 8: the fuse count.
    let mut fuse_count_field = None;
    for field in &fields {
        if let Content::FuseCount(number) = field.content {
            fuse_count_field = Some((field.start, number));
        }
    }
    match fuse_count_field {
        None => return refuse(8, etx as u64),
        Some((start, number)) => {
            if number as usize != fuse_count {
                return refuse(8, start as u64);
            }
        }
    }

    // Refusal 9: the fuse lists, each against the one before it and the count.
    let mut end_before = 0;
    for field in &fields {
        if let Content::Fuses { first, states } = &field.content {
            let end = *first as usize + states.len();
            if (*first as usize) < end_before || end > fuse_count {
                return refuse(9, field.start as u64);
            }
            end_before = end;
        }
    }

    // Refusal 13: without a start state, the first fuse that no list gives.
    let mut has_start_state = false;
    let mut given = vec![false; fuse_count];
    for field in &fields {
        match &field.content {
            Content::StartState(_) => has_start_state = true,
            Content::Fuses { first, states } => {
                for offset in 0..states.len() {
                    given[*first as usize + offset] = true;
                }
            }
            _ => {}
        }
    }
    if !has_start_state {
        for (fuse, is_given) in given.iter().enumerate() {
            if !is_given {
                return refuse(13, fuse as u64);
            }
        }
    }

    // The image: the start state everywhere, then the listed fuses.
    let mut image = vec![0; fuse_count.div_ceil(8)];
    for field in &fields {
        if let Content::StartState(state) = field.content {
            for fuse in 0..fuse_count {
                put_fuse(&mut image, fuse, state);
            }
        }
    }
    for field in &fields {
        if let Content::Fuses { first, states } = &field.content {
            for (offset, state) in states.iter().enumerate() {
                put_fuse(&mut image, *first as usize + offset, *state);
            }
        }
    }

    // Refusal 10: the fuse checksum.
    for field in &fields {
        if let Content::Checksum(sum) = field.content {
            if sum != low_16_of_sum(&image) {
                return refuse(10, field.start as u64);
            }
        }
    }

    // Refusal 11: the transmission checksum; 0000 is not given.
    if given_sum != 0 && given_sum != low_16_of_sum(&text[..=etx]) {
        return refuse(11, etx as u64);
    }
    Ok(image)
}

/// Reads a JEDEC text into an image.
pub fn text_to_image(device: Device, text: &[u8], image: &mut [u8]) -> Answer<()> {
    let layout = Layout::of(device)?;
    layout.check_image(image)?;
    let finished = image_of_text(layout.fuses.len(), text)?;
    image.copy_from_slice(&finished);
    Ok(())
}

/// The number in the first QF field, if the text has one of good form.
pub(crate) fn first_fuse_count(text: &[u8]) -> Option<u32> {
    if text.first() != Some(&STX) {
        return None;
    }
    for field in cut(text).fields {
        if field.content.starts_with(b"QF") {
            return match content_of(field.content) {
                Some(Content::FuseCount(number)) => Some(number),
                _ => None,
            };
        }
    }
    None
}
