// The JEDEC text as it would be written and read in Rust, for the benchmark: eight bytes a word.
// The tests hold both ways to the reference, answer by answer and byte by byte.

use crate::optimised::{
    each_two_rows, put_u64, refuse, sum_of_bytes, u64_at, Part, MAIN_IMAGE_BYTES,
};
use std::io::Write;
use xc9500_reference::{Answer, Device};

const STX: u8 = 2;
const ETX: u8 = 3;

/// In each byte of a word the same.
const ONES: u64 = 0x0101_0101_0101_0101;

/// The text of a main row, which is three lines, of a wire-AND row, and of a main area.
const MAIN_ROW: usize = 55 + 53 + 45;
const WIRE_AND_ROW: usize = 51;
const MAIN_TEXT: usize = 72 * MAIN_ROW;

/// A fuse number, a decimal digit a byte, the last digit lowest.
#[derive(Clone, Copy)]
struct Decimal(u64);

impl Decimal {
    /// The sum, which has at most seven digits.
    #[inline]
    fn plus(self, number: Decimal) -> Decimal {
        // With 246 on top a digit of ten or more goes over into the next byte and leaves what is
        // past ten; where none went over, the 246 come off again.
        let sum = self.0 + number.0 + 246 * ONES;
        Decimal(sum - 246 * (sum >> 7 & ONES))
    }

    /// The start of an L line.
    #[inline]
    fn label(self) -> u64 {
        (0x4C30_3030_3030_3030 + self.0).swap_bytes()
    }
}

/// The digits of each byte, its bit 0 first.
static DIGITS: [u64; 256] = {
    let mut digits = [ONES * b'0' as u64; 256];
    let mut byte = 0;
    while byte < 256 {
        let mut bit = 0;
        while bit < 8 {
            digits[byte] += (byte as u64 >> bit & 1) << (8 * bit);
            bit += 1;
        }
        byte += 1;
    }
    digits
};

/// The digits of the lowest byte of a word.
#[inline]
fn digits(bits: u64) -> u64 {
    DIGITS[bits as u8 as usize]
}

/// Writes the text of an image; answers the bytes that it takes.
pub fn image_to_text(device: Device, image: &[u8], text: &mut [u8]) -> Answer<usize> {
    let part = Part::of(device)?;
    part.check_image(image)?;
    let blocks = device.blocks as usize;
    let block_text = MAIN_TEXT + 18 * WIRE_AND_ROW * blocks;
    let start = format!("\x02*\nQF{}*\nF0*\n", part.fuses);
    let end = format!("C{:04X}*\n\x03", sum_of_bytes(image));
    let before_sum = start.len() + blocks * block_text + end.len();
    let needed = before_sum + 4;
    let Some(text) = text.get_mut(..needed) else {
        return refuse(12, needed as u64);
    };

    let (to_start, rest) = text.split_at_mut(start.len());
    let (to_lines, to_end) = rest.split_at_mut(blocks * block_text);
    to_start.copy_from_slice(start.as_bytes());
    to_end[..end.len()].copy_from_slice(end.as_bytes());
    let images = image.chunks_exact(part.block_image_bytes());
    let texts = to_lines.chunks_exact_mut(block_text);
    let mut number = Decimal(0);
    for (image, text) in images.zip(texts) {
        let (main, wire_and) = image.split_at(MAIN_IMAGE_BYTES);
        let (to_main, to_wire_and) = text.split_at_mut(MAIN_TEXT);
        each_two_rows(main, to_main, |rows, text| {
            number = two_main_rows(rows, number, text);
        });
        each_two_rows(wire_and, to_wire_and, |rows, text| {
            number = two_wire_and_rows(rows, number, text);
        });
    }

    let sum = sum_of_bytes(&text[..before_sum]);
    write!(&mut text[before_sum..], "{sum:04X}").expect("four digits have buffer");
    Ok(needed)
}

/// Writes two main rows from a fuse number; answers the number after them.
#[inline]
fn two_main_rows(rows: &[u8; 27], number: Decimal, text: &mut [u8; 2 * MAIN_ROW]) -> Decimal {
    // The first row is nine bytes and 36 fuses, the second the same from the middle of byte 13.
    main_row(text, 0, number, u64_at(rows, 0), rows[8], u64_at(rows, 9));
    let second = u64_at(rows, 13) >> 4 | u64::from(rows[21]) << 60;
    let last = u64_at(rows, 19);
    let middle = number.plus(Decimal(0x01_00_08));
    main_row(
        text,
        MAIN_ROW,
        middle,
        second,
        (last >> 20) as u8,
        last >> 28,
    );
    number.plus(Decimal(0x02_01_06))
}

/// Writes the three lines of a row: eight columns of 8 bits and one more, then six of 6 bits.
#[inline]
fn main_row(
    text: &mut [u8; 2 * MAIN_ROW],
    at: usize,
    number: Decimal,
    eights: u64,
    ninth: u8,
    sixes: u64,
) {
    put_u64(text, at, number.label());
    for column in 0..5 {
        put_eight(text, at + 8 + 9 * column, eights >> (8 * column));
    }
    text[at + 53..at + 55].copy_from_slice(b"*\n");

    put_u64(text, at + 55, number.plus(Decimal(0x04_00)).label());
    for column in 5..8 {
        put_eight(text, at + 18 + 9 * column, eights >> (8 * column));
    }
    put_eight(text, at + 90, u64::from(ninth));
    put_last_six(text, at + 99, sixes);

    put_u64(text, at + 108, number.plus(Decimal(0x07_08)).label());
    for column in 1..5 {
        // The seventh digit is one too many; the next column is written over it.
        put_seven(text, at + 109 + 7 * column, sixes >> (6 * column));
    }
    put_last_six(text, at + 144, sixes >> 30);
}

/// Writes two wire-AND rows from a fuse number; answers the number after them.
#[inline]
fn two_wire_and_rows(
    rows: &[u8; 9],
    number: Decimal,
    text: &mut [u8; 2 * WIRE_AND_ROW],
) -> Decimal {
    // A row is a byte and 28 fuses; those of the second end with the last byte.
    let (first, last) = (u64_at(rows, 0), u64_at(rows, 1));
    let middle = number.plus(Decimal(0x03_06));
    wire_and_row(text, 0, number, first, first >> 8);
    wire_and_row(text, WIRE_AND_ROW, middle, first >> 36, last >> 36);
    number.plus(Decimal(0x07_02))
}

#[inline]
fn wire_and_row(
    text: &mut [u8; 2 * WIRE_AND_ROW],
    at: usize,
    number: Decimal,
    eight: u64,
    sevens: u64,
) {
    put_u64(text, at, number.label());
    put_eight(text, at + 8, eight);
    for column in 0..4 {
        put_seven(text, at + 17 + 8 * column, sevens >> (7 * column));
    }
    text[at + 49..at + 51].copy_from_slice(b"*\n");
}

/// A space and the digits of the lowest 8 bits.
#[inline]
fn put_eight<const N: usize>(text: &mut [u8; N], at: usize, bits: u64) {
    text[at] = b' ';
    put_u64(text, at + 1, digits(bits));
}

/// A space and the digits of the lowest 7 bits.
#[inline]
fn put_seven<const N: usize>(text: &mut [u8; N], at: usize, bits: u64) {
    put_u64(text, at, digits(bits) << 8 | u64::from(b' '));
}

/// A space, the digits of the lowest 6 bits, and the end of the line.
#[inline]
fn put_last_six<const N: usize>(text: &mut [u8; N], at: usize, bits: u64) {
    text[at] = b' ';
    let end = u64::from(u16::from_le_bytes(*b"*\n")) << 48;
    put_u64(text, at + 1, digits(bits) & 0xFFFF_FFFF_FFFF | end);
}

const LONGEST_TEXT: usize = 1_048_576;

/// Bytes after the image that is put together, so that words may be written up to its end.
const ROOM: usize = 8;

fn is_blank(byte: u8) -> bool {
    matches!(byte, b' ' | b'\t' | b'\r' | b'\n')
}

/// Reads a text into an image.
pub fn text_to_image(device: Device, text: &[u8], image: &mut [u8]) -> Answer<()> {
    let part = Part::of(device)?;
    part.check_image(image)?;
    if text.len() > LONGEST_TEXT {
        return refuse(7, LONGEST_TEXT as u64);
    }
    if text.first() != Some(&STX) {
        return refuse(7, 0);
    }
    // The caller's image must stay as it is until all is known to be good.
    let mut draft = Draft::new(part);
    let (etx, given_sum) = read_fields(text, &mut draft)?;
    draft.check(text, etx, given_sum)?;
    image.copy_from_slice(&draft.image[..image.len()]);
    Ok(())
}

/// What the fields said so far.
struct Draft {
    fuses: usize,
    image: Vec<u8>,
    has_count: bool,
    has_start_state: bool,
    has_list: bool,
    /// The fuse after the last list.
    end: usize,
    /// The first fuse that no list gives, as far as the lists are in order.
    not_given: usize,
    /// The sum of a C field, with where the field is.
    checksum: Option<(u16, usize)>,
    wrong_count: Option<usize>,
    wrong_list: Option<usize>,
}

impl Draft {
    fn new(part: Part) -> Draft {
        Draft {
            fuses: part.fuses as usize,
            image: vec![0; part.image_bytes() + ROOM],
            has_count: false,
            has_start_state: false,
            has_list: false,
            end: 0,
            not_given: 0,
            checksum: None,
            wrong_count: None,
            wrong_list: None,
        }
    }

    /// Takes in the field at an offset; answers the offset after its star, None for a bad field.
    #[inline]
    fn take_in(&mut self, text: &[u8], field: usize) -> Option<usize> {
        let body = field + 1;
        match text[field] {
            b'L' if self.has_count && self.checksum.is_none() => self.list(text, field),
            b'N' | b'J' | b'X' => past_free_bytes(text, body),
            b'Q' => match text.get(body)? {
                b'P' | b'V' => past_free_bytes(text, body),
                b'F' if !self.has_count => {
                    let (count, at) = number(text, body + 1)?;
                    self.has_count = true;
                    if count != self.fuses {
                        self.wrong_count = Some(field);
                    }
                    past_star(text, at)
                }
                _ => None,
            },
            b'F' if self.has_count && !self.has_start_state && !self.has_list => {
                self.has_start_state = true;
                match text.get(body)? {
                    b'0' => {}
                    b'1' => self.image.fill(0xFF),
                    _ => return None,
                }
                past_star(text, body + 1)
            }
            b'C' if self.has_count && self.checksum.is_none() => {
                let mut sum = 0;
                for at in body..body + 4 {
                    sum = 16 * sum + hex_digit(*text.get(at)?)?;
                }
                self.checksum = Some((sum, field));
                past_star(text, body + 4)
            }
            _ => None,
        }
    }

    /// Takes in an L field.
    #[inline]
    fn list(&mut self, text: &[u8], field: usize) -> Option<usize> {
        let (first, at) = number(text, field + 1)?;
        if !is_blank(*text.get(at)?) {
            return None;
        }
        let mut pen = Pen::new(&mut self.image, first);
        let after = past_bits(text, at + 1, &mut pen)?;
        let end = pen.finish();
        if end == first {
            return None;
        }
        if (first < self.end || end > self.fuses) && self.wrong_list.is_none() {
            self.wrong_list = Some(field);
        }
        // Where a list starts further on, so do all after it, and this fuse stays not given.
        if first == self.not_given {
            self.not_given = end;
        }
        self.end = end;
        self.has_list = true;
        Some(after)
    }

    /// Refusals 8, 9, 13, 10 and 11, in this order, for a text of good form.
    fn check(&self, text: &[u8], etx: usize, given_sum: u16) -> Answer<()> {
        if !self.has_count {
            return refuse(8, etx as u64);
        }
        if let Some(field) = self.wrong_count {
            return refuse(8, field as u64);
        }
        if let Some(field) = self.wrong_list {
            return refuse(9, field as u64);
        }
        if !self.has_start_state && self.not_given < self.fuses {
            return refuse(13, self.not_given as u64);
        }
        if let Some((sum, field)) = self.checksum {
            if sum != sum_of_bytes(&self.image[..self.fuses / 8]) {
                return refuse(10, field as u64);
            }
        }
        if given_sum != 0 && given_sum != sum_of_bytes(&text[..=etx]) {
            return refuse(11, etx as u64);
        }
        Ok(())
    }
}

/// Takes in everything up to the end of the text; answers where ETX is and the sum after it.
fn read_fields(text: &[u8], draft: &mut Draft) -> Answer<(usize, u16)> {
    let Some(mut at) = past_free_bytes(text, 1) else {
        return bad_field(text, 1);
    };
    loop {
        at = past_blanks(text, at);
        match text.get(at) {
            None => return refuse(7, at as u64),
            Some(&ETX) => return Ok((at, sum_after(text, at)?)),
            Some(_) => match draft.take_in(text, at) {
                Some(after) => at = after,
                None => return bad_field(text, at),
            },
        }
    }
}

/// The refusal of a bad field: it is judged at its star, so without one the text ends early.
#[cold]
fn bad_field<T>(text: &[u8], field: usize) -> Answer<T> {
    if text[field..].contains(&b'*') {
        refuse(7, field as u64)
    } else {
        refuse(7, text.len() as u64)
    }
}

/// The four hex digits after ETX, after which there are only blanks.
fn sum_after(text: &[u8], etx: usize) -> Answer<u16> {
    let mut sum = 0;
    for at in etx + 1..etx + 5 {
        match text.get(at).map(|byte| hex_digit(*byte)) {
            Some(Some(digit)) => sum = 16 * sum + digit,
            _ => return refuse(7, at as u64),
        }
    }
    let end = past_blanks(text, etx + 5);
    if end < text.len() {
        return refuse(7, end as u64);
    }
    Ok(sum)
}

#[inline]
fn past_blanks(text: &[u8], mut at: usize) -> usize {
    while at < text.len() && is_blank(text[at]) {
        at += 1;
    }
    at
}

#[inline]
fn past_star(text: &[u8], at: usize) -> Option<usize> {
    (*text.get(at)? == b'*').then_some(at + 1)
}

/// Past the star of a field that may hold anything but STX and ETX.
fn past_free_bytes(text: &[u8], at: usize) -> Option<usize> {
    let ends = |byte: &u8| matches!(*byte, b'*' | STX | ETX);
    let end = at + text[at..].iter().position(ends)?;
    past_star(text, end)
}

/// The number that 1 to 7 digits write, and the offset after them.
#[inline]
fn number(text: &[u8], first: usize) -> Option<(usize, usize)> {
    let mut number = 0;
    let mut at = first;
    while let Some(byte) = text.get(at) {
        let digit = byte.wrapping_sub(b'0');
        if digit > 9 {
            break;
        }
        if at == first + 7 {
            return None;
        }
        number = 10 * number + usize::from(digit);
        at += 1;
    }
    (at > first).then_some((number, at))
}

fn hex_digit(byte: u8) -> Option<u16> {
    char::from(byte).to_digit(16).map(|digit| digit as u16)
}

/// Past the star of an L field, its bits written down.
#[inline]
fn past_bits(text: &[u8], mut at: usize, pen: &mut Pen) -> Option<usize> {
    loop {
        let Some(word) = text[at..].first_chunk() else {
            return past_last_bits(text, at, pen);
        };
        let word = u64::from_le_bytes(*word);
        // 0 and 1 differ in their lowest bit alone, so of such a byte nothing else is left.
        let others = (word ^ (ONES * u64::from(b'0'))) & !ONES;
        let states = together(word);
        if others == 0 {
            pen.put(states, 8);
            at += 8;
            continue;
        }
        let bits = others.trailing_zeros() / 8;
        pen.put(states & ((1 << bits) - 1), bits);
        at += bits as usize + 1;
        match (word >> (8 * bits)) as u8 {
            b' ' | b'\t' | b'\r' | b'\n' => {}
            b'*' => return Some(at),
            _ => return None,
        }
    }
}

/// The same where fewer than eight bytes are left of the text.
#[cold]
fn past_last_bits(text: &[u8], at: usize, pen: &mut Pen) -> Option<usize> {
    for (passed, byte) in text[at..].iter().enumerate() {
        match byte {
            b'0' | b'1' => pen.put(u64::from(byte & 1), 1),
            b'*' => return Some(at + passed + 1),
            byte if is_blank(*byte) => {}
            _ => return None,
        }
    }
    None
}

/// The lowest bits of the eight bytes of a word, that of the first byte lowest.
#[inline]
fn together(word: u64) -> u64 {
    // Bit 8i times 2^(56 - 7i) is bit 56 + i, and no two products meet.
    (word & ONES).wrapping_mul(0x0102_0408_1020_4080) >> 56
}

/// Writes bits into an image from a fuse on. What would lie past the image is only counted.
struct Pen<'a> {
    image: &'a mut [u8],
    /// The byte of the first bit that is not written yet, and those bits, of which some may be
    /// older ones of that byte.
    byte: usize,
    bits: u64,
    count: u32,
}

impl Pen<'_> {
    #[inline]
    fn new(image: &mut [u8], fuse: usize) -> Pen<'_> {
        let (byte, count) = (fuse / 8, fuse as u32 % 8);
        let older = image.get(byte).copied().unwrap_or(0);
        Pen {
            image,
            byte,
            bits: u64::from(older) & ((1 << count) - 1),
            count,
        }
    }

    /// Puts down at most eight bits.
    #[inline]
    fn put(&mut self, bits: u64, count: u32) {
        self.bits |= bits << self.count;
        self.count += count;
        if self.count >= 32 {
            if let Some(slot) = self.image.get_mut(self.byte..self.byte + 4) {
                slot.copy_from_slice(&(self.bits as u32).to_le_bytes());
            }
            self.byte += 4;
            self.bits >>= 32;
            self.count -= 32;
        }
    }

    /// Writes what is left; answers the fuse after the last.
    #[inline]
    fn finish(self) -> usize {
        if let Some(slot) = self.image.get_mut(self.byte..self.byte + 4) {
            let slot: &mut [u8; 4] = slot.try_into().expect("it has four bytes");
            let kept = u64::from(u32::from_le_bytes(*slot)) >> self.count << self.count;
            *slot = ((kept | self.bits) as u32).to_le_bytes();
        }
        8 * self.byte + self.count as usize
    }
}
