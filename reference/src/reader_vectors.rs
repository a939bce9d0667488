// What the vectors program of the reader prints, worked out by the plain reader of texts.
// A written text is read whole, cut short, with a byte changed, without its F; of the image every byte is taken in.

use crate::device::{Device, SMALL};
use crate::image::{fuse_count, image_bytes};
use crate::jedec_reader::text_to_image;
use crate::jedec_writer::{image_to_text, text_bytes};
use crate::vectors::{devices_and_others, fill, halves, next, word, Digest};
use std::fmt::Write;

/// An image of so many bytes is too short for any device.
const SHORT_IMAGE: usize = 2267;

/// The bytes that are put in another's place.
const OTHERS: &[u8; 6] = b"01* \x039";

/// The digest of the image after the reader was called with it, and the answer.
fn read(device: Device, text: &[u8], image_bytes: usize) -> String {
    let mut image = vec![0; image_bytes];
    fill(&mut image, 4);
    let answer = text_to_image(device, text, &mut image);
    let mut digest = Digest::new();
    for byte in image {
        digest.take_in(u64::from(byte));
    }
    format!("{} {}", digest.value, halves(word(answer.map(|()| 0))))
}

/// Where a byte is changed: among the first forty, among the last twenty, or anywhere.
fn place(kind: u32, number: u64, length: usize) -> usize {
    match kind {
        0 => number as usize % 40,
        1 => length - 1 - number as usize % 20,
        _ => number as usize,
    }
}

/// The offset of the first such byte at or after `from`; the length of the text if there is none.
fn first_from(text: &[u8], from: usize, byte: u8) -> usize {
    let mut at = from;
    while at < text.len() && text[at] != byte {
        at += 1;
    }
    at
}

/// Where the search for a byte to change starts: at the start of the text, just before its last line, or anywhere.
fn search_start(kind: u32, number: u64, length: usize) -> usize {
    match kind {
        0 => 0,
        1 => length - length.min(70),
        _ => number as usize % length,
    }
}

/// Puts a byte in another's place, reads the text, prints a line of it, and puts the other back.
fn read_changed(lines: &mut String, device: Device, text: &mut [u8], at: usize, byte: u8) {
    if at < text.len() {
        let old = std::mem::replace(&mut text[at], byte);
        let answer = read(device, text, image_bytes(device).unwrap());
        writeln!(lines, "at {at} byte {byte} image {answer}").unwrap();
        text[at] = old;
    }
}

/// The text with its F field made a comment, then with one line or one state less besides.
fn without_start_state(lines: &mut String, device: Device, text: &mut [u8]) {
    // The transmission sum is not given, so that no change makes it wrong.
    let n = text.len();
    text[n - 4..].fill(b'0');
    // The F of QF is at offset 4.
    let start_state = first_from(text, 5, b'F');
    text[start_state] = b'N';
    let answer = read(device, text, image_bytes(device).unwrap());
    writeln!(lines, "no F image {answer}").unwrap();

    let mut random = 11;
    for k in 0..12 {
        random = next(random);
        let from = search_start(k / 2, random / 16, n);
        if k % 2 == 0 {
            // An L field becomes a comment.
            let at = first_from(text, from, b'L');
            read_changed(lines, device, text, at, b'N');
        } else {
            // The state after a blank becomes a blank.
            let at = first_from(text, from, b' ') + 1;
            read_changed(lines, device, text, at, b' ');
        }
    }
}

/// The text without F and without its first line, with another fault besides: of the form, of the fuse count, of the
/// last line's number, of the transmission sum. Its C is that of other fuses already.
fn two_faults(lines: &mut String, device: Device, text: &mut [u8]) {
    let n = text.len();
    let first_line = first_from(text, 0, b'L');
    text[first_line] = b'N';
    let last_line = first_from(text, search_start(1, 0, n), b'L');
    for (at, byte) in [
        (n - 1, b'x'),
        (5, b'9'),
        (last_line + 1, b'9'),
        (n - 1, b'1'),
    ] {
        read_changed(lines, device, text, at, byte);
    }
}

/// Texts with other fields behind the QF: one L of every fuse, one of all but the last, and an F behind a C.
fn other_fields(lines: &mut String, device: Device, text: &[u8]) {
    let fuses = fuse_count(device).unwrap() as usize;
    let start = first_from(text, 5, b'N');
    let list = |count| {
        let states = (0..count).map(|fuse| if fuse % 3 == 0 { b'1' } else { b'0' });
        b"L0 ".iter().copied().chain(states).collect()
    };
    for (name, fields) in [
        ("one L", list(fuses)),
        ("one state less", list(fuses - 1)),
        ("F behind C", b"C0000*F0".to_vec()),
    ] {
        let text = [&text[..start], &fields, b"*\x030000"].concat();
        let answer = read(device, &text, image_bytes(device).unwrap());
        writeln!(lines, "{name} image {answer}").unwrap();
    }
}

/// Texts of each device, and of two blocks where there is no such device.
pub(crate) fn reader_vectors() -> String {
    let smallest = Device {
        blocks: 2,
        class: SMALL,
    };
    let mut lines = String::new();
    for device in devices_and_others() {
        let Device { blocks, class } = device;
        let known = if device.is_known() { device } else { smallest };
        let bytes = image_bytes(known).unwrap();
        let mut image = vec![0; bytes];
        fill(&mut image, 2);
        let mut text = vec![0; text_bytes(known).unwrap()];
        image_to_text(known, &image, &mut text).unwrap();

        let n = text.len();
        write!(lines, "blocks {blocks} class {class}").unwrap();
        for (name, length) in [
            ("whole", n),
            ("short", n - 1),
            ("half", n / 2),
            ("empty", 0),
        ] {
            write!(lines, " {name} {}", read(device, &text[..length], bytes)).unwrap();
        }
        let short = read(device, &text, SHORT_IMAGE.min(bytes));
        writeln!(lines, " image short {short}").unwrap();

        if !device.is_known() {
            continue;
        }
        let mut random = 7;
        for k in 0..30 {
            random = next(random);
            let at = place(k % 3, random / 16, n);
            random = next(random);
            let byte = OTHERS[(random / 65536 % 6) as usize];
            read_changed(&mut lines, device, &mut text, at, byte);
        }
        without_start_state(&mut lines, device, &mut text);
        two_faults(&mut lines, device, &mut text);
        other_fields(&mut lines, device, &text);
    }
    lines
}
