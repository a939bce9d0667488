// What the vectors program of the differences prints, worked out by the plain list of them.
// Two images that differ little or in a whole stretch, with each kind of room; then some lists in full.

//! The program prints ten lines for each of the devices, known or not. A line is one pair of images:
//!
//! `blocks 2 class 0 old 2268 new 2268 kind 0 empty D A exact D A short D A longer D A`
//!
//! with the device, the lengths of the two images, their kind, and for each of four rooms the digest D of the whole
//! room after the call and the answer A, as `refused 12 result 9`. With `right` the length of the device's images
//! (of the smallest device's where it is unknown), the pairs are in this order:
//!
//! - old and new of `right` bytes, kinds 0, 1, 2, 3, 4, 5;
//! - kind 0 with old of `right - 1` bytes and new of `right`, then with old of `right + 1`;
//! - kind 0 with old of `right` bytes and new of `right - 1`, then with new of `right + 1`.
//!
//! A kind fills old and new, each from its start, and then a first part of new once more, or puts three bytes there:
//!
//! | kind | old    | new    | then in new                                           |
//! |------|--------|--------|-------------------------------------------------------|
//! | 0    | seed 2 | seed 2 | nothing                                               |
//! | 1    | seed 2 | seed 2 | 0 at 0, 90 at its length div 2, 255 at its last place |
//! | 2    | all 1  | all 1  | 0 in the first 2268 bytes                             |
//! | 3    | all 0  | all 1  | 0 in all but the last 2268 bytes                      |
//! | 4    | seed 2 | seed 2 | seed 3 in the first 2268 bytes                        |
//! | 5    | seed 2 | seed 3 | seed 2 in all but the last 2268 bytes                 |
//!
//! Each room is filled with seed 4 before the call. The first has no bytes. With n the low 56 bits of that answer,
//! which are 0 where the refusal is not 12, the others have n bytes, one less (none where n is 0), and 70 more. No n
//! is above 699,930.
//!
//! Then come two parts in full, for two blocks, small and large: a line `blocks 2 class 0`, or `class 1`, and for
//! each of CASES the text that is written, without anything before or after it. There old is all 1, and new is all 1
//! but for the listed bytes; 2268 bytes each. The room is 700,000 bytes; any that is long enough gives the same.

use crate::device::{Device, LARGE, SMALL};
use crate::differences::differences;
use crate::image::image_bytes;
use crate::vectors::{devices_and_others, fill, halves, word, Digest};
use std::fmt::Write;

/// The bytes at an end of an image that differ in most kinds; in the smallest part these are all.
const STRETCH: usize = 2268;

/// Bytes past the text in the longer room.
const MORE: usize = 70;

/// No text is longer than this, the bytes past it counted too.
const ROOM: usize = 700_000;

/// A place in the new image, and the byte there.
type Put = (usize, u8);

/// The lists that are printed in full.
const CASES: [&[Put]; 8] = [
    // Equal images; one fuse.
    &[],
    &[(0, 254)],
    // Document 01's places: a literal of either polarity, INV, and a wire-AND.
    &[(196, 253), (209, 223), (298, 127), (1068, 239)],
    // OE_MUX of macrocell 0; ALLOC of macrocell 3, term 2; the lowest and the highest bit of USERCODE.
    &[(392, 251), (405, 191)],
    &[(219, 191), (233, 251)],
    &[(102, 251), (81, 127)],
    // FOE 2 and 3, which the small class lacks.
    &[
        (7, 191),
        (8, 191),
        (48, 251),
        (49, 251),
        (61, 191),
        (62, 191),
    ],
    // FSR_INV, FOE[0].INV, FCLK[1].MUX, READ_PROT_A of both blocks, and HP of macrocell 3, term 2.
    &[
        (1, 191),
        (5, 191),
        (44, 251),
        (57, 191),
        (152, 251),
        (705, 191),
        (1286, 251),
    ],
];

/// The old image and the new one of a kind, with these lengths.
fn images_of_kind(kind: u32, old_length: usize, new_length: usize) -> (Vec<u8>, Vec<u8>) {
    let mut old = vec![0; old_length];
    let mut new = vec![0; new_length];
    let first = STRETCH.min(new_length);
    let all_but_last = new_length - first;
    match kind {
        2 => {
            old.fill(255);
            new.fill(255);
            new[..first].fill(0);
        }
        3 => {
            old.fill(0);
            new.fill(255);
            new[..all_but_last].fill(0);
        }
        5 => {
            fill(&mut old, 2);
            fill(&mut new, 3);
            fill(&mut new[..all_but_last], 2);
        }
        _ => {
            fill(&mut old, 2);
            fill(&mut new, 2);
            if kind == 1 {
                new[0] = 0;
                new[new_length / 2] = 90;
                new[new_length - 1] = 255;
            }
            if kind == 4 {
                fill(&mut new[..first], 3);
            }
        }
    }
    (old, new)
}

/// The digest of the room after the call, and the answer's word.
fn listed(device: Device, old: &[u8], new: &[u8], room: usize) -> (u64, u64) {
    let mut text = vec![0; room];
    fill(&mut text, 4);
    let answer = differences(device, old, new, &mut text);
    let mut digest = Digest::new();
    for byte in text {
        digest.take_in(u64::from(byte));
    }
    (digest.value, word(answer.map(|bytes| bytes as u64)))
}

/// The line of a pair of images: each room with its digest and answer.
fn each_room(device: Device, old: &[u8], new: &[u8]) -> String {
    let (digest, answer) = listed(device, old, new, 0);
    let needed = (answer % (1 << 56)) as usize;
    assert!(needed + MORE <= ROOM);
    let mut line = format!("empty {digest} {}", halves(answer));
    for (name, room) in [
        ("exact", needed),
        ("short", needed.saturating_sub(1)),
        ("longer", needed + MORE),
    ] {
        let (digest, answer) = listed(device, old, new, room);
        write!(line, " {name} {digest} {}", halves(answer)).unwrap();
    }
    line
}

/// The texts of CASES.
fn in_full(device: Device) -> String {
    let mut texts = String::new();
    let old = vec![255; image_bytes(device).unwrap()];
    for case in CASES {
        let mut new = old.clone();
        for (at, byte) in case {
            new[*at] = *byte;
        }
        let mut text = vec![0; ROOM];
        let written = differences(device, &old, &new, &mut text).unwrap();
        texts += std::str::from_utf8(&text[..written]).unwrap();
    }
    texts
}

/// Pairs of each kind and of wrong lengths, each with the four rooms; then the texts in full.
pub(crate) fn difference_vectors() -> String {
    let smallest = Device {
        blocks: 2,
        class: SMALL,
    };
    let mut lines = String::new();
    for device in devices_and_others() {
        let Device { blocks, class } = device;
        let sized = if device.is_known() { device } else { smallest };
        let right = image_bytes(sized).unwrap();
        for (old, new, kind) in [
            (right, right, 0),
            (right, right, 1),
            (right, right, 2),
            (right, right, 3),
            (right, right, 4),
            (right, right, 5),
            (right - 1, right, 0),
            (right + 1, right, 0),
            (right, right - 1, 0),
            (right, right + 1, 0),
        ] {
            write!(
                lines,
                "blocks {blocks} class {class} old {old} new {new} kind {kind}"
            )
            .unwrap();
            let (old, new) = images_of_kind(kind, old, new);
            writeln!(lines, " {}", each_room(device, &old, &new)).unwrap();
        }
    }
    for class in [SMALL, LARGE] {
        writeln!(lines, "blocks 2 class {class}").unwrap();
        lines += &in_full(Device { blocks: 2, class });
    }
    lines
}
