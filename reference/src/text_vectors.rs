// What the vectors program of the writer prints, worked out by the plain writer of texts.
// Images and buffers have the right length and wrong ones; of the buffer every byte is taken in.

use crate::device::{Device, SMALL};
use crate::image::image_bytes;
use crate::jedec_writer::{image_to_text, text_bytes};
use crate::vectors::{devices_and_others, fill, halves, word, Digest};
use std::fmt::Write;

/// Bytes past the text in the longer buffer.
const MORE: usize = 7;

/// The digest of the buffer after the writer was called with it, and the answer.
fn written(device: Device, image: &[u8], buffer: usize) -> String {
    let mut text = vec![0; buffer];
    fill(&mut text, 4);
    let answer = image_to_text(device, image, &mut text);
    let mut digest = Digest::new();
    for byte in text {
        digest.take_in(u64::from(byte));
    }
    let answer = halves(word(answer.map(|bytes| bytes as u64)));
    format!("{} {answer}", digest.value)
}

/// An image of all 0, of all 1, or of bytes that look random.
fn image_of_kind(length: usize, kind: u64) -> Vec<u8> {
    let mut image = vec![if kind == 1 { 255 } else { 0 }; length];
    if kind > 1 {
        fill(&mut image, kind);
    }
    image
}

/// Images of each kind, one too short and one too long, each with the four buffers.
pub(crate) fn text_vectors() -> String {
    let smallest = Device {
        blocks: 2,
        class: SMALL,
    };
    let mut lines = String::new();
    for device in devices_and_others() {
        let Device { blocks, class } = device;
        let sized = if device.is_known() { device } else { smallest };
        let right = image_bytes(sized).unwrap();
        let needed = text_bytes(sized).unwrap();
        for (length, kind) in [
            (right, 0),
            (right, 1),
            (right, 2),
            (right, 3),
            (right - 1, 2),
            (right + 1, 2),
        ] {
            let image = image_of_kind(length, kind);
            write!(
                lines,
                "blocks {blocks} class {class} image {length} kind {kind}"
            )
            .unwrap();
            for (name, buffer) in [
                ("exact", needed),
                ("short", needed - 1),
                ("longer", needed + MORE),
                ("empty", 0),
            ] {
                let answer = written(device, &image, buffer);
                write!(lines, " {name} {answer}").unwrap();
            }
            lines.push('\n');
        }
    }
    lines
}
