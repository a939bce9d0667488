// The comparison of a writer of texts, be it this or that program's, with the reference.
// Of every call the answer, every byte of the buffer lent for the text, and the bytes around it.

use crate::comparison::{Comparison, Function, IMAGE, TEXT};
use crate::inputs::{corner_images, images, odd_devices, wrong_lengths};
use xc9500_reference::random::Random;
use xc9500_reference::{all_devices, image_to_text, text_bytes, BLOCK_COUNTS};

/// Compares a writer with the reference on every device, and sees that each refusal occurs.
pub fn compare_writer(name: &'static str, writer: Function, random: &mut Random) {
    let mut comparison = Comparison::new(name, (IMAGE, TEXT), writer, |device, image, text| {
        image_to_text(device, image, text).map(|bytes| bytes as u64)
    });
    written(&mut comparison, random);
    wrong_images(&mut comparison, random);
    unknown_devices(&mut comparison, random);
    comparison.assert_refusals(&[1, 2, 12]);
}

/// Images of each device into buffer that is exact, longer, one byte short, shorter, and empty.
fn written(comparison: &mut Comparison, random: &mut Random) {
    for device in all_devices() {
        let needed = TEXT(device.blocks as usize);
        assert_eq!(text_bytes(device), Ok(needed));
        for (name, image) in images(device, random) {
            let short = random.below(needed as u64) as usize;
            let longer = needed + 2 + random.below(5000) as usize;
            for buffer in [needed, needed + 1, longer, needed - 1, short, 0] {
                comparison.call(device, &name, &image, buffer);
            }
        }
        // Lengths of images and readouts, and the right one again to a number of 8, 16 or 20 bits.
        let (name, image) = images(device, random).swap_remove(2);
        for buffer in wrong_lengths(needed) {
            comparison.call(device, &name, &image, buffer);
        }
        // One fuse alone shows where it is written; the larger parts only repeat the same rows.
        if device.blocks <= 6 {
            for (name, image) in corner_images(device) {
                comparison.call(device, &name, &image, needed);
            }
        }
    }
}

/// Images of a wrong length, which is refused before the buffer is looked at.
fn wrong_images(comparison: &mut Comparison, random: &mut Random) {
    for device in all_devices() {
        let needed = TEXT(device.blocks as usize);
        for length in wrong_lengths(IMAGE(device.blocks as usize)) {
            let image = random.bytes(length);
            for buffer in [needed, needed - 1, 0] {
                comparison.call(device, "random", &image, buffer);
            }
        }
    }
}

/// Unknown devices, mostly with little buffer: a writer that takes one for known asks for more.
fn unknown_devices(comparison: &mut Comparison, random: &mut Random) {
    for device in odd_devices(random) {
        let known = random.pick(&BLOCK_COUNTS);
        for blocks in [device.blocks, known] {
            if blocks <= 40 {
                let blocks = blocks as usize;
                let image = random.bytes(IMAGE(blocks));
                let buffer = match random.below(16) {
                    0 => TEXT(blocks),
                    _ => random.below(3000) as usize,
                };
                comparison.call(device, "random", &image, buffer);
            }
        }
        comparison.call(device, "empty", &[], 0);
    }
}
