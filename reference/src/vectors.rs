// What each vectors program prints, worked out by the reference alone.
// A program is one line of PROGRAMS; write_vectors stores or checks them all.

use crate::conversion::{address_of_fuse, fuse_of_address};
use crate::device::{Answer, Device, Refusal, SMALL};
#[cfg(feature = "differences")]
use crate::difference_vectors::difference_vectors;
use crate::edit_vectors::edit_vectors;
use crate::image::{
    fuse_count, fuse_sum, image_bytes, image_to_readout, readout_bytes, readout_to_image,
    zero_count,
};
use crate::jedec_writer::text_bytes;
use crate::reader_vectors::reader_vectors;
use crate::settings_vectors::settings_vectors;
use crate::text_vectors::text_vectors;
use std::fmt::Write;

/// A program's name, and what it prints.
type Program = (&'static str, fn() -> String);

/// Every vectors program.
pub const PROGRAMS: &[Program] = &[
    ("part_vectors", part_vectors),
    ("readout_vectors", readout_vectors),
    ("settings_vectors", settings_vectors),
    ("edit_vectors", edit_vectors),
    ("text_vectors", text_vectors),
    ("reader_vectors", reader_vectors),
    #[cfg(feature = "differences")]
    ("difference_vectors", difference_vectors),
];

/// A digest of many words: for each, 1000003 times the digest plus the word, modulo a prime.
pub(crate) struct Digest {
    pub value: u64,
}

impl Digest {
    const PRIME: u64 = 4_294_967_291;

    pub fn new() -> Digest {
        Digest { value: 0 }
    }

    pub fn take_in(&mut self, word: u64) {
        self.value = (1_000_003 * self.value + word % Digest::PRIME) % Digest::PRIME;
    }
}

/// The word that the C interface gives for an answer.
pub(crate) fn word(answer: Answer<u64>) -> u64 {
    match answer {
        Ok(result) => result,
        Err(refusal) => (u64::from(refusal.number) << 56) + refusal.value,
    }
}

/// The two halves of such a word, printed.
pub(crate) fn halves(word: u64) -> String {
    format!("refused {} result {}", word >> 56, word % (1 << 56))
}

fn word_of_fuse(device: Device, fuse: u32) -> u64 {
    let place = address_of_fuse(device, fuse);
    word(place.map(|(address, bit)| u64::from(address) * 8 + u64::from(bit)))
}

fn word_of_address(device: Device, address: u32, bit: u32) -> u64 {
    word(fuse_of_address(device, address, bit).map(u64::from))
}

/// Every block count below 18, known or not, with the two classes and one that is none.
pub(crate) fn devices_and_others() -> Vec<Device> {
    let mut devices = Vec::new();
    for blocks in 0..18 {
        for class in 0..3 {
            devices.push(Device { blocks, class });
        }
    }
    devices
}

fn sizes(device: Device) -> Answer<String> {
    Ok(format!(
        "fuses {} image {} readout {} text {}",
        fuse_count(device)?,
        image_bytes(device)?,
        readout_bytes(device)?,
        text_bytes(device)?,
    ))
}

/// The sizes, the bench cases of two blocks, and digests over all fuses and addresses.
fn part_vectors() -> String {
    let mut lines = String::new();
    for device in devices_and_others() {
        let Device { blocks, class } = device;
        let answer = match sizes(device) {
            Ok(sizes) => sizes,
            Err(Refusal { number, value }) => format!("refused {number} value {value}"),
        };
        writeln!(lines, "blocks {blocks} class {class} {answer}").unwrap();
    }

    let smallest = Device {
        blocks: 2,
        class: SMALL,
    };
    for fuse in [0, 71, 72, 107, 108, 7775, 7776, 7784, 9072, 18143, 18144] {
        let answer = halves(word_of_fuse(smallest, fuse));
        writeln!(lines, "fuse {fuse} {answer}").unwrap();
    }
    for address in [5, 24, 2304, 16384] {
        let answer = halves(word_of_address(smallest, address, 0));
        writeln!(lines, "address {address} {answer}").unwrap();
    }

    // More fuses than the largest part has, and nine bits for each address of 17 bits.
    const FUSES: u32 = 300_000;
    const ADDRESSES: u32 = 1 << 17;
    for device in devices_and_others() {
        let Device { blocks, class } = device;
        let mut by_fuse = Digest::new();
        for fuse in 0..FUSES {
            by_fuse.take_in(word_of_fuse(device, fuse));
        }
        let mut by_address = Digest::new();
        for address in 0..ADDRESSES {
            for bit in 0..9 {
                by_address.take_in(word_of_address(device, address, bit));
            }
        }
        writeln!(
            lines,
            "blocks {blocks} class {class} fuses {FUSES} digest {} addresses {} digest {}",
            by_fuse.value,
            9 * ADDRESSES,
            by_address.value,
        )
        .unwrap();
    }
    lines
}

/// Bytes that look random: bits 16 to 23 of the words after the seed.
pub(crate) fn fill(bytes: &mut [u8], seed: u64) {
    let mut word = seed;
    for byte in bytes {
        word = next(word);
        *byte = (word >> 16) as u8;
    }
}

/// The word after a word in a fixed row of numbers that look random.
pub(crate) fn next(word: u64) -> u64 {
    (word * 1_103_515_245 + 12_345) % (1 << 31)
}

/// The digest of the bytes that a call was lent, and its answer.
fn conversion(answer: Answer<()>, bytes: &[u8]) -> String {
    let mut digest = Digest::new();
    for &byte in bytes {
        digest.take_in(u64::from(byte));
    }
    format!("{} {}", digest.value, halves(word(answer.map(|()| 0))))
}

/// The sums, the counts and the conversions of one device with slices of these lengths.
fn conversions(device: Device, image_length: usize, readout_length: usize) -> String {
    let mut image = vec![0; image_length];
    let mut readout = vec![0; readout_length];
    fill(&mut image, 1);
    fill(&mut readout, 2);
    let sum = word(fuse_sum(device, &image).map(u64::from));
    let zeros = word(zero_count(device, &image).map(u64::from));
    let out = conversion(image_to_readout(device, &image, &mut readout), &readout);
    fill(&mut image, 3);
    let back = conversion(readout_to_image(device, &readout, &mut image), &image);
    readout[readout_length - 1] = 255;
    let last = conversion(readout_to_image(device, &readout, &mut image), &image);
    fill(&mut readout, 4);
    let above = conversion(readout_to_image(device, &readout, &mut image), &image);
    format!(
        "image {image_length} readout {readout_length} sum {sum} zeros {zeros} \
         out {out} back {back} last {last} above {above}"
    )
}

/// Images and readouts of each device, with lengths one less, right and one more.
fn readout_vectors() -> String {
    let smallest = Device {
        blocks: 2,
        class: SMALL,
    };
    let mut lines = String::new();
    for device in devices_and_others() {
        let Device { blocks, class } = device;
        let sized = if device.is_known() { device } else { smallest };
        let image = image_bytes(sized).unwrap();
        let readout = readout_bytes(sized).unwrap();
        for k in 0..9 {
            let answers = conversions(device, image - 1 + k % 3, readout - 1 + k / 3);
            writeln!(lines, "blocks {blocks} class {class} {answers}").unwrap();
        }
    }
    lines
}
