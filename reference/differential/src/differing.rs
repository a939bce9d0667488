// The comparison of a program that lists the fuses that differ, be it this or that one, with the reference.
// Of every call the answer, every byte of the images and of the room lent for the text, and the bytes around it.

use crate::comparison::IMAGE;
use crate::inputs::{odd_devices, wrong_lengths};
use crate::tally::Tally;
use xc9500_reference::random::Random;
use xc9500_reference::{
    all_devices, differences, fuse_count, image_bytes, name_at_fuse, Answer, Device, Refusal,
    BLOCK_COUNTS,
};

/// A function from an old image and a new one to the text of what differs.
pub type Differences = fn(Device, &[u8], &[u8], &mut [u8]) -> Answer<u64>;

/// Bytes before and after the room, which no call may change.
const GUARD: usize = 64;

/// The bytes of the longest line, and of the longest first line.
const LONGEST_LINE: usize = 39;
const FIRST_LINE: usize = 14;

/// A text of fewer bytes gets more rooms.
const SHORT_TEXT: usize = 10_000;

/// Fuses of each device that differ alone; in the smallest parts all do.
const RANDOM_FUSES: u32 = 200;

/// Pairs of images of each device that differ in few fuses.
const RANDOM_PAIRS: u32 = 2;

/// Compares a function with the reference on every device, and sees that each refusal occurs.
pub fn compare_differences(name: &'static str, function: Differences, random: &mut Random) {
    let mut comparison = Comparison {
        tally: Tally::new(name),
        function,
    };
    for device in all_devices() {
        comparison.few(device, random);
        comparison.many(device, random);
        comparison.wrong_images(device, random);
    }
    comparison.unknown_devices(random);
    comparison.tally.assert_refusals(&[1, 2, 12]);
}

/// Compares what a function gives for one fuse that differs: in the parts of two blocks every fuse, in both
/// directions, in the others random ones.
pub fn compare_single_fuses(name: &'static str, function: Differences, random: &mut Random) {
    let mut comparison = Comparison {
        tally: Tally::new(name),
        function,
    };
    for device in all_devices() {
        let count = fuse_count(device).unwrap();
        if device.blocks == BLOCK_COUNTS[0] {
            comparison.alone(device, 0..count);
        } else {
            let fuses = (0..RANDOM_FUSES).map(|_| random.below(u64::from(count)) as u32);
            comparison.alone(device, fuses.chain([0, count - 1]));
        }
    }
    comparison.tally.assert_refusals(&[12]);
}

/// The rooms for a text: exact, one byte short and a little longer; for a short text also none, shorter ones, and
/// much longer ones.
fn rooms(needed: usize, random: &mut Random) -> Vec<usize> {
    let longer = needed + 2 + random.below(70) as usize;
    let mut rooms = vec![needed, needed - 1, longer];
    if needed < SHORT_TEXT {
        let shorter = random.below(needed as u64) as usize;
        let much_longer = needed + 5000 + random.below(5000) as usize;
        rooms.extend([0, shorter, needed + 1, needed + 8, much_longer]);
    }
    rooms
}

/// What a program must answer that has a text to write.
fn in_room(text: &[u8], room: &mut [u8]) -> Answer<u64> {
    let value = text.len() as u64;
    match room.get_mut(..text.len()) {
        Some(room) => room.copy_from_slice(text),
        None => return Err(Refusal { number: 12, value }),
    }
    Ok(value)
}

/// The function under test, and what came of it so far.
struct Comparison {
    tally: Tally,
    function: Differences,
}

impl Comparison {
    /// Compares one call, with a room that is filled with a pattern first.
    fn call(
        &mut self,
        (device, pair): (Device, &str),
        (old, new): (&[u8], &[u8]),
        room: usize,
        reference: impl Fn(&mut [u8]) -> Answer<u64>,
    ) {
        let call = (device, pair, old.len(), new.len(), room);
        let lent = [old.to_vec(), new.to_vec()];
        let pattern = (0..GUARD + room + GUARD).map(|i| (i * 89 + 90) as u8);
        let mut guarded: Vec<u8> = pattern.collect();
        let mut expected = guarded.clone();
        let text = GUARD..GUARD + room;
        let answer = (self.function)(device, &lent[0], &lent[1], &mut guarded[text.clone()]);
        let reference = reference(&mut expected[text]);
        self.tally.compare(call, answer, reference);
        self.tally.compare_bytes(call, "old image", &lent[0], old);
        self.tally.compare_bytes(call, "new image", &lent[1], new);
        self.tally
            .compare_bytes(call, "guarded room", &guarded, &expected);
    }

    /// Compares one call with images that may be wrong.
    fn call_refused(&mut self, named: (Device, &str), (old, new): (&[u8], &[u8]), room: usize) {
        self.call(named, (old, new), room, |text| {
            differences(named.0, old, new, text).map(|bytes| bytes as u64)
        });
    }

    /// Compares the calls with a pair of images and every room, in both directions. The reference takes long to look
    /// at every fuse, so it writes each text once.
    fn every_room(
        &mut self,
        named: (Device, &str),
        (old, new): (&[u8], &[u8]),
        random: &mut Random,
    ) {
        for images in [(old, new), (new, old)] {
            let mut text = vec![0; FIRST_LINE + old.len() * 8 * LONGEST_LINE];
            let written = differences(named.0, images.0, images.1, &mut text).unwrap();
            text.truncate(written);
            for room in rooms(written, random) {
                self.call(named, images, room, |room| in_room(&text, room));
            }
        }
    }

    /// Images that are equal, that differ in one fuse, in some, in two fuses of a byte, and at both ends.
    fn few(&mut self, device: Device, random: &mut Random) {
        let length = image_bytes(device).unwrap();
        for _ in 0..RANDOM_PAIRS {
            let old = random.bytes(length);
            self.every_room((device, "equal"), (&old, &old), random);
            for (pair, differing) in [("one", 1), ("some", 50)] {
                let mut new = old.clone();
                for _ in 0..differing {
                    let fuse = random.below(8 * length as u64) as usize;
                    new[fuse / 8] ^= 1 << (fuse % 8);
                }
                self.every_room((device, pair), (&old, &new), random);
            }
            let mut new = old.clone();
            new[random.below(length as u64) as usize] ^= 0x81;
            self.every_room((device, "one byte"), (&old, &new), random);
            let mut new = old.clone();
            new[0] ^= 0xFF;
            new[length - 1] ^= 0xFF;
            self.every_room((device, "both ends"), (&old, &new), random);
        }
    }

    /// Images that differ in an eighth of the fuses, in half of them, and in all.
    fn many(&mut self, device: Device, random: &mut Random) {
        let length = image_bytes(device).unwrap();
        let old = random.bytes(length);
        let mut eighth = old.clone();
        for byte in &mut eighth {
            *byte ^= (random.next_u64() & random.next_u64() & random.next_u64()) as u8;
        }
        self.every_room((device, "an eighth"), (&old, &eighth), random);
        let half = random.bytes(length);
        self.every_room((device, "half"), (&old, &half), random);
        let all_0 = vec![0; length];
        let all_1 = vec![0xFF; length];
        self.every_room((device, "all"), (&all_0, &all_1), random);
    }

    /// One fuse that differs, at 0 before and at 1 before. The text is put together here, with the reference's name.
    fn alone(&mut self, device: Device, fuses: impl Iterator<Item = u32>) {
        let length = image_bytes(device).unwrap();
        let all_0 = vec![0; length];
        let all_1 = vec![0xFF; length];
        for fuse in fuses {
            let name = name_at_fuse(device, fuse).unwrap();
            let name = name.as_deref().unwrap_or("unnamed");
            for (before, old) in [(0, &all_0), (1, &all_1)] {
                let after = 1 - before;
                let text = format!("1 differ\n{fuse} {before} {after} {name}\n");
                let mut new = old.clone();
                new[fuse as usize / 8] ^= 1 << (fuse % 8);
                // One room in fifty is too short.
                let more = fuse as usize % 50;
                let room = text.len() + more - 1;
                self.call((device, "alone"), (old, &new), room, |room| {
                    in_room(text.as_bytes(), room)
                });
            }
        }
    }

    /// An old image, a new one or both of a wrong length, which is refused before the room is looked at.
    fn wrong_images(&mut self, device: Device, random: &mut Random) {
        let right = image_bytes(device).unwrap();
        let image = random.bytes(right);
        let wrongs = wrong_lengths(right);
        for length in &wrongs {
            let wrong = random.bytes(*length);
            let other_length = random.pick(&wrongs);
            let other = random.bytes(other_length);
            for room in [0, 8, 9, 200] {
                self.call_refused((device, "old wrong"), (&wrong, &image), room);
                self.call_refused((device, "new wrong"), (&image, &wrong), room);
                self.call_refused((device, "both wrong"), (&wrong, &other), room);
                self.call_refused((device, "both alike"), (&wrong, &wrong), room);
            }
        }
    }

    /// Unknown devices, with images of the length that they would have and of a known part's, and with none; a known
    /// device is among them now and then.
    fn unknown_devices(&mut self, random: &mut Random) {
        for device in odd_devices(random) {
            let known = random.pick(&BLOCK_COUNTS);
            for blocks in [device.blocks, known] {
                if blocks <= 40 {
                    let old = random.bytes(IMAGE(blocks as usize));
                    let mut new = old.clone();
                    new.iter_mut().take(3).for_each(|byte| *byte ^= 0x18);
                    let room = random.below(300) as usize;
                    self.call_refused((device, "a few"), (&old, &new), room);
                    let shorter = &new[new.len() / 2..];
                    self.call_refused((device, "one shorter"), (&old, shorter), room);
                }
            }
            self.call_refused((device, "empty"), (&[], &[]), 0);
            self.call_refused((device, "empty"), (&[], &[]), 9);
        }
    }
}
