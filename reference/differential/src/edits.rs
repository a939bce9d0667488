// The comparison of reading and setting, by this or that program, with the reference.
// After every call the answer and every byte of the lent slice and of the guards around it.

use crate::comparison::{Function, IMAGE, READOUT};
use crate::inputs::{
    all_ones, edges, odd_devices, random_number, settings_to_edit, too_wide, wrong_lengths, Edited,
};
use crate::tally::Tally;
use xc9500_reference::random::Random;
use xc9500_reference::{
    all_devices, image_bytes, image_to_readout, read_in_image, read_in_readout, readout_bytes,
    set_in_image, set_in_readout, setting_count, Answer, Device, Refusal, BLOCK_COUNTS,
};

pub type Read = fn(Device, &[u8], u32) -> Answer<u64>;
pub type Set = fn(Device, &mut [u8], u32, u32) -> Answer<u64>;

/// Reading and setting in one picture of the part.
#[derive(Clone, Copy)]
pub struct Access {
    pub read: Read,
    pub set: Set,
}

pub const REFERENCE_IN_IMAGE: Access = Access {
    read: |device, image, setting| read_in_image(device, image, setting).map(u64::from),
    set: |device, image, setting, pattern| {
        set_in_image(device, image, setting, pattern).map(|()| 0)
    },
};

pub const REFERENCE_IN_READOUT: Access = Access {
    read: |device, readout, setting| read_in_readout(device, readout, setting).map(u64::from),
    set: |device, readout, setting, pattern| {
        set_in_readout(device, readout, setting, pattern).map(|()| 0)
    },
};

/// Bytes before and after those that are lent, which no call may change.
const GUARD: usize = 64;

/// The same bytes for the program under test and for the reference, each between guards.
pub struct Lent {
    input: &'static str,
    bytes: Vec<u8>,
    expected: Vec<u8>,
}

impl Lent {
    pub fn new(input: &'static str, bytes: &[u8]) -> Lent {
        let guard = [0xA5; GUARD];
        let guarded = [&guard, bytes, &guard].concat();
        Lent {
            input,
            bytes: guarded.clone(),
            expected: guarded,
        }
    }

    /// The bytes as the program under test left them.
    pub fn bytes(&self) -> &[u8] {
        &self.bytes[GUARD..self.bytes.len() - GUARD]
    }
}

/// Reading and setting in one picture by one program, and what came of it so far.
struct Compared {
    program: Access,
    reference: Access,
    read: Tally,
    set: Tally,
}

impl Compared {
    /// Compares one call that reads.
    fn read(&mut self, device: Device, lent: &Lent, setting: u32) -> Answer<u64> {
        let call = (device, lent.input, lent.bytes().len(), setting);
        let end = lent.bytes.len() - GUARD;
        let answer = (self.program.read)(device, &lent.bytes[GUARD..end], setting);
        let expected = (self.reference.read)(device, &lent.expected[GUARD..end], setting);
        self.read.compare(call, answer, expected);
        self.read
            .compare_bytes(call, "guarded slice", &lent.bytes, &lent.expected);
        answer
    }

    /// Compares one call that sets, and what is read there then.
    fn set(&mut self, device: Device, lent: &mut Lent, setting: u32, pattern: u32) -> Answer<u64> {
        let call = (device, lent.input, lent.bytes().len(), setting, pattern);
        let end = lent.bytes.len() - GUARD;
        let answer = (self.program.set)(device, &mut lent.bytes[GUARD..end], setting, pattern);
        let expected =
            (self.reference.set)(device, &mut lent.expected[GUARD..end], setting, pattern);
        self.set.compare(call, answer, expected);
        self.set
            .compare_bytes(call, "guarded slice", &lent.bytes, &lent.expected);
        let read = self.read(device, lent, setting);
        if answer.is_ok() {
            assert_eq!(read, Ok(u64::from(pattern)), "{call:?}: read after it");
        }
        answer
    }

    /// Reads once and sets with each pattern.
    fn each_pattern(&mut self, device: Device, lent: &mut Lent, setting: u32, patterns: &[u32]) {
        let _ = self.read(device, lent, setting);
        for pattern in patterns {
            let _ = self.set(device, lent, setting, *pattern);
        }
    }
}

/// The four functions of a program, compared with the reference.
pub struct EditComparison {
    image: Compared,
    readout: Compared,
    image_to_readout: Function,
}

impl EditComparison {
    /// The names are those of reading and setting in an image, then in a readout.
    pub fn new(
        names: [&'static str; 4],
        in_image: Access,
        in_readout: Access,
        image_to_readout: Function,
    ) -> EditComparison {
        let [read_image, set_image, read_readout, set_readout] = names.map(Tally::new);
        EditComparison {
            image: Compared {
                program: in_image,
                reference: REFERENCE_IN_IMAGE,
                read: read_image,
                set: set_image,
            },
            readout: Compared {
                program: in_readout,
                reference: REFERENCE_IN_READOUT,
                read: read_readout,
                set: set_readout,
            },
            image_to_readout,
        }
    }

    /// Compares the edits of some hundred settings of a device, one after the other on one part.
    pub fn edits(&mut self, device: Device, random: &mut Random) {
        let settings = settings_to_edit(device, random);
        let length = image_bytes(device).unwrap();
        for (name, image) in [
            ("all 0", vec![0; length]),
            ("all 1", vec![0xFF; length]),
            ("random", random.bytes(length)),
        ] {
            self.both_ways(device, name, &image, &settings);
        }
        self.damaged(device, &settings, random);
    }

    /// Edits an image and its readout alike; the one stays the readout of the other.
    fn both_ways(&mut self, device: Device, name: &'static str, image: &[u8], settings: &[Edited]) {
        let mut converted = vec![0; readout_bytes(device).unwrap()];
        image_to_readout(device, image, &mut converted).unwrap();
        let mut image = Lent::new(name, image);
        let mut readout = Lent::new(name, &converted);
        for edited in settings {
            let setting = edited.setting;
            let read = self.image.read(device, &image, setting);
            assert_eq!(read, self.readout.read(device, &readout, setting));
            for pattern in edited.patterns.iter().copied() {
                assert_eq!(self.image.set(device, &mut image, setting, pattern), Ok(0));
                let in_readout = self.readout.set(device, &mut readout, setting, pattern);
                assert_eq!(in_readout, Ok(0));
                let conversion = (self.image_to_readout)(device, image.bytes(), &mut converted);
                assert_eq!(conversion, Ok(0));
                assert!(
                    converted == readout.bytes(),
                    "{device:?} setting {setting} pattern {pattern}: not the image's readout"
                );
            }
            for pattern in too_wide(edited.width) {
                let _ = self.image.set(device, &mut image, setting, pattern);
                let _ = self.readout.set(device, &mut readout, setting, pattern);
            }
        }
    }

    /// Edits readouts with above bits: all sorts of bytes; strays in every byte that can have one
    /// but does not hold the setting; strays in a byte that does.
    fn damaged(&mut self, device: Device, settings: &[Edited], random: &mut Random) {
        let widths = all_ones(device);
        let mut any_bytes = Lent::new("any bytes", &random.bytes(widths.len()));
        let mut all_strays = random.bytes(widths.len());
        for (byte, width) in all_strays.iter_mut().zip(&widths) {
            *byte |= !width;
        }
        for edited in settings {
            let setting = edited.setting;
            let patterns = edited.patterns.as_slice();
            let and_too_wide = [patterns, &too_wide(edited.width)[..]].concat();
            self.readout
                .each_pattern(device, &mut any_bytes, setting, &and_too_wide);

            let mut elsewhere = all_strays.clone();
            for index in &edited.bytes {
                elsewhere[*index] &= widths[*index];
            }
            let mut elsewhere = Lent::new("strays elsewhere", &elsewhere);
            for pattern in patterns {
                let answer = self.readout.set(device, &mut elsewhere, setting, *pattern);
                assert_eq!(answer, Ok(0), "{device:?} setting {setting}");
            }

            // Of the bits above the width each alone; most settings lie in bytes without any.
            for index in &edited.bytes {
                for bit in 0..8 {
                    let above = 1 << bit & !widths[*index];
                    if above != 0 {
                        let mut holding = elsewhere.bytes().to_vec();
                        holding[*index] |= above;
                        let mut holding = Lent::new("a above in its byte", &holding);
                        self.readout
                            .each_pattern(device, &mut holding, setting, &and_too_wide);
                    }
                }
            }
        }
    }

    /// Compares the calls with numbers of settings at, over and around the count.
    pub fn setting_numbers(&mut self, random: &mut Random) {
        for device in all_devices() {
            let count = setting_count(device).unwrap();
            let mut numbers = Vec::new();
            for edge in edges() {
                numbers.extend([edge, count.wrapping_add(edge), count.wrapping_sub(edge)]);
            }
            for _ in 0..200 {
                numbers.extend([random_number(random), random.next_u64() as u32]);
            }
            let image = random.bytes(image_bytes(device).unwrap());
            let readout = random.bytes(readout_bytes(device).unwrap());
            let mut image = Lent::new("random", &image);
            let mut readout = Lent::new("any bytes", &readout);
            for setting in numbers {
                let patterns = [0, 1, random_number(random)];
                self.image
                    .each_pattern(device, &mut image, setting, &patterns);
                self.readout
                    .each_pattern(device, &mut readout, setting, &patterns);
            }
        }
    }

    /// Compares the calls with wrong lengths, those of the other picture among them.
    pub fn wrong_lengths(&mut self, random: &mut Random) {
        for device in all_devices() {
            let count = setting_count(device).unwrap();
            let settings = [0, random.below(u64::from(count)) as u32, count - 1, count];
            let right = image_bytes(device).unwrap();
            for length in wrong_lengths(right) {
                let mut lent = Lent::new("random", &random.bytes(length));
                for setting in settings {
                    self.image
                        .each_pattern(device, &mut lent, setting, &[0, u32::MAX]);
                }
            }
            let right = readout_bytes(device).unwrap();
            for length in wrong_lengths(right) {
                let mut lent = Lent::new("random", &random.bytes(length));
                for setting in settings {
                    self.readout
                        .each_pattern(device, &mut lent, setting, &[0, u32::MAX]);
                }
            }
        }
    }

    /// Compares the calls with unknown devices; a known one is among them now and then.
    pub fn unknown_devices(&mut self, random: &mut Random) {
        for device in odd_devices(random) {
            // The lengths that a count would have if it were known, and those of a known one.
            let known = random.pick(&BLOCK_COUNTS);
            for blocks in [device.blocks, known] {
                if blocks <= 40 {
                    let blocks = blocks as usize;
                    let setting = random_number(random);
                    let pattern = random_number(random);
                    let mut image = Lent::new("all 1", &vec![0xFF; IMAGE(blocks)]);
                    self.image
                        .each_pattern(device, &mut image, setting, &[0, pattern]);
                    let mut readout = Lent::new("all 1", &vec![0xFF; READOUT(blocks)]);
                    self.readout
                        .each_pattern(device, &mut readout, setting, &[0, pattern]);
                }
            }
            let mut empty = Lent::new("empty", &[]);
            self.image.each_pattern(device, &mut empty, 0, &[0]);
            self.readout.each_pattern(device, &mut empty, 0, &[0]);
        }
    }

    /// Compares the calls with every mixture of faults, of which the lowest is the answer: unknown
    /// device, wrong length, no such setting, too wide a pattern, above bits.
    pub fn several_faults(&mut self, random: &mut Random) {
        for device in all_devices() {
            let count = setting_count(device).unwrap();
            let widths = all_ones(device);
            let can_have_stray = |edited: &Edited| widths[edited.bytes[0]] != 0xFF;
            let mut settings = settings_to_edit(device, random);
            settings.retain(can_have_stray);
            for mixture in 0..32 {
                let numbers = [1, 2, 4, 5, 6];
                let mixed = |i: &usize| mixture >> i & 1 == 1;
                let faults: Vec<u32> = (0..5).filter(mixed).map(|i| numbers[i]).collect();
                let has = |number: u32| faults.contains(&number);

                let edited = &settings[random.below(settings.len() as u64) as usize];
                let index = edited.bytes[0];
                let mut asked = device;
                if has(1) {
                    asked.class = 2 + random_number(random) % 1000;
                }
                let shorter = usize::from(has(2));
                let setting = if has(4) { count } else { edited.setting };
                let pattern = if has(5) {
                    random.pick(&too_wide(edited.width))
                } else {
                    random.pick(&edited.patterns)
                };
                let image = vec![0x5A; image_bytes(device).unwrap() - shorter];
                let mut image = Lent::new("faults", &image);
                let mut readout = widths.clone();
                if has(6) {
                    readout[index] = 0xFF;
                }
                readout.truncate(widths.len() - shorter);
                let mut readout = Lent::new("faults", &readout);

                // An image has no above bits, and what only reads is given no pattern.
                let lowest = |possible: &[u32]| {
                    let mut faults = faults.iter().copied();
                    let number = faults.find(|number| possible.contains(number))?;
                    let value = if number == 6 { index as u64 } else { 0 };
                    Some(Refusal { number, value })
                };
                let read = self.image.read(asked, &image, setting);
                assert_eq!(read.err(), lowest(&[1, 2, 4]));
                let set = self.image.set(asked, &mut image, setting, pattern);
                assert_eq!(set.err(), lowest(&[1, 2, 4, 5]));
                let read = self.readout.read(asked, &readout, setting);
                assert_eq!(read.err(), lowest(&[1, 2, 4, 6]));
                let set = self.readout.set(asked, &mut readout, setting, pattern);
                assert_eq!(set.err(), lowest(&[1, 2, 4, 5, 6]));
            }
        }
    }

    /// Panics unless each refusal of each function occurred often enough, and no other did.
    pub fn assert_refusals(&self) {
        self.image.read.assert_refusals(&[1, 2, 4]);
        self.image.set.assert_refusals(&[1, 2, 4, 5]);
        self.readout.read.assert_refusals(&[1, 2, 4, 6]);
        self.readout.set.assert_refusals(&[1, 2, 4, 5, 6]);
    }
}
