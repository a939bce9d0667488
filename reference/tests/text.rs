// Seeded texts: random texts of good form against an image built alongside, and written texts.
// Damaged and cut-off texts must be answered, and a refusal must leave the image as it was.

use xc9500_reference::random::Random;
use xc9500_reference::*;

const BLANKS: [u8; 4] = [b' ', b'\t', b'\r', b'\n'];

/// A text of good form being put together, and the image it describes.
struct Draft {
    random: Random,
    text: Vec<u8>,
    fuses: Vec<bool>,
}

impl Draft {
    fn chance(&mut self, one_in: u64) -> bool {
        self.random.below(one_in) == 0
    }

    fn blanks(&mut self, most: u64) {
        for _ in 0..self.random.below(most + 1) {
            let blank = self.random.pick(&BLANKS);
            self.text.push(blank);
        }
    }

    /// Bytes that may stand in design text and comments.
    fn free_bytes(&mut self) {
        for _ in 0..self.random.below(20) {
            let byte = self.random.next_u64() as u8;
            if ![b'*', 2, 3].contains(&byte) {
                self.text.push(byte);
            }
        }
    }

    fn skipped_fields(&mut self) {
        while self.chance(3) {
            let letters = self.random.pick(&["N", "J", "X", "QP", "QV"]);
            self.text.extend(letters.bytes());
            self.free_bytes();
            self.text.push(b'*');
            self.blanks(2);
        }
    }

    fn number(&mut self, number: usize) {
        let digits = 1 + self.random.below(7) as usize;
        self.text.extend(format!("{number:0digits$}").bytes());
    }

    fn hex(&mut self, number: u32) {
        for digit in format!("{number:04X}").bytes() {
            let lower = self.chance(2);
            self.text.push(if lower {
                digit.to_ascii_lowercase()
            } else {
                digit
            });
        }
    }

    fn fuse_list(&mut self, first: usize, length: usize) {
        self.text.push(b'L');
        self.number(first);
        let blank = self.random.pick(&BLANKS);
        self.text.push(blank);
        for fuse in first..first + length {
            if self.chance(9) {
                self.blanks(3);
            }
            let state = self.chance(2);
            self.text.push(if state { b'1' } else { b'0' });
            self.fuses[fuse] = state;
        }
        if self.chance(3) {
            self.blanks(3);
        }
        self.text.push(b'*');
        self.blanks(2);
    }

    fn start_state(&mut self) {
        let state = self.chance(2);
        self.text
            .extend_from_slice(if state { b"F1*" } else { b"F0*" });
        self.fuses.fill(state);
        self.blanks(2);
    }

    /// Lists that give some fuses, each of at most so many.
    fn some_fuses(&mut self, longest: u64) {
        let mut next = 0;
        while !self.chance(8) {
            let first = next + self.random.below(longest) as usize;
            if self.chance(2) {
                next = first;
            }
            let first = next;
            let length = 1 + self.random.below(longest) as usize;
            if first + length > self.fuses.len() {
                break;
            }
            self.fuse_list(first, length);
            self.skipped_fields();
            next = first + length;
        }
    }

    /// Lists that give every fuse, each of at most so many.
    fn every_fuse(&mut self, longest: u64) {
        // With shorter ones the text of a large part would be over the size limit.
        let longest = longest.max(20);
        let mut next = 0;
        while next < self.fuses.len() {
            let length = 1 + self.random.below(longest) as usize;
            let length = length.min(self.fuses.len() - next);
            self.fuse_list(next, length);
            if self.chance(40) {
                self.skipped_fields();
            }
            next += length;
        }
    }

    fn image(&self) -> Vec<u8> {
        let mut image = vec![0; self.fuses.len() / 8];
        for (fuse, state) in self.fuses.iter().enumerate() {
            if *state {
                image[fuse / 8] |= 1 << (fuse % 8);
            }
        }
        image
    }
}

fn low_16(bytes: &[u8]) -> u32 {
    bytes.iter().map(|byte| u32::from(*byte)).sum::<u32>() & 0xFFFF
}

/// A random text of good form for a device, and its image.
fn good_text(device: Device, seed: u64) -> (Vec<u8>, Vec<u8>) {
    let count = fuse_count(device).unwrap() as usize;
    let mut draft = Draft {
        random: Random::new(seed),
        text: vec![2],
        fuses: vec![false; count],
    };
    draft.free_bytes();
    draft.text.push(b'*');
    draft.blanks(3);
    draft.skipped_fields();
    draft.text.extend(b"QF");
    draft.number(count);
    draft.text.push(b'*');
    draft.blanks(2);
    draft.skipped_fields();
    let longest = 1 + draft.random.below(3000);
    // Without a start state every fuse must be given; such texts are long, so they are few.
    if draft.chance(8) {
        draft.every_fuse(longest);
    } else {
        draft.start_state();
        draft.skipped_fields();
        draft.some_fuses(longest);
    }
    if draft.chance(2) {
        let sum = low_16(&draft.image());
        draft.text.push(b'C');
        draft.hex(sum);
        draft.text.push(b'*');
        draft.blanks(2);
        draft.skipped_fields();
    }
    draft.text.push(3);
    let sum = if draft.chance(3) {
        0
    } else {
        low_16(&draft.text)
    };
    draft.hex(sum);
    draft.blanks(3);
    let image = draft.image();
    (draft.text, image)
}

#[test]
fn good_texts_give_their_image() {
    for device in all_devices() {
        for seed in 0..60 {
            let (text, expected) = good_text(device, 1000 * u64::from(device.blocks) + seed);
            let mut image = vec![0x5A; expected.len()];
            assert_eq!(text_to_image(device, &text, &mut image), Ok(()));
            assert!(image == expected, "seed {seed} of {device:?}");
        }
    }
}

/// A written text without its F field; the transmission sum is not given.
fn without_start_state(text: &[u8]) -> Vec<u8> {
    let text = std::str::from_utf8(text).unwrap();
    assert_eq!(text.matches("\nF0*\n").count(), 1);
    let mut text = text.replace("\nF0*\n", "\n").into_bytes();
    let sum = text.len() - 4;
    text[sum..].copy_from_slice(b"0000");
    text
}

#[test]
fn a_written_text_needs_no_start_state_but_every_line() {
    let mut random = Random::new(24);
    for device in all_devices() {
        let image = random.bytes(image_bytes(device).unwrap());
        let mut text = vec![0; text_bytes(device).unwrap()];
        image_to_text(device, &image, &mut text).unwrap();
        let text = without_start_state(&text);
        let mut back = vec![0x5A; image.len()];
        assert_eq!(text_to_image(device, &text, &mut back), Ok(()));
        assert!(back == image);

        // Each line that is left out, or is a comment, leaves its first fuse as the first not given.
        let lines: Vec<&[u8]> = text.split(|byte| *byte == b'\n').collect();
        let lists: Vec<usize> = (0..lines.len())
            .filter(|line| lines[*line].starts_with(b"L"))
            .collect();
        let mut left_out = vec![lists[0], lists[1], lists[lists.len() - 1]];
        left_out.extend((0..5).map(|_| random.pick(&lists)));
        for line in left_out {
            let first: u64 = std::str::from_utf8(&lines[line][1..8])
                .unwrap()
                .parse()
                .unwrap();
            let refused = Err(Refusal {
                number: 13,
                value: first,
            });
            let mut without = lines.clone();
            without.remove(line);
            let mut back = vec![0x5A; image.len()];
            let answer = text_to_image(device, &without.join(&b'\n'), &mut back);
            assert_eq!(answer, refused);
            assert!(back.iter().all(|byte| *byte == 0x5A));

            let comment = [b"N", lines[line]].concat();
            let mut commented = lines.clone();
            commented[line] = &comment;
            let answer = text_to_image(device, &commented.join(&b'\n'), &mut back);
            assert_eq!(answer, refused);
        }
    }
}

#[test]
fn a_good_text_is_refused_8_by_the_other_devices() {
    for blocks in BLOCK_COUNTS {
        let device = Device {
            blocks,
            class: SMALL,
        };
        let (text, _) = good_text(device, 77);
        let field = text
            .windows(2)
            .position(|pair| pair == b"QF")
            .expect("the text has a QF") as u64;
        for other in all_devices() {
            let mut image = vec![0; image_bytes(other).unwrap()];
            let expected = if other.blocks == blocks {
                Ok(())
            } else {
                Err(Refusal {
                    number: 8,
                    value: field,
                })
            };
            assert_eq!(text_to_image(other, &text, &mut image), expected);
        }
    }
}

#[test]
fn written_texts_have_the_computed_length_and_read_back() {
    let mut random = Random::new(21);
    for device in all_devices() {
        let needed = text_bytes(device).unwrap();
        let length = image_bytes(device).unwrap();
        for image in [vec![0; length], vec![0xFF; length], random.bytes(length)] {
            // Room past the text keeps its bytes.
            let mut text = vec![0x77; needed + 9];
            assert_eq!(image_to_text(device, &image, &mut text), Ok(needed));
            assert_eq!(text[needed..], [0x77; 9]);
            let mut back = vec![0x5A; length];
            assert_eq!(text_to_image(device, &text[..needed], &mut back), Ok(()));
            assert!(back == image);

            let mut exact = vec![0; needed];
            assert_eq!(image_to_text(device, &image, &mut exact), Ok(needed));
            assert!(exact == text[..needed]);

            for buffer in [0, 1, needed - 1] {
                let mut short = vec![0x77; buffer];
                assert_eq!(
                    image_to_text(device, &image, &mut short),
                    Err(Refusal {
                        number: 12,
                        value: needed as u64
                    })
                );
                assert!(short == vec![0x77; buffer]);
            }
        }
    }
}

#[test]
fn lines_of_a_written_text() {
    let device = Device {
        blocks: 2,
        class: SMALL,
    };
    let mut image = vec![0; 2268];
    for fuse in [6, 40, 77, 78, 107, 108, 7775, 7776, 7784, 9072, 18143] {
        image[fuse / 8] |= 1 << (fuse % 8);
    }
    let mut text = vec![0; 25_732];
    image_to_text(device, &image, &mut text).unwrap();
    let text = String::from_utf8(text).unwrap();
    let lines: Vec<&str> = text.split('\n').collect();
    assert_eq!(lines[0], "\x02*");
    assert_eq!(lines[1], "QF18144*");
    assert_eq!(lines[2], "F0*");
    assert_eq!(
        lines[3],
        "L0000000 00000010 00000000 00000000 00000000 00000000*"
    );
    assert_eq!(
        lines[4],
        "L0000040 10000000 00000000 00000000 00000000 000001*"
    );
    assert_eq!(lines[5], "L0000078 100000 000000 000000 000000 000001*");
    assert_eq!(
        lines[6],
        "L0000108 10000000 00000000 00000000 00000000 00000000*"
    );
    assert_eq!(
        lines[3 + 215],
        "L0007746 000000 000000 000000 000000 000001*"
    );
    assert_eq!(
        lines[3 + 216],
        "L0007776 10000000 1000000 0000000 0000000 0000000*"
    );
    assert_eq!(
        lines[3 + 216 + 36],
        "L0009072 10000000 00000000 00000000 00000000 00000000*"
    );
    assert_eq!(
        lines[3 + 2 * 252 - 1],
        "L0018108 00000000 0000000 0000000 0000000 0000001*"
    );
    let sum = low_16(&image);
    assert_eq!(lines[3 + 2 * 252], format!("C{sum:04X}*"));
    let etx = text.find('\x03').unwrap();
    let sum = low_16(&text.as_bytes()[..=etx]);
    assert_eq!(lines[3 + 2 * 252 + 1], format!("\x03{sum:04X}"));
    assert_eq!(lines.len(), 3 + 2 * 252 + 2);
}

#[test]
fn a_cut_off_text_ends_early() {
    let mut random = Random::new(22);
    let device = Device {
        blocks: 2,
        class: LARGE,
    };
    let image = random.bytes(2268);
    let mut text = vec![0; 25_732];
    image_to_text(device, &image, &mut text).unwrap();
    let mut kept: Vec<usize> = (0..200).collect();
    kept.extend(text.len() - 200..text.len());
    kept.extend((0..300).map(|_| random.below(text.len() as u64) as usize));
    for length in kept {
        let mut back = vec![0x5A; 2268];
        assert_eq!(
            text_to_image(device, &text[..length], &mut back),
            Err(Refusal {
                number: 7,
                value: length as u64
            })
        );
        assert!(back == vec![0x5A; 2268]);
    }
}

#[test]
fn a_bad_field_put_between_fields_is_found() {
    let mut random = Random::new(23);
    let device = Device {
        blocks: 4,
        class: SMALL,
    };
    let image = random.bytes(5184);
    let mut text = vec![0; text_bytes(device).unwrap()];
    image_to_text(device, &image, &mut text).unwrap();
    let starts: Vec<usize> = (0..text.len() - 1)
        .filter(|offset| text[*offset] == b'\n')
        .map(|offset| offset + 1)
        .collect();
    for _ in 0..200 {
        let start = random.pick(&starts);
        let mut damaged = text[..start].to_vec();
        damaged.extend(random.pick(&[
            &b"Z*"[..],
            b"*",
            b"L0 *",
            b"QF41472x*",
            b"\x02*",
            b"V\x03*",
        ]));
        damaged.extend(&text[start..]);
        let mut back = vec![0x5A; 5184];
        assert_eq!(
            text_to_image(device, &damaged, &mut back),
            Err(Refusal {
                number: 7,
                value: start as u64
            })
        );
        assert!(back == vec![0x5A; 5184]);
    }
}

#[test]
fn damaged_texts_are_answered() {
    let device = Device {
        blocks: 2,
        class: SMALL,
    };
    let odd = b"*\x02\x03 \nQFLCNJXV01289aFfG\xFF\x00";
    let mut seen = [0; 14];
    for seed in 0..20_000 {
        let (mut text, good_image) = good_text(device, 500_000 + seed % 500);
        let mut random = Random::new(seed);
        for _ in 0..1 + random.below(3) {
            // Mostly near the start or the end, where the short fields are.
            let reach = random.pick(&[40, 40, text.len() as u64]);
            let mut at = random.below(reach.min(text.len() as u64)) as usize;
            if random.below(2) == 0 {
                at = text.len() - 1 - at;
            }
            match random.below(3) {
                0 => text[at] = random.pick(odd),
                1 => text.insert(at, random.pick(odd)),
                _ => {
                    text.remove(at);
                }
            }
        }
        let mut image = vec![0x5A; 2268];
        match text_to_image(device, &text, &mut image) {
            Ok(()) => {
                seen[0] += 1;
                if image == good_image {
                    seen[1] += 1;
                }
            }
            Err(refusal) => {
                assert!([7, 8, 9, 10, 11, 13].contains(&refusal.number));
                // Of 13 the value is a fuse, of the others an offset.
                if refusal.number == 13 {
                    assert!(refusal.value < 18144);
                } else {
                    assert!(refusal.value <= text.len() as u64);
                }
                assert!(image == vec![0x5A; 2268]);
                seen[refusal.number as usize] += 1;
            }
        }
    }
    // The damage reaches every answer there is.
    for answer in [0, 1, 7, 8, 9, 10, 11, 13] {
        assert!(seen[answer] > 0, "no text was answered {answer}");
    }
}
