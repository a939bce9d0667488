// The comparison of a reader of texts, be it this or that program's, with the reference.
// Of every call the answer and every byte of the lent image, which was filled with a pattern first.

use crate::comparison::{Comparison, Function, IMAGE, TEXT};
use crate::fuses_given::KINDS;
use crate::inputs::{images, odd_devices, wrong_lengths};
use crate::tally::KindTally;
use crate::text_examples::{bytes, EXAMPLES};
use crate::texts::{
    damaged, good_text, good_text_of, pieces_of_written, put_right_sum, Field, Pieces, ODD_BYTES,
    ODD_FIELDS,
};
use xc9500_reference::random::Random;
use xc9500_reference::{
    all_devices, fuse_count, image_to_text, text_bytes, text_to_image, Device, Refusal,
    BLOCK_COUNTS, LARGE, SMALL,
};

/// Damaged texts of short fields, and damaged texts of the writer.
const DAMAGED: u32 = 26_000;
const DAMAGED_WRITTEN: u32 = 400;

/// How often each outcome occurs at least among these.
const OFTEN: u64 = 1000;

/// Texts of each kind of `fuses_given`. Most are of two blocks, as large parts take long; every so many are of another device,
/// so that each kind is made for all of them.
const OF_EACH_KIND: usize = 110;
const OTHER_DEVICE: usize = 9;

const LONGEST_TEXT: usize = 1_048_576;

const SMALLEST: Device = Device {
    blocks: 2,
    class: SMALL,
};

/// Compares a reader with the reference, and sees that each refusal and acceptance occurs often.
pub fn compare_reader(name: &'static str, reader: Function, random: &mut Random) {
    // A text has no length of its own, so the first of the two is never asked for.
    let mut comparison = Comparison::new(name, (TEXT, IMAGE), reader, |device, text, image| {
        text_to_image(device, text, image).map(|()| 0)
    });
    examples(reader);
    written(&mut comparison, random);
    each_byte(&mut comparison, random);
    each_field(&mut comparison);
    each_count(&mut comparison);
    each_list(&mut comparison, random);
    each_sum(&mut comparison, random);
    several_faults(&mut comparison, reader);
    fuses_given(&mut comparison, name, reader, random);
    size_limit(&mut comparison);
    wrong_images(&mut comparison, random);
    unknown_devices(&mut comparison, random);
    let outcomes = [0, 7, 8, 9, 10, 11, 13];
    let before = outcomes.map(|number| comparison.seen(number));
    damaged_texts(&mut comparison, random);
    for (number, before) in outcomes.iter().zip(before) {
        let seen = comparison.seen(*number) - before;
        println!("{name}: outcome {number} of {seen} damaged texts");
        assert!(seen >= OFTEN, "{name}: outcome {number} is too rare");
    }
    comparison.assert_refusals(&[1, 2, 7, 8, 9, 10, 11, 13]);
}

/// Compares one call with an image of the right length.
fn call(comparison: &mut Comparison, device: Device, input: &str, text: &[u8]) {
    comparison.call(device, input, text, IMAGE(device.blocks as usize));
}

/// The answers that the papers give themselves.
fn examples(reader: Function) {
    for (example, expected) in EXAMPLES {
        for pattern in [0x00, 0xA5, 0xFF] {
            let before = vec![pattern; IMAGE(2)];
            let outcome = expected.outcome(&before);
            for program in [reader, |device, text, image| {
                text_to_image(device, text, image).map(|()| 0)
            }] {
                let mut image = before.clone();
                let answer = program(SMALLEST, &bytes(example), &mut image);
                assert_eq!(answer, outcome.0, "{example:?}");
                assert!(image == outcome.1, "{example:?}: the image");
            }
        }
    }
}

fn written_text(device: Device, image: &[u8]) -> Vec<u8> {
    let mut text = vec![0; text_bytes(device).unwrap()];
    image_to_text(device, image, &mut text).unwrap();
    text
}

/// Texts of the writer, read as the device's, without F, with blanks after them, and as other devices'.
fn written(comparison: &mut Comparison, random: &mut Random) {
    for device in all_devices() {
        for (name, image) in images(device, random).into_iter().take(3) {
            let mut text = written_text(device, &image);
            call(comparison, device, &name, &text);
            // Without its F it still gives every fuse; without one of its lines as well it does not.
            let mut pieces = pieces_of_written(device, &text);
            let start_state = pieces.one_of("F", random).expect("a written text has F0");
            pieces.fields.remove(start_state);
            pieces.put_right_sum();
            call(comparison, device, "written, no F", &pieces.bytes());
            let line = pieces
                .one_of("L", random)
                .expect("a written text has lines");
            pieces.fields[line].body.insert(0, b'N');
            pieces.put_right_sum();
            call(
                comparison,
                device,
                "written, no F, a line less",
                &pieces.bytes(),
            );
            let sum = text.len() - 4;
            text[sum..].make_ascii_lowercase();
            text.extend(b" \t\r\n");
            call(comparison, device, &name, &text);
            text[sum..sum + 4].copy_from_slice(b"0000");
            call(comparison, device, &name, &text);
            text.push(b'0');
            call(comparison, device, &name, &text);
            let other = random.pick(&all_devices());
            call(comparison, other, "written for another", &text[..sum + 4]);
        }
    }
}

/// A short text with a field of each kind, with its transmission sum and without; and the shortest with F and without.
fn short_texts() -> Vec<Pieces> {
    let fields = [
        "Nn",
        "QF18144",
        "F1",
        "L0 0 1",
        "QPx",
        "L18142\n0\t1",
        "CD222",
        "Xy",
    ];
    let mut whole = Pieces::new(SMALLEST, &fields);
    whole.design = b"d".to_vec();
    whole.fields[2].blanks = b"\r\n".to_vec();
    whole.before_etx = b" ".to_vec();
    whole.put_right_checksum(&mut Random::new(0));
    whole.put_right_sum();
    whole.end.extend(b"\r\n");
    let mut no_sum = whole.clone();
    no_sum.end = b"0000".to_vec();
    vec![
        whole,
        no_sum,
        Pieces::new(SMALLEST, &["QF18144", "F0"]),
        Pieces::new(SMALLEST, &["QF18144"]),
    ]
}

/// Short texts cut off at each place; each of their bytes changed, left out, preceded by another.
fn each_byte(comparison: &mut Comparison, random: &mut Random) {
    for text in short_texts().iter().map(Pieces::bytes) {
        call(comparison, SMALLEST, "short", &text);
        for at in 0..text.len() {
            call(comparison, SMALLEST, "end cut off", &text[..at]);
            call(comparison, SMALLEST, "start cut off", &text[at..]);
            let mut changed = text.clone();
            for byte in 0..=255 {
                changed[at] = byte;
                call(comparison, SMALLEST, "byte changed", &changed);
            }
            let mut without = text.clone();
            without.remove(at);
            call(comparison, SMALLEST, "byte left out", &without);
            for byte in ODD_BYTES {
                let mut with = text.clone();
                with.insert(at, *byte);
                call(comparison, SMALLEST, "byte put in", &with);
                put_right_sum(&mut with, random);
                call(comparison, SMALLEST, "byte put in, right sum", &with);
            }
        }
    }
}

/// A short text with each odd field at each place, and with its fields swapped, doubled, left out.
fn each_field(comparison: &mut Comparison) {
    let mut compare = |mut pieces: Pieces| {
        call(comparison, SMALLEST, "old sum", &pieces.bytes());
        pieces.put_right_sum();
        call(comparison, SMALLEST, "right sum", &pieces.bytes());
        pieces.end = b"0000".to_vec();
        call(comparison, SMALLEST, "no sum", &pieces.bytes());
    };
    for pieces in short_texts() {
        for gap in 0..=pieces.fields.len() {
            for field in ODD_FIELDS {
                let mut changed = pieces.clone();
                changed.fields.insert(gap, Field::new(*field));
                compare(changed);
            }
            for field in &pieces.fields {
                let mut changed = pieces.clone();
                changed.fields.insert(gap, field.clone());
                compare(changed);
            }
        }
        for a in 0..pieces.fields.len() {
            let mut changed = pieces.clone();
            changed.fields.remove(a);
            compare(changed);
            for b in 0..a {
                let mut changed = pieces.clone();
                changed.fields.swap(a, b);
                compare(changed);
            }
        }
    }
}

/// Counts that are right and wrong, and none, after comments of several lengths.
fn each_count(comparison: &mut Comparison) {
    for device in all_devices() {
        let right = fuse_count(device).unwrap();
        let counts = BLOCK_COUNTS.map(|blocks| 8 * IMAGE(blocks as usize) as u32);
        let near = [
            right - 1,
            right + 1,
            right * 10,
            right % 65536,
            0,
            9_999_999,
        ];
        for comments in 0..12 {
            let mut pieces = Pieces::new(device, &[]);
            for comment in 0..comments {
                let body = vec![b'N'; 1 + comment % 5];
                pieces.fields.push(Field::new(body));
            }
            call(comparison, device, "no count", &pieces.bytes());
            for count in counts.iter().chain(&near) {
                let mut with_count = pieces.clone();
                let field = Field::new(format!("QF{count}"));
                with_count.fields.insert(comments / 2, field);
                with_count.put_right_sum();
                call(comparison, device, "count, no F", &with_count.bytes());
                with_count.fields.push(Field::new("F1"));
                with_count.put_right_sum();
                call(comparison, device, "count", &with_count.bytes());
            }
        }
    }
}

/// Lists of each length at each bit of a byte, over both start states; then lists that lie over
/// the one before, below it, or past the end, as the first, a middle and the last of several.
fn each_list(comparison: &mut Comparison, random: &mut Random) {
    let states = |count: usize, random: &mut Random| -> String {
        (0..count).map(|_| random.pick(&['0', '1'])).collect()
    };
    for first in (0..16).chain([18_099]) {
        for length in 1..=45 {
            for start in ["F0", "F1"] {
                let list = format!("L{first} {}", states(length, random));
                let mut pieces = Pieces::new(SMALLEST, &["QF18144", start, &list, "C0000"]);
                pieces.put_right_checksum(random);
                pieces.put_right_sum();
                call(comparison, SMALLEST, "list", &pieces.bytes());
            }
        }
    }
    for device in all_devices() {
        let count = fuse_count(device).unwrap() as usize;
        let fuse_count_field = format!("QF{count}");
        // The whole part as one list, one fuse less, and one more; with F and without.
        for length in [count - 1, count, count + 1] {
            for start in ["F1", "N1"] {
                let list = format!("L0 {}", states(length, random));
                let mut pieces = Pieces::new(device, &[&fuse_count_field, start, &list, "C0000"]);
                pieces.put_right_checksum(random);
                pieces.put_right_sum();
                call(comparison, device, "whole part", &pieces.bytes());
            }
        }
        for place in 0..5usize {
            // Five lists of nine fuses, with gaps of one; the one at `place` starts elsewhere.
            let first = 10 * place;
            for start in [
                first,
                first + 1,
                first + 2,
                first.saturating_sub(1),
                first.saturating_sub(2),
                first.saturating_sub(10),
                0,
                count - 9,
                count - 8,
                count - 1,
                count,
                count + 1,
                9_999_999,
            ] {
                let mut pieces = Pieces::new(device, &[&fuse_count_field]);
                for list in 0..5 {
                    let first = if list == place { start } else { 10 * list };
                    let body = format!("L{first:07} {}", states(9, random));
                    pieces.fields.push(Field::new(body));
                }
                pieces.put_right_sum();
                call(comparison, device, "lists, no F", &pieces.bytes());
                pieces.fields.insert(1, Field::new("F0"));
                pieces.put_right_sum();
                call(comparison, device, "lists", &pieces.bytes());
            }
        }
    }
}

/// Right and wrong sums: the C field at each place where it may stand, and the sum after ETX.
fn each_sum(comparison: &mut Comparison, random: &mut Random) {
    // The larger parts only take longer.
    for device in all_devices().into_iter().take(4) {
        let fuse_count_field = format!("QF{}", fuse_count(device).unwrap());
        // With no list after it the C field may stand anywhere after the count.
        for fields in [
            &[&fuse_count_field, "F1", "N"][..],
            &[
                &fuse_count_field,
                "F0",
                "N",
                "L3 101101110",
                "N",
                "X",
                "L100 1",
            ],
        ] {
            let first_place = 1 + fields
                .iter()
                .rposition(|f| !b"FNX".contains(&f.as_bytes()[0]))
                .unwrap();
            for place in first_place..=fields.len() {
                let mut pieces = Pieces::new(device, fields);
                pieces.fields.insert(place, Field::new("C0000"));
                pieces.put_right_checksum(random);
                pieces.put_right_sum();
                let checksum = hex_number(&pieces.fields[place].body[1..]);
                let sum = hex_number(&pieces.end);
                for given in near(sum) {
                    pieces.end = format!("{given:04x}\r\n").into_bytes();
                    call(comparison, device, "sum", &pieces.bytes());
                }
                for given in near(checksum) {
                    pieces.fields[place].body = format!("C{given:04X}").into_bytes();
                    pieces.put_right_sum();
                    call(comparison, device, "checksum", &pieces.bytes());
                }
            }
        }
    }
}

fn hex_number(digits: &[u8]) -> u16 {
    let digits = std::str::from_utf8(digits).expect("digits are ASCII");
    u16::from_str_radix(digits, 16).expect("there are four hex digits")
}

/// A sum, some that differ from it in little, and some that a wrong rule would give: without STX or
/// ETX, of seven bits, with its bytes swapped.
fn near(sum: u16) -> Vec<u16> {
    let mut sums = vec![sum, 0, !sum, sum.swap_bytes(), sum & 0x7F7F, sum & 0xFF];
    for less in [1, 2, 3, 5, 0x100, 0x8000] {
        sums.extend([sum.wrapping_sub(less), sum.wrapping_add(less)]);
    }
    sums
}

/// Every mixture of faults, of which the first in the order 7, 8, 9, 13, 10, 11 is the answer, with its value.
fn several_faults(comparison: &mut Comparison, reader: Function) {
    // A bad field at each place, a byte after the sum, or none of these.
    for bad_form in [None, Some(0), Some(1), Some(2), Some(3), Some(4), Some(5)] {
        for mixture in 0..64 {
            let has = |number: u32| mixture >> (number - 8) & 1 == 1;
            if has(12) {
                // No text is refused 12.
                continue;
            }
            let fields = [
                if has(8) { "QF18145" } else { "QF18144" },
                if has(13) { "N1" } else { "F1" },
                if has(9) { "L18143 11" } else { "L18143 1" },
                if has(10) { "CD323" } else { "CD324" },
            ];
            let mut pieces = Pieces::new(SMALLEST, &fields);
            match bad_form {
                Some(place) if place <= 4 => pieces.fields.insert(place, Field::new("Z")),
                _ => {}
            }
            pieces.put_right_sum();
            if has(11) {
                pieces.end = b"0001".to_vec();
            }
            let after_sum = pieces.bytes().len();
            if bad_form == Some(5) {
                pieces.end.push(b'x');
            }

            let fields = pieces.fields.len();
            let refused = |number: u32, value: usize| {
                Err(Refusal {
                    number,
                    value: value as u64,
                })
            };
            let expected = match bad_form {
                Some(5) => refused(7, after_sum),
                Some(place) => refused(7, pieces.offset(place)),
                None if has(8) => refused(8, pieces.offset(0)),
                None if has(9) => refused(9, pieces.offset(2)),
                None if has(13) => refused(13, 0),
                None if has(10) => refused(10, pieces.offset(3)),
                None if has(11) => refused(11, pieces.offset(fields)),
                None => Ok(0),
            };
            let mut image = vec![0; IMAGE(2)];
            let answer = reader(SMALLEST, &pieces.bytes(), &mut image);
            assert_eq!(answer, expected, "faults {mixture:b}, form {bad_form:?}");
            call(comparison, SMALLEST, "faults", &pieces.bytes());
        }
    }
}

/// Texts of each kind of `fuses_given`, with the answers that they must get.
fn fuses_given(
    comparison: &mut Comparison,
    name: &'static str,
    reader: Function,
    random: &mut Random,
) {
    let kinds: Vec<&str> = KINDS.iter().map(|(kind, _)| *kind).collect();
    let mut tally = KindTally::new(name, &kinds);
    let devices = all_devices();
    for (kind, make) in KINDS {
        for number in 0..OF_EACH_KIND {
            let device = if number % OTHER_DEVICE == 0 {
                devices[number / OTHER_DEVICE % devices.len()]
            } else {
                let class = random.pick(&[SMALL, LARGE]);
                Device { blocks: 2, class }
            };
            let made = make(device, random);
            let text = made.pieces.bytes();
            let mut image = vec![0xA5; IMAGE(device.blocks as usize)];
            tally.compare(kind, reader(device, &text, &mut image), made.answer);
            call(comparison, device, kind, &text);
        }
    }
    tally.assert_enough();
}

/// Texts of the longest length and of one byte more, the length made up in several places.
fn size_limit(comparison: &mut Comparison) {
    let all_but_one = format!("H L0␣{}", "1".repeat(18_143));
    for length in [LONGEST_TEXT - 1, LONGEST_TEXT, LONGEST_TEXT + 1] {
        // In a comment, the design text, a list, between fields, after the sum; and in bad texts.
        for (start, filling, end) in [
            ("H F0* N", b'x', "* T"),
            ("<2>", 0xFF, "*QF18144*F0* T"),
            ("H F0* L0␣", b' ', "1* T"),
            ("H L0␣", b'1', "* T"),
            ("H F0*", b'\n', "T"),
            ("H F0* T", b'\r', ""),
            ("H F0* T", b'0', ""),
            // Without F: no fuse given, the first alone, all but the last, and all.
            ("H N", b'x', "* T"),
            ("H L0␣", b' ', "1* T"),
            (&all_but_one, b' ', "* T"),
            (&all_but_one, b' ', "1* T"),
            ("H ", b'*', "T"),
            ("N", b'x', "* T"),
            ("", b'x', ""),
            ("<2>", b'x', ""),
        ] {
            let (mut text, end) = (bytes(start), bytes(end));
            text.resize(length - end.len(), filling);
            text.extend(end);
            call(comparison, SMALLEST, "size", &text);
            // An unknown device and a wrong image come first.
            comparison.call(
                Device {
                    blocks: 3,
                    ..SMALLEST
                },
                "size",
                &text,
                IMAGE(3),
            );
            comparison.call(SMALLEST, "size", &text, IMAGE(2) - 1);
        }
    }
}

/// Images of a wrong length, which is refused before the text is looked at.
fn wrong_images(comparison: &mut Comparison, random: &mut Random) {
    for device in all_devices() {
        for length in wrong_lengths(IMAGE(device.blocks as usize)) {
            let good = good_text_of(device, random).bytes();
            for text in [&good, &b"H"[..], &[]] {
                comparison.call(device, "image of a wrong length", text, length);
            }
        }
    }
}

/// Unknown devices, with texts that are good for some device.
fn unknown_devices(comparison: &mut Comparison, random: &mut Random) {
    let text = good_text_of(SMALLEST, random).bytes();
    for device in odd_devices(random) {
        let known = random.pick(&BLOCK_COUNTS);
        for blocks in [device.blocks, known] {
            if blocks <= 40 {
                let count = 8 * IMAGE(blocks as usize);
                let count_field = format!("QF{count}");
                let own = Pieces::new(device, &[&count_field, "F0"]).bytes();
                for text in [&own, &text] {
                    comparison.call(device, "good", text, IMAGE(blocks as usize));
                }
            }
        }
        comparison.call(device, "empty", &[], 0);
    }
}

/// Texts put together at random and then damaged; many have their sums made right after it.
fn damaged_texts(comparison: &mut Comparison, random: &mut Random) {
    let mut repaired = 0;
    let mut compare = |pieces: Pieces, random: &mut Random| {
        let damaged = damaged(pieces, random);
        call(comparison, damaged.device, "damaged", &damaged.text);
        repaired += u32::from(damaged.repaired);
    };
    for _ in 0..DAMAGED {
        compare(good_text(random), random);
    }
    for device in all_devices() {
        let image = random.bytes(IMAGE(device.blocks as usize));
        let pieces = pieces_of_written(device, &written_text(device, &image));
        // The larger the part, the longer its texts, and the fewer of them.
        for _ in 0..DAMAGED_WRITTEN / (device.blocks * device.blocks) {
            compare(pieces.clone(), random);
        }
    }
    assert!(
        repaired >= (DAMAGED + 2 * DAMAGED_WRITTEN) / 5,
        "only {repaired} of the damaged texts have right sums"
    );
}
