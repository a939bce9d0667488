// The list of the fuses that differ, and the names of fuses: the printed cases, every name, every refusal.
// A whole part has as many unnamed fuses as document 01 says, and no name twice.

use std::collections::HashSet;
use xc9500_reference::random::Random;
use xc9500_reference::*;

/// What the room holds before a call.
const UNTOUCHED: u8 = b'~';

fn device(blocks: u32, class: u32) -> Device {
    Device { blocks, class }
}

fn refusal(number: u32, value: usize) -> Answer<usize> {
    Err(Refusal {
        number,
        value: value as u64,
    })
}

/// An image with every fuse at 1 but those listed.
fn ones_but(device: Device, fuses: &[u32]) -> Vec<u8> {
    let mut image = vec![0xFF; image_bytes(device).unwrap()];
    for fuse in fuses {
        image[*fuse as usize / 8] ^= 1 << (fuse % 8);
    }
    image
}

/// The text of the differences, by a call with room that is too short and one with enough.
fn text_of(device: Device, old: &[u8], new: &[u8]) -> String {
    let Err(Refusal { number: 12, value }) = differences(device, old, new, &mut []) else {
        panic!("no room is enough");
    };
    let mut text = vec![UNTOUCHED; value as usize];
    assert_eq!(differences(device, old, new, &mut text), Ok(text.len()));
    String::from_utf8(text).unwrap()
}

/// The lines that clearing some fuses of an image of ones gives, after the first.
fn lines_of_clearing(device: Device, fuses: &[u32]) -> Vec<String> {
    let text = text_of(device, &ones_but(device, &[]), &ones_but(device, fuses));
    let mut lines: Vec<String> = text.lines().map(String::from).collect();
    assert_eq!(lines.remove(0), format!("{} differ", fuses.len()));
    lines
}

#[test]
fn the_printed_case() {
    let device = device(2, SMALL);
    let (old, new) = (ones_but(device, &[]), ones_but(device, &[3138, 3246]));
    let expected = "2 differ\n3138 1 0 FB0 MC0 OE_MUX.0\n3246 1 0 FB0 MC0 OE_MUX.1\n";
    assert_eq!(expected.len(), 61);
    assert_eq!(text_of(device, &old, &new), expected);
    let back = expected.replace(" 1 0 ", " 0 1 ");
    assert_eq!(text_of(device, &new, &old), back);
}

/// The case as it comes about: OE_MUX of macrocell 0 is set to FOE2 on an image of ones.
#[test]
fn setting_oe_mux_gives_the_printed_case() {
    let device = device(2, SMALL);
    let old = ones_but(device, &[]);
    let mut new = old.clone();
    let oe_mux = Setting::Macrocell {
        block: 0,
        macrocell: 0,
        field: MacrocellField::OeMux,
    };
    set_value_in_image(device, &mut new, oe_mux, Value::Named(ValueName::Foe2)).unwrap();
    assert_eq!(new, ones_but(device, &[3138, 3246]));
}

#[test]
fn none_and_one() {
    for device in all_devices() {
        let image = Random::new(0x9500_0071).bytes(image_bytes(device).unwrap());
        assert_eq!(text_of(device, &image, &image), "0 differ\n");
        let (old, new) = (ones_but(device, &[]), ones_but(device, &[0]));
        let expected = "1 differ\n0 1 0 FB0 MC0 PT0 IM0 N\n";
        assert_eq!(text_of(device, &old, &new), expected);
    }
}

/// One name of each form, two blocks, and the last fuse of the largest part.
#[test]
fn names_of_each_form() {
    for (class, fuse, name) in [
        (SMALL, 1677, "FB0 MC4 PT2 IM7 P"),
        (SMALL, 1569, "FB0 MC4 PT2 IM7 N"),
        (SMALL, 8548, "FB0 IM7 UIM FB1 MC3"),
        (SMALL, 3138, "FB0 MC0 OE_MUX.0"),
        (SMALL, 3246, "FB0 MC0 OE_MUX.1"),
        (SMALL, 3354, "FB0 MC0 OE_MUX.2"),
        (SMALL, 2391, "FB0 MC10 INV"),
        (SMALL, 1758, "FB0 MC3 PT2 ALLOC.0"),
        (SMALL, 1866, "FB0 MC3 PT2 ALLOC.1"),
        (SMALL, 5646, "FB0 MC3 PT2 HP"),
        (SMALL, 1218, "FB0 READ_PROT_A"),
        (SMALL, 9072 + 1218, "FB1 READ_PROT_A"),
        (SMALL, 14, "FSR_INV"),
        (SMALL, 46, "FOE[0].INV"),
        (SMALL, 354, "FCLK[1].MUX.0"),
        (SMALL, 462, "FCLK[1].MUX.1"),
        (SMALL, 818, "USERCODE.0"),
        (SMALL, 655, "USERCODE.31"),
        (LARGE, 62, "FOE[2].INV"),
        (LARGE, 70, "FOE[3].INV"),
        (LARGE, 386, "FOE[2].MUX.0"),
        (LARGE, 502, "FOE[3].MUX.1"),
    ] {
        let device = device(2, class);
        let named = name_at_fuse(device, fuse);
        assert_eq!(named, Ok(Some(name.to_string())), "fuse {fuse}");
        let lines = lines_of_clearing(device, &[fuse]);
        assert_eq!(lines, [format!("{fuse} 1 0 {name}")]);
    }
    let largest = device(16, LARGE);
    assert_eq!(
        name_at_fuse(largest, 290_303),
        Ok(Some("FB15 IM34 UIM FB15 MC17".to_string()))
    );
}

#[test]
fn both_bits_of_alloc() {
    let lines = lines_of_clearing(device(2, SMALL), &[1758, 1866]);
    assert_eq!(
        lines,
        [
            "1758 1 0 FB0 MC3 PT2 ALLOC.0",
            "1866 1 0 FB0 MC3 PT2 ALLOC.1"
        ]
    );
}

/// Lines are in the order of the fuses, and the bit is the field's.
#[test]
fn usercode_runs_against_the_fuses() {
    let lines = lines_of_clearing(device(2, LARGE), &[655, 818]);
    assert_eq!(lines, ["655 1 0 USERCODE.31", "818 1 0 USERCODE.0"]);
}

#[test]
fn output_enables_2_and_3_by_class() {
    let fuses = [62, 70, 386, 394, 494, 502];
    for blocks in BLOCK_COUNTS {
        let large = lines_of_clearing(device(blocks, LARGE), &fuses);
        let expected = [
            "62 1 0 FOE[2].INV",
            "70 1 0 FOE[3].INV",
            "386 1 0 FOE[2].MUX.0",
            "394 1 0 FOE[3].MUX.0",
            "494 1 0 FOE[2].MUX.1",
            "502 1 0 FOE[3].MUX.1",
        ];
        assert_eq!(large, expected);
        let small = lines_of_clearing(device(blocks, SMALL), &fuses);
        assert_eq!(small, fuses.map(|fuse| format!("{fuse} 1 0 unnamed")));
    }
}

/// The whole lists of all devices: each fuse has its line, and a name is that of one fuse.
#[test]
fn every_fuse_of_every_device() {
    for device in all_devices() {
        let count = fuse_count(device).unwrap();
        let ones = ones_but(device, &[]);
        let text = text_of(device, &vec![0; ones.len()], &ones);
        let mut lines = text.lines();
        assert_eq!(lines.next(), Some(format!("{count} differ").as_str()));

        let mut names = HashSet::new();
        let mut unnamed = 0;
        for fuse in 0..count {
            let line = lines.next().unwrap();
            let name = line.strip_prefix(&format!("{fuse} 0 1 ")).unwrap();
            if name == "unnamed" {
                unnamed += 1;
                assert_eq!(name_at_fuse(device, fuse), Ok(None));
            } else {
                assert!(names.insert(name), "{name} twice");
                assert_eq!(name_at_fuse(device, fuse), Ok(Some(name.to_string())));
            }
        }
        assert_eq!(lines.next(), None);
        let fewer = if device.class == SMALL { 48 } else { 54 };
        assert_eq!(unnamed, 624 * device.blocks - fewer, "{device:?}");
        assert_eq!(names.len() as u32, count - unnamed, "{device:?}");

        let length = match (device.blocks, device.class) {
            (16, SMALL) => 9_028_216,
            (16, LARGE) => 9_028_242,
            _ => continue,
        };
        assert_eq!(text.len(), length);
    }
}

/// The names of bits and of settings are those of their fuses; no setting is called unnamed.
#[test]
fn names_of_bits_and_settings() {
    for device in all_devices() {
        let settings = setting_count(device).unwrap();
        for number in 0..settings {
            let setting = name_of_setting(device, number).unwrap();
            assert_ne!(setting, "unnamed");
            let fuses = fuses_of_setting(device, number).unwrap();
            for (bit, fuse) in fuses.iter().enumerate() {
                let name = name_of_bit(device, number, bit as u32).unwrap();
                assert_eq!(name_at_fuse(device, *fuse), Ok(name.clone()));
                let expected = if fuses.len() == 1 {
                    setting.clone()
                } else {
                    format!("{setting}.{bit}")
                };
                assert_eq!(name, Some(expected));
            }
            assert_eq!(name_of_bit(device, number, fuses.len() as u32), Ok(None));
        }
        let missing = Refusal {
            number: 4,
            value: 0,
        };
        assert_eq!(name_of_setting(device, settings), Err(missing));
        assert_eq!(name_of_bit(device, settings, 0), Err(missing));
        let past = name_at_fuse(device, fuse_count(device).unwrap());
        let beyond = Refusal {
            number: 3,
            value: 0,
        };
        assert_eq!(past, Err(beyond));
    }
}

#[test]
fn rooms() {
    let mut random = Random::new(0x9500_0072);
    for device in all_devices() {
        let length = image_bytes(device).unwrap();
        let old = random.bytes(length);
        for differing in [0, 1, 2, 50] {
            let mut new = old.clone();
            for _ in 0..differing {
                let fuse = random.below(8 * length as u64) as usize;
                new[fuse / 8] ^= 1 << (fuse % 8);
            }
            let text = text_of(device, &old, &new);
            let needed = text.len();
            for room in [0, 1, 8, needed - 1] {
                let mut short = vec![UNTOUCHED; room];
                let answer = differences(device, &old, &new, &mut short);
                assert_eq!(answer, refusal(12, needed));
                assert!(short.iter().all(|byte| *byte == UNTOUCHED));
            }
            for more in [0, 1, 7, 8, 1000] {
                let mut longer = vec![UNTOUCHED; needed + more];
                let answer = differences(device, &old, &new, &mut longer);
                assert_eq!(answer, Ok(needed));
                assert_eq!(&longer[..needed], text.as_bytes());
                assert!(longer[needed..].iter().all(|byte| *byte == UNTOUCHED));
            }
        }
    }
}

/// 1 comes before 2, and 2 before 12; neither changes the room.
#[test]
fn refusals_in_order() {
    let right = image_bytes(device(2, SMALL)).unwrap();
    let image = |length: usize| vec![0x5A; length];
    for (blocks, class, old, new, number) in [
        (3, SMALL, right, right, 1),
        (2, 2, right, right, 1),
        (0, SMALL, 0, 0, 1),
        (3, SMALL, right - 1, right, 1),
        (2, 2, right, right + 1, 1),
        (2, SMALL, right - 1, right, 2),
        (2, SMALL, right + 1, right, 2),
        (2, SMALL, right, right - 1, 2),
        (2, SMALL, right, right + 1, 2),
        (2, SMALL, right - 1, right - 1, 2),
        (2, LARGE, 0, right, 2),
        (2, LARGE, right, 0, 2),
        (4, LARGE, right, right, 2),
    ] {
        for room in [0, 8, 9, 100] {
            let mut text = vec![UNTOUCHED; room];
            let device = device(blocks, class);
            let answer = differences(device, &image(old), &image(new), &mut text);
            assert_eq!(answer, refusal(number, 0), "{device:?} {old} {new} {room}");
            assert!(text.iter().all(|byte| *byte == UNTOUCHED));
        }
    }
    let mut text = [UNTOUCHED; 8];
    let answer = differences(device(2, SMALL), &image(right), &image(right), &mut text);
    assert_eq!(answer, refusal(12, 9));
}
