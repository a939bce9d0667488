// The order of refusals and the slices they leave unchanged, for every operation.
// Arbitrary numbers and lengths must be answered too.

use xc9500_reference::random::Random;
use xc9500_reference::*;

const DEVICE: Device = Device {
    blocks: 2,
    class: SMALL,
};
const IMAGE: usize = 2268;
const READOUT: usize = 2520;
const TEXT: usize = 25_732;

fn refused<T>(number: u32, value: u64) -> Answer<T> {
    Err(Refusal { number, value })
}

fn oe_mux() -> Setting {
    Setting::Macrocell {
        block: 0,
        macrocell: 0,
        field: MacrocellField::OeMux,
    }
}

fn no_setting() -> Setting {
    Setting::Block {
        block: 16,
        field: BlockField::Enable,
    }
}

#[test]
fn exactly_twelve_devices_are_known() {
    let mut known = 0;
    for blocks in (0..40).chain([255, 256, 258, 65538, 1 << 31, u32::MAX]) {
        for class in (0..6).chain([255, 256, 1 << 16, 1 << 31, u32::MAX]) {
            let device = Device { blocks, class };
            let answer = fuse_count(device);
            if all_devices().contains(&device) {
                assert!(answer.is_ok());
                known += 1;
            } else {
                assert_eq!(answer, refused(1, 0));
            }
        }
    }
    assert_eq!(known, 12);
}

#[test]
fn refusal_1_comes_first_everywhere() {
    let good = Device {
        blocks: 2,
        class: SMALL,
    };
    for device in [
        Device { blocks: 3, ..good },
        Device { blocks: 0, ..good },
        Device { class: 2, ..good },
        Device {
            blocks: u32::MAX,
            class: u32::MAX,
        },
    ] {
        let mut slice = [0x5A; 7];
        let max = u32::MAX;
        let value = Value::Unassigned(max);
        assert_eq!(fuse_count(device), refused(1, 0));
        assert_eq!(image_bytes(device), refused(1, 0));
        assert_eq!(readout_bytes(device), refused(1, 0));
        assert_eq!(text_bytes(device), refused(1, 0));
        assert_eq!(address_of_fuse(device, max), refused(1, 0));
        assert_eq!(fuse_of_address(device, max, max), refused(1, 0));
        assert_eq!(setting_count(device), refused(1, 0));
        assert_eq!(setting_of_number(device, max), refused(1, 0));
        assert_eq!(number_of_setting(device, no_setting()), refused(1, 0));
        assert_eq!(setting_width(device, max), refused(1, 0));
        assert_eq!(places_of_setting(device, max), refused(1, 0));
        assert_eq!(fuses_of_setting(device, max), refused(1, 0));
        assert_eq!(locate_setting(device, max), refused(1, 0));
        assert_eq!(locate_bit(device, max, max), refused(1, 0));
        assert_eq!(setting_at_fuse(device, max), refused(1, 0));
        assert_eq!(value_of_pattern(device, max, max), refused(1, 0));
        assert_eq!(pattern_of_value(device, max, value), refused(1, 0));
        assert_eq!(fuse_sum(device, &slice), refused(1, 0));
        assert_eq!(zero_count(device, &slice), refused(1, 0));
        assert_eq!(image_to_readout(device, &[], &mut slice), refused(1, 0));
        assert_eq!(readout_to_image(device, &[], &mut slice), refused(1, 0));
        assert_eq!(text_to_image(device, &[], &mut slice), refused(1, 0));
        assert_eq!(image_to_text(device, &[], &mut slice), refused(1, 0));
        assert_eq!(read_in_image(device, &slice, max), refused(1, 0));
        assert_eq!(read_in_readout(device, &slice, max), refused(1, 0));
        assert_eq!(set_in_image(device, &mut slice, max, max), refused(1, 0));
        assert_eq!(set_in_readout(device, &mut slice, max, max), refused(1, 0));
        assert_eq!(
            read_value_in_image(device, &slice, no_setting()),
            refused(1, 0)
        );
        assert_eq!(
            read_value_in_readout(device, &slice, no_setting()),
            refused(1, 0)
        );
        assert_eq!(
            set_value_in_image(device, &mut slice, no_setting(), value),
            refused(1, 0)
        );
        assert_eq!(
            set_value_in_readout(device, &mut slice, no_setting(), value),
            refused(1, 0)
        );
        assert_eq!(slice, [0x5A; 7]);
    }
}

#[test]
fn refusal_2_comes_before_12_4_5_6_and_7() {
    for length in [0, 1, IMAGE - 1, IMAGE + 1, 5184] {
        let mut image = vec![0xFF; length];
        let mut readout = vec![0xFF; READOUT];
        assert_eq!(fuse_sum(DEVICE, &image), refused(2, 0));
        assert_eq!(zero_count(DEVICE, &image), refused(2, 0));
        assert_eq!(
            image_to_readout(DEVICE, &image, &mut readout),
            refused(2, 0)
        );
        // The readout has bits above its widths, but the image's length is wrong.
        assert_eq!(
            readout_to_image(DEVICE, &readout, &mut image),
            refused(2, 0)
        );
        assert_eq!(text_to_image(DEVICE, b"bad", &mut image), refused(2, 0));
        assert_eq!(image_to_text(DEVICE, &image, &mut []), refused(2, 0));
        assert_eq!(read_in_image(DEVICE, &image, u32::MAX), refused(2, 0));
        assert_eq!(
            set_in_image(DEVICE, &mut image, u32::MAX, u32::MAX),
            refused(2, 0)
        );
        assert_eq!(
            read_value_in_image(DEVICE, &image, no_setting()),
            refused(2, 0)
        );
        assert_eq!(
            set_value_in_image(DEVICE, &mut image, no_setting(), Value::Usercode(0)),
            refused(2, 0)
        );
        assert_eq!(image, vec![0xFF; length]);
        assert_eq!(readout, vec![0xFF; READOUT]);
    }
    for length in [0, 1, READOUT - 1, READOUT + 1, 5760] {
        let mut readout = vec![0xFF; length];
        let mut image = vec![0x5A; IMAGE];
        assert_eq!(
            image_to_readout(DEVICE, &image, &mut readout),
            refused(2, 0)
        );
        assert_eq!(
            readout_to_image(DEVICE, &readout, &mut image),
            refused(2, 0)
        );
        assert_eq!(read_in_readout(DEVICE, &readout, u32::MAX), refused(2, 0));
        assert_eq!(
            set_in_readout(DEVICE, &mut readout, u32::MAX, u32::MAX),
            refused(2, 0)
        );
        assert_eq!(
            read_value_in_readout(DEVICE, &readout, no_setting()),
            refused(2, 0)
        );
        assert_eq!(
            set_value_in_readout(DEVICE, &mut readout, no_setting(), Value::Usercode(0)),
            refused(2, 0)
        );
        assert_eq!(readout, vec![0xFF; length]);
        assert_eq!(image, vec![0x5A; IMAGE]);
    }
}

#[test]
fn refusals_4_and_5_leave_the_slices() {
    let mut image = vec![0x5A; IMAGE];
    // All bits set: 6 would be given if 4 or 5 did not come first.
    let mut readout = vec![0xFF; READOUT];
    let count = setting_count(DEVICE).unwrap();
    for number in [count, u32::MAX] {
        assert_eq!(read_in_image(DEVICE, &image, number), refused(4, 0));
        assert_eq!(read_in_readout(DEVICE, &readout, number), refused(4, 0));
        assert_eq!(
            set_in_image(DEVICE, &mut image, number, u32::MAX),
            refused(4, 0)
        );
        assert_eq!(
            set_in_readout(DEVICE, &mut readout, number, u32::MAX),
            refused(4, 0)
        );
    }
    assert_eq!(
        read_value_in_image(DEVICE, &image, no_setting()),
        refused(4, 0)
    );
    assert_eq!(
        read_value_in_readout(DEVICE, &readout, no_setting()),
        refused(4, 0)
    );
    assert_eq!(
        set_value_in_image(DEVICE, &mut image, no_setting(), Value::Usercode(0)),
        refused(4, 0)
    );
    assert_eq!(
        set_value_in_readout(DEVICE, &mut readout, no_setting(), Value::Usercode(0)),
        refused(4, 0)
    );
    let number = number_of_setting(DEVICE, oe_mux()).unwrap();
    for pattern in [8, 9, 1 << 31, u32::MAX] {
        assert_eq!(
            set_in_image(DEVICE, &mut image, number, pattern),
            refused(5, 0)
        );
        assert_eq!(
            set_in_readout(DEVICE, &mut readout, number, pattern),
            refused(5, 0)
        );
    }
    for value in [
        Value::Unassigned(7),
        Value::Unassigned(8),
        Value::Flag(false),
        Value::Usercode(0),
        Value::Named(ValueName::Vcc),
    ] {
        assert_eq!(
            set_value_in_image(DEVICE, &mut image, oe_mux(), value),
            refused(5, 0)
        );
        assert_eq!(
            set_value_in_readout(DEVICE, &mut readout, oe_mux(), value),
            refused(5, 0)
        );
    }
    assert_eq!(image, vec![0x5A; IMAGE]);
    assert_eq!(readout, vec![0xFF; READOUT]);
}

#[test]
fn an_unassigned_value_can_be_set() {
    let mut image = vec![0xFF; IMAGE];
    let mut readout = vec![0; READOUT];
    image_to_readout(DEVICE, &image, &mut readout).unwrap();
    let value = Value::Unassigned(2);
    assert_eq!(
        set_value_in_image(DEVICE, &mut image, oe_mux(), value),
        Ok(())
    );
    assert_eq!(
        set_value_in_readout(DEVICE, &mut readout, oe_mux(), value),
        Ok(())
    );
    assert_eq!(read_value_in_image(DEVICE, &image, oe_mux()), Ok(value));
    assert_eq!(read_value_in_readout(DEVICE, &readout, oe_mux()), Ok(value));
    assert_eq!(zero_count(DEVICE, &image), Ok(2));
}

#[test]
fn refusal_6_is_an_index_not_an_address() {
    let mut image = vec![0x5A; IMAGE];
    let mut readout = vec![0; READOUT];
    // Index 15 is the first byte of row 1, address 32; index 24 its column 9.
    readout[24] = 0b0100_0000;
    readout[2519] = 0b1000_0000;
    assert_eq!(
        readout_to_image(DEVICE, &readout, &mut image),
        refused(6, 24)
    );
    readout[24] = 0b0011_1111;
    assert_eq!(
        readout_to_image(DEVICE, &readout, &mut image),
        refused(6, 2519)
    );
    assert_eq!(image, vec![0x5A; IMAGE]);
    readout[2519] = 0b0111_1111;
    assert_eq!(readout_to_image(DEVICE, &readout, &mut image), Ok(()));
    assert_eq!(zero_count(DEVICE, &image), Ok(18144 - 6 - 7));
}

#[test]
fn arbitrary_calls_are_answered() {
    let mut random = Random::new(41);
    let number = |random: &mut Random| match random.below(3) {
        0 => random.below(20_000) as u32,
        1 => random.below(8) as u32,
        _ => random.next_u64() as u32 >> random.below(32),
    };
    let mut good = 0;
    let mut bad = 0;
    let mut count = |ok: bool| if ok { good += 1 } else { bad += 1 };
    for _ in 0..3000 {
        let blocks = random.pick(&[0, 2, 2, 2, 3, 4, u32::MAX]);
        let class = random.pick(&[SMALL, LARGE, 2]);
        let device = Device { blocks, class };
        let (a, b) = (number(&mut random), number(&mut random));
        let mut image = vec![random.next_u64() as u8; random.pick(&[IMAGE, IMAGE, 5184, 0, 9])];
        let mut readout =
            vec![random.next_u64() as u8; random.pick(&[READOUT, READOUT, 5760, 0, 9])];
        let mut text = vec![random.next_u64() as u8; random.pick(&[TEXT, TEXT - 1, 0, 70_000])];
        let images = image.clone();
        let readouts = readout.clone();
        let texts = text.clone();
        count(address_of_fuse(device, a).is_ok());
        count(fuse_of_address(device, a, b).is_ok());
        count(setting_of_number(device, a).is_ok());
        count(locate_bit(device, a, b).is_ok());
        count(setting_at_fuse(device, a).is_ok());
        count(value_of_pattern(device, a, b).is_ok());
        count(pattern_of_value(device, a, Value::Unassigned(b)).is_ok());
        count(read_in_image(device, &image, a).is_ok());
        count(read_in_readout(device, &readout, a).is_ok());
        if set_in_image(device, &mut image, a, b).is_err() {
            assert!(image == images);
        }
        if set_in_readout(device, &mut readout, a, b).is_err() {
            assert!(readout == readouts);
        }
        let images = image.clone();
        if readout_to_image(device, &readout, &mut image).is_err() {
            assert!(image == images);
        }
        let readouts = readout.clone();
        if image_to_readout(device, &image, &mut readout).is_err() {
            assert!(readout == readouts);
        }
        if image_to_text(device, &image, &mut text).is_err() {
            assert!(text == texts);
        }
        let images = image.clone();
        if text_to_image(device, &text, &mut image).is_err() {
            assert!(image == images);
        }
    }
    assert!(good > 1000 && bad > 1000);
}
