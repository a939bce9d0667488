// The differential test of reading and setting one setting, in an image and in a readout.
// Every answer and every byte of the lent slice, the library's against the reference's.

use xc9500_differential::edits::{Access, EditComparison};
use xc9500_differential::library::{
    xc9500_image_to_readout, xc9500_read_in_image, xc9500_read_in_readout, xc9500_set_in_image,
    xc9500_set_in_readout,
};
use xc9500_reference::random::Random;
use xc9500_reference::{
    all_devices, image_bytes, image_to_readout, number_of_setting, readout_bytes, value_of_pattern,
    Device, MacrocellField, Refusal, Setting, Value, ValueName, SMALL,
};

const IN_IMAGE: Access = Access {
    read: xc9500_read_in_image,
    set: xc9500_set_in_image,
};

const IN_READOUT: Access = Access {
    read: xc9500_read_in_readout,
    set: xc9500_set_in_readout,
};

#[test]
fn reading_and_setting_agree() {
    let mut random = Random::new(0x9500_0041);
    let mut comparison = EditComparison::new(
        [
            "xc9500_read_in_image",
            "xc9500_set_in_image",
            "xc9500_read_in_readout",
            "xc9500_set_in_readout",
        ],
        IN_IMAGE,
        IN_READOUT,
        xc9500_image_to_readout,
    );
    for device in all_devices() {
        comparison.edits(device, &mut random);
    }
    comparison.setting_numbers(&mut random);
    comparison.wrong_lengths(&mut random);
    comparison.unknown_devices(&mut random);
    comparison.several_faults(&mut random);
    comparison.assert_refusals();
}

const SMALLEST: Device = Device {
    blocks: 2,
    class: SMALL,
};

/// OE_MUX of macrocell 0 of two blocks, small, all ones: it reads PT; FOE2 clears two fuses.
#[test]
fn document_01_case() {
    let setting = Setting::Macrocell {
        block: 0,
        macrocell: 0,
        field: MacrocellField::OeMux,
    };
    // The number is the reference's: document 01 gives the order, and no number.
    let number = number_of_setting(SMALLEST, setting).unwrap();
    let name = |pattern| value_of_pattern(SMALLEST, number, pattern);
    assert_eq!(name(7), Ok(Value::Named(ValueName::Pt)));
    assert_eq!(name(4), Ok(Value::Named(ValueName::Foe2)));

    let mut image = vec![0xFF; 2268];
    let mut readout = vec![0; 2520];
    xc9500_image_to_readout(SMALLEST, &image, &mut readout).unwrap();
    assert_eq!(xc9500_read_in_image(SMALLEST, &image, number), Ok(7));
    assert_eq!(xc9500_read_in_readout(SMALLEST, &readout, number), Ok(7));

    let is_at_0 = |image: &[u8], fuse: usize| image[fuse / 8] >> (fuse % 8) & 1 == 0;
    let answer = xc9500_set_in_image(SMALLEST, &mut image, number, 4);
    assert_eq!(answer, Ok(0));
    let cleared: Vec<usize> = (0..18144).filter(|f| is_at_0(&image, *f)).collect();
    assert_eq!(cleared, [3138, 3246]);
    assert_eq!(xc9500_read_in_image(SMALLEST, &image, number), Ok(4));

    let mut expected = vec![0; 2520];
    xc9500_image_to_readout(SMALLEST, &image, &mut expected).unwrap();
    let answer = xc9500_set_in_readout(SMALLEST, &mut readout, number, 4);
    assert_eq!(answer, Ok(0));
    assert!(readout == expected);
    assert_eq!(xc9500_read_in_readout(SMALLEST, &readout, number), Ok(4));
}

/// A length that is the right one again to a number of 32 bits.
#[test]
fn lengths_beyond_32_bits_are_refused() {
    const BEYOND: usize = 1 << 32;
    const LONGEST: usize = 40_320;
    const REFUSED_2: Refusal = Refusal {
        number: 2,
        value: 0,
    };
    // The system provides memory where it is touched; a refusal touches none, so little is needed.
    let mut huge = vec![0; BEYOND + LONGEST];
    huge[..LONGEST].fill(0x5A);
    for device in all_devices() {
        for (access, length) in [
            (IN_IMAGE, image_bytes(device).unwrap()),
            (IN_READOUT, readout_bytes(device).unwrap()),
        ] {
            let long = BEYOND + length;
            assert_eq!((access.read)(device, &huge[..long], 0), Err(REFUSED_2));
            for pattern in [0, 1] {
                let answer = (access.set)(device, &mut huge[..long], 0, pattern);
                assert_eq!(answer, Err(REFUSED_2));
            }
        }
        assert!(huge[..LONGEST].iter().all(|byte| *byte == 0x5A));
    }
}

/// USERCODE's bytes are sixteen: a readout of the all-ones image with each turned over in turn.
#[test]
fn usercode_is_read_bit_by_bit() {
    for device in all_devices() {
        let usercode = xc9500_reference::setting_count(device).unwrap() - 1;
        let image = vec![0xFF; image_bytes(device).unwrap()];
        let mut readout = vec![0; readout_bytes(device).unwrap()];
        image_to_readout(device, &image, &mut readout).unwrap();
        let mut seen = 0;
        for index in 0..readout.len() {
            let byte = readout[index];
            readout[index] = 0;
            let read = xc9500_read_in_readout(device, &readout, usercode);
            seen ^= !read.unwrap() as u32;
            readout[index] = byte;
        }
        assert_eq!(seen, u32::MAX, "{device:?}");
    }
}
