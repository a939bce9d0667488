// The differential test of the conversion from an image to a text.
// Every answer and every byte of the lent buffer, the library's against the reference's.

use xc9500_differential::library::xc9500_image_to_text;
use xc9500_differential::writing::compare_writer;
use xc9500_reference::random::Random;
use xc9500_reference::{
    all_devices, image_bytes, image_to_text, text_bytes, Device, Refusal, SMALL,
};

#[test]
fn image_to_text_agrees() {
    let mut random = Random::new(0x9500_0051);
    compare_writer("xc9500_image_to_text", xc9500_image_to_text, &mut random);
}

/// The lengths that document 01 gives, and the frame of its smallest part.
#[test]
fn document_01_lengths_and_frame() {
    for (blocks, needed) in [(2, 25_732), (16, 411_293)] {
        let device = Device {
            blocks,
            class: SMALL,
        };
        let image = vec![0xFF; image_bytes(device).unwrap()];
        let too_short = Refusal {
            number: 12,
            value: needed as u64,
        };
        let mut text = vec![b'x'; needed - 1];
        let answer = xc9500_image_to_text(device, &image, &mut text);
        assert_eq!(answer, Err(too_short));
        assert!(text.iter().all(|byte| *byte == b'x'));
        text.extend(b"xx");
        let answer = xc9500_image_to_text(device, &image, &mut text);
        assert_eq!(answer, Ok(needed as u64));
        assert_eq!(text[needed], b'x');
        if blocks == 2 {
            assert!(text.starts_with(b"\x02*\nQF18144*\nF0*\nL0000000 11111111 "));
            assert!(text[..needed - 4].ends_with(b" 1111111*\nCD324*\n\x03"));
        }
    }
}

/// Room and an image whose lengths are right ones again to a number of 32 bits.
#[test]
fn lengths_beyond_32_bits_agree() {
    const BEYOND: usize = 1 << 32;
    // The system provides memory where it is touched, and only the text is.
    let mut huge = vec![0; BEYOND + 36_288];
    for device in all_devices() {
        let image = vec![0x5A; image_bytes(device).unwrap()];
        let needed = text_bytes(device).unwrap();
        let mut expected = vec![0; needed];
        image_to_text(device, &image, &mut expected).unwrap();
        let mut text = vec![0x77; needed];
        assert_eq!(
            xc9500_image_to_text(device, &huge[..BEYOND + image.len()], &mut text),
            Err(Refusal {
                number: 2,
                value: 0
            })
        );
        assert!(text.iter().all(|byte| *byte == 0x77));
        for buffer in [BEYOND, BEYOND + 10] {
            huge[..needed + 64].fill(0x77);
            let answer = xc9500_image_to_text(device, &image, &mut huge[..buffer]);
            assert_eq!(answer, Ok(needed as u64));
            assert!(huge[..needed] == expected, "{device:?}");
            assert!(huge[needed..needed + 64].iter().all(|byte| *byte == 0x77));
        }
    }
}
