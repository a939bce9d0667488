// The differential test of the conversion from a text to an image.
// Every answer and every byte of the lent image, the library's against the reference's.

use xc9500_differential::library::{xc9500_image_to_text, xc9500_text_to_image};
use xc9500_differential::reading::compare_reader;
use xc9500_reference::random::Random;
use xc9500_reference::{all_devices, image_bytes, text_bytes, Refusal};

#[test]
fn text_to_image_agrees() {
    let mut random = Random::new(0x9500_0061);
    compare_reader("xc9500_text_to_image", xc9500_text_to_image, &mut random);
}

/// What the library writes it reads back, whatever the image held before.
#[test]
fn what_is_written_is_read_back() {
    let mut random = Random::new(0x9500_0062);
    for device in all_devices() {
        for _ in 0..8 {
            let image = random.bytes(image_bytes(device).unwrap());
            let mut text = vec![0; text_bytes(device).unwrap()];
            let written = xc9500_image_to_text(device, &image, &mut text);
            assert_eq!(written, Ok(text.len() as u64));
            let mut back = random.bytes(image.len());
            assert_eq!(xc9500_text_to_image(device, &text, &mut back), Ok(0));
            assert!(back == image, "{device:?}");
        }
    }
}

/// A text and an image whose lengths are small or right again to a number of 32 bits.
#[test]
fn lengths_beyond_32_bits_are_refused() {
    const BEYOND: usize = 1 << 32;
    const TEXT: &[u8] = b"\x02*QF18144*F1*CD324*\x0303DD";
    // The system provides memory where it is touched; a refusal touches none, so little is needed.
    let mut huge = vec![0; BEYOND + 36_288];
    huge[..TEXT.len()].copy_from_slice(TEXT);
    for device in all_devices() {
        let mut image = vec![0x5A; image_bytes(device).unwrap()];
        for length in [BEYOND, BEYOND + TEXT.len(), BEYOND + 36_288] {
            assert_eq!(
                xc9500_text_to_image(device, &huge[..length], &mut image),
                Err(Refusal {
                    number: 7,
                    value: 1_048_576
                })
            );
        }
        assert!(image.iter().all(|byte| *byte == 0x5A), "{device:?}");
        let long = BEYOND + image.len();
        assert_eq!(
            xc9500_text_to_image(device, TEXT, &mut huge[..long]),
            Err(Refusal {
                number: 2,
                value: 0
            })
        );
        assert!(huge.starts_with(TEXT));
    }
}
