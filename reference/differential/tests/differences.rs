// The differential test of the list of the fuses that differ between two images.
// Every answer and every byte of the lent room, the library's against the reference's.

use xc9500_differential::differing::{compare_differences, compare_single_fuses};
use xc9500_differential::library::xc9500_differences;
use xc9500_reference::random::Random;
use xc9500_reference::{all_devices, differences, image_bytes, Device, Refusal, LARGE, SMALL};

/// An image with every fuse at 1 but those listed.
fn ones_but(device: Device, fuses: &[usize]) -> Vec<u8> {
    let mut image = vec![0xFF; image_bytes(device).unwrap()];
    for fuse in fuses {
        image[fuse / 8] ^= 1 << (fuse % 8);
    }
    image
}

#[test]
fn differences_agree() {
    let mut random = Random::new(0x9500_0061);
    compare_differences("xc9500_differences", xc9500_differences, &mut random);
}

#[test]
fn every_fuse_alone_agrees() {
    let mut random = Random::new(0x9500_0062);
    compare_single_fuses("xc9500_differences, alone", xc9500_differences, &mut random);
}

/// The printed cases, and names of each form, by class.
#[test]
fn stated_lists() {
    let cases: [(u32, &[usize], &str); 7] = [
        (SMALL, &[], "0 differ\n"),
        (SMALL, &[0], "1 differ\n0 1 0 FB0 MC0 PT0 IM0 N\n"),
        (
            SMALL,
            &[3138, 3246],
            "2 differ\n3138 1 0 FB0 MC0 OE_MUX.0\n3246 1 0 FB0 MC0 OE_MUX.1\n",
        ),
        (
            SMALL,
            &[1758, 1866],
            "2 differ\n1758 1 0 FB0 MC3 PT2 ALLOC.0\n1866 1 0 FB0 MC3 PT2 ALLOC.1\n",
        ),
        (
            SMALL,
            &[1677, 8548, 5646, 10_290, 354],
            "5 differ\n354 1 0 FCLK[1].MUX.0\n1677 1 0 FB0 MC4 PT2 IM7 P\n5646 1 0 FB0 MC3 PT2 HP\n\
             8548 1 0 FB0 IM7 UIM FB1 MC3\n10290 1 0 FB1 READ_PROT_A\n",
        ),
        (
            LARGE,
            &[818, 655, 62, 502],
            "4 differ\n62 1 0 FOE[2].INV\n502 1 0 FOE[3].MUX.1\n655 1 0 USERCODE.31\n818 1 0 USERCODE.0\n",
        ),
        (SMALL, &[62, 502], "2 differ\n62 1 0 unnamed\n502 1 0 unnamed\n"),
    ];
    for (class, fuses, expected) in cases {
        let device = Device { blocks: 2, class };
        let (old, new) = (ones_but(device, &[]), ones_but(device, fuses));
        let needed = expected.len();
        let too_short = Refusal {
            number: 12,
            value: needed as u64,
        };
        let mut text = vec![b'~'; needed - 1];
        let answer = xc9500_differences(device, &old, &new, &mut text);
        assert_eq!(answer, Err(too_short), "{expected}");
        assert!(text.iter().all(|byte| *byte == b'~'));
        text.extend(b"~~~");
        let answer = xc9500_differences(device, &old, &new, &mut text);
        assert_eq!(answer, Ok(needed as u64), "{expected}");
        assert_eq!(text, format!("{expected}~~").into_bytes());
    }
}

/// The bytes of the longest lists.
#[test]
fn lengths_of_all_fuses() {
    for (class, value) in [(SMALL, 9_028_216), (LARGE, 9_028_242)] {
        let device = Device { blocks: 16, class };
        let ones = ones_but(device, &[]);
        let answer = xc9500_differences(device, &vec![0; ones.len()], &ones, &mut []);
        assert_eq!(answer, Err(Refusal { number: 12, value }));
    }
}

/// Room and images whose lengths are right ones again to a number of 32 bits.
#[test]
fn lengths_beyond_32_bits_agree() {
    const BEYOND: usize = 1 << 32;
    // The system provides memory where it is touched, and only the text is.
    let mut huge = vec![0; BEYOND + 36_288];
    for device in all_devices() {
        let (old, new) = (ones_but(device, &[]), ones_but(device, &[7, 8, 9000]));
        let mut expected = [0; 200];
        let needed = differences(device, &old, &new, &mut expected).unwrap();
        let mut text = [0x77; 200];
        let too_long = &huge[..BEYOND + old.len()];
        for (old, new) in [(too_long, &new[..]), (&old, too_long), (too_long, too_long)] {
            let answer = xc9500_differences(device, old, new, &mut text);
            let wrong_length = Refusal {
                number: 2,
                value: 0,
            };
            assert_eq!(answer, Err(wrong_length));
            assert!(text.iter().all(|byte| *byte == 0x77));
        }
        for room in [BEYOND, BEYOND + 10] {
            huge[..needed + 64].fill(0x77);
            let answer = xc9500_differences(device, &old, &new, &mut huge[..room]);
            assert_eq!(answer, Ok(needed as u64));
            assert!(huge[..needed] == expected[..needed], "{device:?}");
            assert!(huge[needed..needed + 64].iter().all(|byte| *byte == 0x77));
        }
        huge[..needed + 64].fill(0);
    }
}
