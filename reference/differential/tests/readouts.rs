// The differential test of the sums and of the conversions between image and readout.
// Every answer and every byte of every slice, the library's against the reference's.

use xc9500_differential::comparison::{Comparison, IMAGE, NO_TARGET, READOUT};
use xc9500_differential::inputs::{
    corner_images, corner_readouts, damaged_readouts, images, readouts,
};
use xc9500_differential::library::{
    xc9500_fuse_sum, xc9500_image_to_readout, xc9500_readout_to_image, xc9500_zero_count,
};
use xc9500_reference::random::Random;
use xc9500_reference::{
    all_devices, fuse_sum, image_bytes, image_to_readout, readout_bytes, readout_to_image,
    zero_count,
};

#[test]
fn fuse_sum_agrees() {
    let mut random = Random::new(0x9500_0011);
    let mut comparison = Comparison::new(
        "xc9500_fuse_sum",
        (IMAGE, NO_TARGET),
        |device, image, _| xc9500_fuse_sum(device, image),
        |device, image, _| fuse_sum(device, image).map(u64::from),
    );
    for device in all_devices() {
        comparison.inputs(device, images(device, &mut random));
        comparison.inputs(device, corner_images(device));
    }
    comparison.wrong_lengths(&mut random);
    comparison.unknown_devices(&mut random);
    comparison.assert_refusals(&[1, 2]);
}

#[test]
fn zero_count_agrees() {
    let mut random = Random::new(0x9500_0012);
    let mut comparison = Comparison::new(
        "xc9500_zero_count",
        (IMAGE, NO_TARGET),
        |device, image, _| xc9500_zero_count(device, image),
        |device, image, _| zero_count(device, image).map(u64::from),
    );
    for device in all_devices() {
        comparison.inputs(device, images(device, &mut random));
        comparison.inputs(device, corner_images(device));
    }
    comparison.wrong_lengths(&mut random);
    comparison.unknown_devices(&mut random);
    comparison.assert_refusals(&[1, 2]);
}

#[test]
fn image_to_readout_agrees() {
    let mut random = Random::new(0x9500_0013);
    let mut comparison = Comparison::new(
        "xc9500_image_to_readout",
        (IMAGE, READOUT),
        xc9500_image_to_readout,
        |device, image, readout| image_to_readout(device, image, readout).map(|()| 0),
    );
    for device in all_devices() {
        comparison.inputs(device, images(device, &mut random));
        comparison.inputs(device, corner_images(device));
    }
    comparison.wrong_lengths(&mut random);
    comparison.unknown_devices(&mut random);
    comparison.assert_refusals(&[1, 2]);
}

#[test]
fn readout_to_image_agrees() {
    let mut random = Random::new(0x9500_0014);
    let mut comparison = Comparison::new(
        "xc9500_readout_to_image",
        (READOUT, IMAGE),
        xc9500_readout_to_image,
        |device, readout, image| readout_to_image(device, readout, image).map(|()| 0),
    );
    for device in all_devices() {
        comparison.inputs(device, readouts(device, &mut random));
        comparison.inputs(device, corner_readouts(device));
        comparison.inputs(device, damaged_readouts(device, &mut random));
    }
    comparison.wrong_lengths(&mut random);
    comparison.unknown_devices(&mut random);
    comparison.assert_refusals(&[1, 2, 6]);
}

/// A length that is the right one again to a number of 32 bits.
#[test]
fn lengths_beyond_32_bits_agree() {
    const BEYOND: usize = 1 << 32;
    const LONGEST: usize = 40_320;
    // The system provides memory where it is touched; a refusal touches none, so little is needed.
    let mut huge = vec![0; BEYOND + LONGEST];
    huge[..LONGEST].fill(0x5A);
    for device in all_devices() {
        let mut image = vec![0x5A; image_bytes(device).unwrap()];
        let mut readout = vec![0x5A; readout_bytes(device).unwrap()];
        let (long_image, long_readout) = (BEYOND + image.len(), BEYOND + readout.len());
        assert_eq!(
            xc9500_fuse_sum(device, &huge[..long_image]),
            fuse_sum(device, &huge[..long_image]).map(u64::from)
        );
        assert_eq!(
            xc9500_zero_count(device, &huge[..long_image]),
            zero_count(device, &huge[..long_image]).map(u64::from)
        );
        assert_eq!(
            xc9500_image_to_readout(device, &huge[..long_image], &mut readout),
            image_to_readout(device, &huge[..long_image], &mut readout).map(|()| 0)
        );
        assert_eq!(
            xc9500_image_to_readout(device, &image, &mut huge[..long_readout]),
            image_to_readout(device, &image, &mut huge[..long_readout]).map(|()| 0)
        );
        assert_eq!(
            xc9500_readout_to_image(device, &huge[..long_readout], &mut image),
            readout_to_image(device, &huge[..long_readout], &mut image).map(|()| 0)
        );
        assert_eq!(
            xc9500_readout_to_image(device, &readout, &mut huge[..long_image]),
            readout_to_image(device, &readout, &mut huge[..long_image]).map(|()| 0)
        );
        for slice in [&image, &readout, &huge[..LONGEST]] {
            assert!(slice.iter().all(|byte| *byte == 0x5A), "{device:?}");
        }
    }
}
