// The optimised operations of the benchmark against the reference, on every device.
// A benchmark against a wrong program would compare nothing.

use xc9500_differential::comparison::{Comparison, IMAGE, NO_TARGET, READOUT};
use xc9500_differential::differing::{compare_differences, compare_single_fuses, Differences};
use xc9500_differential::edits::{Access, EditComparison};
use xc9500_differential::inputs::{damaged_readouts, images, readouts};
use xc9500_differential::locating::compare_locating;
use xc9500_differential::reading::compare_reader;
use xc9500_differential::writing::compare_writer;
use xc9500_differential::{optimised, optimised_differences, optimised_text};
use xc9500_reference::random::Random;
use xc9500_reference::{
    address_of_fuse, all_devices, fuse_count, fuse_sum, image_to_readout, readout_to_image,
    zero_count, Device,
};

fn compare(device: Device, fuse: u32) {
    assert_eq!(
        optimised::address_of_fuse(device, fuse),
        address_of_fuse(device, fuse),
        "{device:?} fuse {fuse}: optimised left, reference right"
    );
}

#[test]
fn address_of_every_fuse() {
    for device in all_devices() {
        let count = fuse_count(device).unwrap();
        for fuse in 0..count {
            compare(device, fuse);
        }
        for fuse in [count, count + 1, 2 * count, 1 << 31, u32::MAX] {
            compare(device, fuse);
        }
    }
}

#[test]
fn unknown_devices() {
    for blocks in (0..=40).chain([256 + 2, 65536 + 16, u32::MAX]) {
        for class in (0..=4).chain([256, 65536 + 1, u32::MAX]) {
            for fuse in [0, 18143, 18144, 290303, 290304, u32::MAX] {
                compare(Device { blocks, class }, fuse);
            }
        }
    }
}

#[test]
fn location_of_every_bit() {
    let mut random = Random::new(0x9500_0026);
    compare_locating("optimised locate_bit", optimised::locate_bit, &mut random);
}

#[test]
fn sums() {
    let mut random = Random::new(0x9500_0021);
    let mut sum = Comparison::new(
        "optimised fuse_sum",
        (IMAGE, NO_TARGET),
        |device, image, _| optimised::fuse_sum(device, image).map(u64::from),
        |device, image, _| fuse_sum(device, image).map(u64::from),
    );
    let mut count = Comparison::new(
        "optimised zero_count",
        (IMAGE, NO_TARGET),
        |device, image, _| optimised::zero_count(device, image).map(u64::from),
        |device, image, _| zero_count(device, image).map(u64::from),
    );
    for comparison in [&mut sum, &mut count] {
        for device in all_devices() {
            comparison.inputs(device, images(device, &mut random));
        }
        comparison.wrong_lengths(&mut random);
        comparison.unknown_devices(&mut random);
        comparison.assert_refusals(&[1, 2]);
    }
}

#[test]
fn conversions() {
    let mut random = Random::new(0x9500_0022);
    let mut to_readout = Comparison::new(
        "optimised image_to_readout",
        (IMAGE, READOUT),
        |device, image, readout| optimised::image_to_readout(device, image, readout).map(|()| 0),
        |device, image, readout| image_to_readout(device, image, readout).map(|()| 0),
    );
    let mut to_image = Comparison::new(
        "optimised readout_to_image",
        (READOUT, IMAGE),
        |device, readout, image| optimised::readout_to_image(device, readout, image).map(|()| 0),
        |device, readout, image| readout_to_image(device, readout, image).map(|()| 0),
    );
    for device in all_devices() {
        to_readout.inputs(device, images(device, &mut random));
        to_image.inputs(device, readouts(device, &mut random));
        to_image.inputs(device, damaged_readouts(device, &mut random));
    }
    for comparison in [&mut to_readout, &mut to_image] {
        comparison.wrong_lengths(&mut random);
        comparison.unknown_devices(&mut random);
    }
    to_readout.assert_refusals(&[1, 2]);
    to_image.assert_refusals(&[1, 2, 6]);
}

#[test]
fn reading_and_setting() {
    let mut random = Random::new(0x9500_0023);
    let mut comparison = EditComparison::new(
        [
            "optimised read_in_image",
            "optimised set_in_image",
            "optimised read_in_readout",
            "optimised set_in_readout",
        ],
        Access {
            read: |device, image, setting| {
                optimised::read_in_image(device, image, setting).map(u64::from)
            },
            set: |device, image, setting, pattern| {
                optimised::set_in_image(device, image, setting, pattern).map(|()| 0)
            },
        },
        Access {
            read: |device, readout, setting| {
                optimised::read_in_readout(device, readout, setting).map(u64::from)
            },
            set: |device, readout, setting, pattern| {
                optimised::set_in_readout(device, readout, setting, pattern).map(|()| 0)
            },
        },
        |device, image, readout| optimised::image_to_readout(device, image, readout).map(|()| 0),
    );
    for device in all_devices() {
        comparison.edits(device, &mut random);
    }
    comparison.setting_numbers(&mut random);
    comparison.wrong_lengths(&mut random);
    comparison.unknown_devices(&mut random);
    comparison.several_faults(&mut random);
    comparison.assert_refusals();
}

#[test]
fn writing() {
    compare_writer(
        "optimised image_to_text",
        |device, image, text| {
            optimised_text::image_to_text(device, image, text).map(|bytes| bytes as u64)
        },
        &mut Random::new(0x9500_0024),
    );
}

#[test]
fn reading() {
    compare_reader(
        "optimised text_to_image",
        |device, text, image| optimised_text::text_to_image(device, text, image).map(|()| 0),
        &mut Random::new(0x9500_0025),
    );
}

const DIFFERENCES: Differences = |device, old, new, text| {
    optimised_differences::differences(device, old, new, text).map(|bytes| bytes as u64)
};

#[test]
fn differences() {
    let mut random = Random::new(0x9500_0027);
    compare_differences("optimised differences", DIFFERENCES, &mut random);
}

#[test]
fn differences_of_single_fuses() {
    let mut random = Random::new(0x9500_0028);
    compare_single_fuses("optimised differences, alone", DIFFERENCES, &mut random);
}
