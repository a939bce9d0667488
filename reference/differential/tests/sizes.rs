// The differential test of the sizes of a device: the library's answers against the reference's.
// All devices, and many that there are not.

use xc9500_differential::inputs::odd_devices;
use xc9500_differential::library::{
    xc9500_fuse_count, xc9500_image_bytes, xc9500_readout_bytes, xc9500_text_bytes,
};
use xc9500_differential::tally::{Tally, ENOUGH};
use xc9500_reference::random::Random;
use xc9500_reference::{
    all_devices, fuse_count, image_bytes, readout_bytes, text_bytes, Answer, Device,
};

/// One of the four sizes, asked for again and again since there are only twelve devices.
fn agrees(
    name: &'static str,
    seed: u64,
    library: fn(Device) -> Answer<u64>,
    reference: fn(Device) -> Answer<u64>,
) {
    let mut tally = Tally::new(name);
    let mut random = Random::new(seed);
    for _ in 0..ENOUGH {
        for device in all_devices() {
            tally.compare(device, library(device), reference(device));
        }
    }
    for device in odd_devices(&mut random) {
        tally.compare(device, library(device), reference(device));
    }
    tally.assert_refusals(&[1]);
}

#[test]
fn fuse_count_agrees() {
    agrees(
        "xc9500_fuse_count",
        0x9500_0051,
        xc9500_fuse_count,
        |device| fuse_count(device).map(u64::from),
    );
}

#[test]
fn image_bytes_agree() {
    agrees(
        "xc9500_image_bytes",
        0x9500_0052,
        xc9500_image_bytes,
        |device| image_bytes(device).map(|bytes| bytes as u64),
    );
}

#[test]
fn readout_bytes_agree() {
    agrees(
        "xc9500_readout_bytes",
        0x9500_0053,
        xc9500_readout_bytes,
        |device| readout_bytes(device).map(|bytes| bytes as u64),
    );
}

#[test]
fn text_bytes_agree() {
    agrees(
        "xc9500_text_bytes",
        0x9500_0054,
        xc9500_text_bytes,
        |device| text_bytes(device).map(|bytes| bytes as u64),
    );
}
