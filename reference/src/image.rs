// Sizes, the conversions between image and readout, the fuse sum and the zero count.
// Every bit is moved or counted on its own, through the list of fuses.

use crate::device::{refuse, Answer, Device};
use crate::layout::{bit_of_byte, fuse_state, put_fuse, with_bit, Layout};

/// The number of fuses of a device.
pub fn fuse_count(device: Device) -> Answer<u32> {
    Ok(Layout::of(device)?.fuses.len() as u32)
}

/// The length of an image.
pub fn image_bytes(device: Device) -> Answer<usize> {
    Ok(Layout::of(device)?.image_bytes())
}

/// The length of a readout.
pub fn readout_bytes(device: Device) -> Answer<usize> {
    Ok(Layout::of(device)?.bytes.len())
}

/// Writes the readout of an image.
pub fn image_to_readout(device: Device, image: &[u8], readout: &mut [u8]) -> Answer<()> {
    let layout = Layout::of(device)?;
    layout.check_image(image)?;
    layout.check_readout(readout)?;
    readout.fill(0);
    for (number, fuse) in layout.fuses.iter().enumerate() {
        let byte = &mut readout[fuse.readout_index];
        *byte = with_bit(*byte, fuse.bit, fuse_state(image, number));
    }
    Ok(())
}

/// Writes the image of a readout, unless some byte has a bit above its width.
pub fn readout_to_image(device: Device, readout: &[u8], image: &mut [u8]) -> Answer<()> {
    let layout = Layout::of(device)?;
    layout.check_readout(readout)?;
    layout.check_image(image)?;
    for index in 0..readout.len() {
        if layout.has_bit_above_width(readout, index) {
            return refuse(6, index as u64);
        }
    }
    image.fill(0);
    for (number, fuse) in layout.fuses.iter().enumerate() {
        let state = bit_of_byte(readout[fuse.readout_index], fuse.bit);
        put_fuse(image, number, state);
    }
    Ok(())
}

/// The fuse sum: the image bytes added up, the low 16 bits kept.
pub fn fuse_sum(device: Device, image: &[u8]) -> Answer<u16> {
    Layout::of(device)?.check_image(image)?;
    Ok(low_16_of_sum(image))
}

/// The number of fuses at 0.
pub fn zero_count(device: Device, image: &[u8]) -> Answer<u32> {
    let layout = Layout::of(device)?;
    layout.check_image(image)?;
    let mut zeros = 0;
    for fuse in 0..layout.fuses.len() {
        if !fuse_state(image, fuse) {
            zeros += 1;
        }
    }
    Ok(zeros)
}

/// Bytes added up as unsigned numbers, modulo 65536.
pub(crate) fn low_16_of_sum(bytes: &[u8]) -> u16 {
    let mut total: u64 = 0;
    for byte in bytes {
        total += u64::from(*byte);
    }
    (total % 65536) as u16
}
