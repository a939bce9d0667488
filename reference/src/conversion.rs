// The two conversions between a fuse number and a device address with a bit.
// Both look up the list of fuses; what is not listed is refused 3.

use crate::device::{refuse, Answer, Device};
use crate::layout::Layout;

/// The address and bit of a fuse.
pub fn address_of_fuse(device: Device, fuse: u32) -> Answer<(u32, u32)> {
    let layout = Layout::of(device)?;
    match layout.fuses.get(fuse as usize) {
        Some(listed) => Ok((listed.address, listed.bit)),
        None => refuse(3, 0),
    }
}

/// The fuse at an address and bit.
pub fn fuse_of_address(device: Device, address: u32, bit: u32) -> Answer<u32> {
    let layout = Layout::of(device)?;
    match layout.fuse_at_address(address, bit) {
        Some(fuse) => Ok(fuse),
        None => refuse(3, 0),
    }
}
