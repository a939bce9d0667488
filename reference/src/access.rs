// Reading and setting one setting, in an image and in a readout.
// By number and pattern, or by Setting and Value; only the fuses of the setting are touched.

use crate::catalogue::{Catalogue, Entry};
use crate::device::{refuse, Answer, Device};
use crate::layout::{bit_of_byte, fuse_state, put_fuse, with_bit, Layout};
use crate::setting::Setting;
use crate::value::{check_pattern, pattern_in_entry, value_in_entry, Value};

/// The pattern whose bits, lowest first, are the given states.
fn pattern_of_states(states: &[bool]) -> u32 {
    let mut pattern = 0;
    for (bit, state) in states.iter().enumerate() {
        if *state {
            pattern += 2u32.pow(bit as u32);
        }
    }
    pattern
}

/// Bit `bit` of a pattern.
fn bit_of_pattern(pattern: u32, bit: usize) -> bool {
    pattern / 2u32.pow(bit as u32) % 2 == 1
}

/// Refusal 6 at the lowest byte that holds the setting and has a bit above its width.
fn check_holding_bytes(layout: &Layout, entry: &Entry, readout: &[u8]) -> Answer<()> {
    let mut above = Vec::new();
    for fuse in &entry.fuses {
        let index = layout.fuses[*fuse as usize].readout_index;
        if layout.has_bit_above_width(readout, index) {
            above.push(index);
        }
    }
    match above.into_iter().min() {
        Some(index) => refuse(6, index as u64),
        None => Ok(()),
    }
}

fn pattern_in_image(entry: &Entry, image: &[u8]) -> u32 {
    let mut states = Vec::new();
    for fuse in &entry.fuses {
        states.push(fuse_state(image, *fuse as usize));
    }
    pattern_of_states(&states)
}

fn pattern_in_readout(layout: &Layout, entry: &Entry, readout: &[u8]) -> u32 {
    let mut states = Vec::new();
    for fuse in &entry.fuses {
        let listed = layout.fuses[*fuse as usize];
        states.push(bit_of_byte(readout[listed.readout_index], listed.bit));
    }
    pattern_of_states(&states)
}

fn put_in_image(entry: &Entry, image: &mut [u8], pattern: u32) {
    for (bit, fuse) in entry.fuses.iter().enumerate() {
        put_fuse(image, *fuse as usize, bit_of_pattern(pattern, bit));
    }
}

fn put_in_readout(layout: &Layout, entry: &Entry, readout: &mut [u8], pattern: u32) {
    for (bit, fuse) in entry.fuses.iter().enumerate() {
        let listed = layout.fuses[*fuse as usize];
        let byte = &mut readout[listed.readout_index];
        *byte = with_bit(*byte, listed.bit, bit_of_pattern(pattern, bit));
    }
}

/// Reads the pattern of a setting in an image.
pub fn read_in_image(device: Device, image: &[u8], setting: u32) -> Answer<u32> {
    Layout::of(device)?.check_image(image)?;
    let entry = Catalogue::of(device)?.entry(setting)?;
    Ok(pattern_in_image(entry, image))
}

/// Reads the pattern of a setting in a readout.
pub fn read_in_readout(device: Device, readout: &[u8], setting: u32) -> Answer<u32> {
    let layout = Layout::of(device)?;
    layout.check_readout(readout)?;
    let entry = Catalogue::of(device)?.entry(setting)?;
    check_holding_bytes(layout, entry, readout)?;
    Ok(pattern_in_readout(layout, entry, readout))
}

/// Sets a setting in an image to a pattern.
pub fn set_in_image(device: Device, image: &mut [u8], setting: u32, pattern: u32) -> Answer<()> {
    Layout::of(device)?.check_image(image)?;
    let entry = Catalogue::of(device)?.entry(setting)?;
    check_pattern(entry, pattern)?;
    put_in_image(entry, image, pattern);
    Ok(())
}

/// Sets a setting in a readout to a pattern.
pub fn set_in_readout(
    device: Device,
    readout: &mut [u8],
    setting: u32,
    pattern: u32,
) -> Answer<()> {
    let layout = Layout::of(device)?;
    layout.check_readout(readout)?;
    let entry = Catalogue::of(device)?.entry(setting)?;
    check_pattern(entry, pattern)?;
    check_holding_bytes(layout, entry, readout)?;
    put_in_readout(layout, entry, readout, pattern);
    Ok(())
}

/// Reads the value of a setting in an image.
pub fn read_value_in_image(device: Device, image: &[u8], setting: Setting) -> Answer<Value> {
    Layout::of(device)?.check_image(image)?;
    let catalogue = Catalogue::of(device)?;
    let entry = catalogue.entry(catalogue.number(setting)?)?;
    value_in_entry(device, entry, pattern_in_image(entry, image))
}

/// Reads the value of a setting in a readout.
pub fn read_value_in_readout(device: Device, readout: &[u8], setting: Setting) -> Answer<Value> {
    let layout = Layout::of(device)?;
    layout.check_readout(readout)?;
    let catalogue = Catalogue::of(device)?;
    let entry = catalogue.entry(catalogue.number(setting)?)?;
    check_holding_bytes(layout, entry, readout)?;
    value_in_entry(device, entry, pattern_in_readout(layout, entry, readout))
}

/// Sets a setting in an image to a value.
pub fn set_value_in_image(
    device: Device,
    image: &mut [u8],
    setting: Setting,
    value: Value,
) -> Answer<()> {
    Layout::of(device)?.check_image(image)?;
    let catalogue = Catalogue::of(device)?;
    let entry = catalogue.entry(catalogue.number(setting)?)?;
    let pattern = pattern_in_entry(device, entry, value)?;
    put_in_image(entry, image, pattern);
    Ok(())
}

/// Sets a setting in a readout to a value.
pub fn set_value_in_readout(
    device: Device,
    readout: &mut [u8],
    setting: Setting,
    value: Value,
) -> Answer<()> {
    let layout = Layout::of(device)?;
    layout.check_readout(readout)?;
    let catalogue = Catalogue::of(device)?;
    let entry = catalogue.entry(catalogue.number(setting)?)?;
    let pattern = pattern_in_entry(device, entry, value)?;
    check_holding_bytes(layout, entry, readout)?;
    put_in_readout(layout, entry, readout, pattern);
    Ok(())
}
