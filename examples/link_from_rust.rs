// A whole program that links the archive from Rust: it reads a JEDEC text, reads and sets a setting, writes the text
// again and makes the readout. link_from_rust TEXT NEW_TEXT; the part has two function blocks and the small class.

use std::{env, fs};

// A fuse number and a device address are two types, so that one cannot be passed for the other.
#[repr(transparent)]
#[derive(Clone, Copy, PartialEq)]
struct Fuse(u32);

#[repr(transparent)]
#[derive(Clone, Copy)]
struct Address(u32);

// The functions of include/xc9500.h that are used here: a slice is a pointer and a length.
#[link(name = "xc9500", kind = "static")]
extern "C" {
    fn xc9500_image_bytes(blocks: u32, class: u32) -> u64;
    fn xc9500_readout_bytes(blocks: u32, class: u32) -> u64;
    fn xc9500_text_bytes(blocks: u32, class: u32) -> u64;
    fn xc9500_address_of_fuse(blocks: u32, class: u32, fuse: Fuse) -> u64;
    fn xc9500_fuse_of_address(blocks: u32, class: u32, address: Address, bit: u32) -> u64;
    fn xc9500_fuse_sum(blocks: u32, class: u32, image: *const u8, image_len: usize) -> u64;
    fn xc9500_zero_count(blocks: u32, class: u32, image: *const u8, image_len: usize) -> u64;
    fn xc9500_image_to_readout(
        blocks: u32,
        class: u32,
        image: *const u8,
        image_len: usize,
        readout: *mut u8,
        readout_len: usize,
    ) -> u64;
    fn xc9500_image_to_text(
        blocks: u32,
        class: u32,
        image: *const u8,
        image_len: usize,
        text: *mut u8,
        text_len: usize,
    ) -> u64;
    fn xc9500_text_to_image(
        blocks: u32,
        class: u32,
        text: *const u8,
        text_len: usize,
        image: *mut u8,
        image_len: usize,
    ) -> u64;
    fn xc9500_setting_fuse(blocks: u32, class: u32, setting: u32, bit: u32) -> u64;
    fn xc9500_setting_at_fuse(blocks: u32, class: u32, fuse: Fuse) -> u64;
    fn xc9500_read_in_image(
        blocks: u32,
        class: u32,
        image: *const u8,
        image_len: usize,
        setting: u32,
    ) -> u64;
    fn xc9500_read_in_readout(
        blocks: u32,
        class: u32,
        readout: *const u8,
        readout_len: usize,
        setting: u32,
    ) -> u64;
    fn xc9500_set_in_image(
        blocks: u32,
        class: u32,
        image: *mut u8,
        image_len: usize,
        setting: u32,
        pattern: u32,
    ) -> u64;
}

const BLOCKS: u32 = 2;
const SMALL: u32 = 0;
const NONE: u64 = (1 << 56) - 1;

/// The result in the word of a call, or the refusal with its number and value.
fn result(call: &str, word: u64) -> Result<u64, String> {
    let (number, value) = (word >> 56, word & NONE);
    if number == 0 {
        Ok(value)
    } else {
        Err(format!("{call}: refused {number}, value {value}"))
    }
}

// Safe in all calls: the functions take any numbers, and each slice is whole and the call's alone.
fn text_to_image(text: &[u8], image: &mut [u8]) -> Result<u64, String> {
    let word = unsafe {
        xc9500_text_to_image(
            BLOCKS,
            SMALL,
            text.as_ptr(),
            text.len(),
            image.as_mut_ptr(),
            image.len(),
        )
    };
    result("text_to_image", word)
}

fn image_to_text(image: &[u8], text: &mut [u8]) -> u64 {
    unsafe {
        xc9500_image_to_text(
            BLOCKS,
            SMALL,
            image.as_ptr(),
            image.len(),
            text.as_mut_ptr(),
            text.len(),
        )
    }
}

fn set_in_image(image: &mut [u8], setting: u32, pattern: u32) -> u64 {
    unsafe {
        xc9500_set_in_image(
            BLOCKS,
            SMALL,
            image.as_mut_ptr(),
            image.len(),
            setting,
            pattern,
        )
    }
}

fn report(what: &str, image: &[u8]) -> Result<(), String> {
    let zero = unsafe { xc9500_zero_count(BLOCKS, SMALL, image.as_ptr(), image.len()) };
    let sum = unsafe { xc9500_fuse_sum(BLOCKS, SMALL, image.as_ptr(), image.len()) };
    let (zero, sum) = (result("zero_count", zero)?, result("fuse_sum", sum)?);
    println!("{what}: zero {zero}, sum {sum:04X}");
    Ok(())
}

fn main() -> Result<(), String> {
    let names: Vec<_> = env::args_os().skip(1).collect();
    let [source, target] = &names[..] else {
        return Err("usage: link_from_rust TEXT NEW_TEXT".to_string());
    };

    // The sizes of the device.
    let image_bytes = result("image_bytes", unsafe { xc9500_image_bytes(BLOCKS, SMALL) })?;
    let readout_bytes = result("readout_bytes", unsafe {
        xc9500_readout_bytes(BLOCKS, SMALL)
    })?;
    let text_bytes = result("text_bytes", unsafe { xc9500_text_bytes(BLOCKS, SMALL) })?;

    // Text to image.
    let text = fs::read(source).map_err(|error| format!("the text: {error}"))?;
    let mut image = vec![0; image_bytes as usize];
    text_to_image(&text, &mut image)?;
    report("read", &image)?;

    // Fuse 3138 has an address and a bit, and they have that fuse.
    let fuse = Fuse(3138);
    let word = unsafe { xc9500_address_of_fuse(BLOCKS, SMALL, fuse) };
    let packed = result("address_of_fuse", word)?;
    let (address, bit) = (Address((packed / 8) as u32), (packed % 8) as u32);
    println!("fuse {}: address {}, bit {bit}", fuse.0, address.0);
    let word = unsafe { xc9500_fuse_of_address(BLOCKS, SMALL, address, bit) };
    if Fuse(result("fuse_of_address", word)? as u32) != fuse {
        return Err("the address has another fuse".to_string());
    }

    // The setting that has this fuse, by its number: OE_MUX of macrocell 0 of block 0.
    let named = result("setting_at_fuse", unsafe {
        xc9500_setting_at_fuse(BLOCKS, SMALL, fuse)
    })?;
    if named == NONE {
        return Err("no setting has the fuse".to_string());
    }
    let setting = (named / 32) as u32;
    let word = unsafe { xc9500_read_in_image(BLOCKS, SMALL, image.as_ptr(), image.len(), setting) };
    println!(
        "setting {setting}: pattern {}",
        result("read_in_image", word)?
    );

    // The fuse of each of its bits, lowest first, and the address and the bit where a probe finds it.
    for i in 0.. {
        let word = unsafe { xc9500_setting_fuse(BLOCKS, SMALL, setting, i) };
        let packed = result("setting_fuse", word)?;
        if packed == NONE {
            break;
        }
        let (fuse, address) = (
            Fuse((packed >> 20) as u32),
            Address((packed >> 3 & 0x1FFFF) as u32),
        );
        println!(
            "bit {i}: fuse {}, address {}, bit {}",
            fuse.0,
            address.0,
            packed % 8
        );
    }

    // It has three bits: 7 is a pattern of it, and 8 is refused and changes nothing.
    result("set_in_image", set_in_image(&mut image, setting, 7))?;
    report("set to 7", &image)?;
    println!(
        "set to 8: refused {}",
        set_in_image(&mut image, setting, 8) >> 56
    );

    // Image to text: a refusal 12 says how many bytes are needed. Then that text to an image.
    let needed = image_to_text(&image, &mut []);
    if (needed >> 56, needed & NONE) != (12, text_bytes) {
        return Err("image_to_text: another size is needed".to_string());
    }
    let mut text = vec![0; text_bytes as usize];
    let length = result("image_to_text", image_to_text(&image, &mut text))? as usize;
    fs::write(target, &text[..length]).map_err(|error| format!("the new text: {error}"))?;
    let mut second = vec![0; image.len()];
    text_to_image(&text[..length], &mut second)?;
    if second != image {
        return Err("the new text is of another image".to_string());
    }
    println!("new text: {length} bytes");

    // Image to readout, where the setting reads the same.
    let mut readout = vec![0; readout_bytes as usize];
    let word = unsafe {
        xc9500_image_to_readout(
            BLOCKS,
            SMALL,
            image.as_ptr(),
            image.len(),
            readout.as_mut_ptr(),
            readout.len(),
        )
    };
    result("image_to_readout", word)?;
    let word =
        unsafe { xc9500_read_in_readout(BLOCKS, SMALL, readout.as_ptr(), readout.len(), setting) };
    println!(
        "readout: {} bytes, pattern {}",
        readout.len(),
        result("read_in_readout", word)?
    );
    Ok(())
}
