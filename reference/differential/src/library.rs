// The functions of include/xc9500.h as safe Rust functions, each answering a result or a refusal.
// A function of the header is one line of the list at the end of this file.

use xc9500_reference::{Answer, Refusal};

/// The result where a setting has no such bit, and where no setting has the fuse.
pub const XC9500_NONE: u64 = (1 << 56) - 1;

/// The answer in a word: the refusal's number in bits 56 to 63, its value or the result below.
#[inline]
pub(crate) fn answer(word: u64) -> Answer<u64> {
    let number = (word >> 56) as u32;
    let value = word & ((1 << 56) - 1);
    if number == 0 {
        Ok(value)
    } else {
        Err(Refusal { number, value })
    }
}

/// Declares each listed function and wraps it under its own name. Arguments are taken one by one:
/// a `Device` is passed as two numbers, a slice as pointer and length, a number as it is.
macro_rules! header {
    ($(fn $name:ident($($arguments:tt)*);)*) => {
        $(header!(@ $name [] [] [] $($arguments)*,);)*
    };
    (@ $name:ident [$($rust:tt)*] [$($c:tt)*] [$($passed:tt)*]
        $argument:ident: Device, $($rest:tt)*) => {
        header!(@ $name
            [$($rust)* $argument: xc9500_reference::Device,]
            [$($c)* _: u32, _: u32,]
            [$($passed)* $argument.blocks, $argument.class,]
            $($rest)*);
    };
    (@ $name:ident [$($rust:tt)*] [$($c:tt)*] [$($passed:tt)*]
        $argument:ident: &[$item:ty], $($rest:tt)*) => {
        header!(@ $name
            [$($rust)* $argument: &[$item],]
            [$($c)* _: *const $item, _: usize,]
            [$($passed)* $argument.as_ptr(), $argument.len(),]
            $($rest)*);
    };
    (@ $name:ident [$($rust:tt)*] [$($c:tt)*] [$($passed:tt)*]
        $argument:ident: &mut [$item:ty], $($rest:tt)*) => {
        header!(@ $name
            [$($rust)* $argument: &mut [$item],]
            [$($c)* _: *mut $item, _: usize,]
            [$($passed)* $argument.as_mut_ptr(), $argument.len(),]
            $($rest)*);
    };
    (@ $name:ident [$($rust:tt)*] [$($c:tt)*] [$($passed:tt)*]
        $argument:ident: $number:ident, $($rest:tt)*) => {
        header!(@ $name
            [$($rust)* $argument: $number,]
            [$($c)* _: $number,]
            [$($passed)* $argument,]
            $($rest)*);
    };
    (@ $name:ident [$($rust:tt)*] [$($c:tt)*] [$($passed:tt)*]) => {
        #[inline]
        pub fn $name($($rust)*) -> Answer<u64> {
            extern "C" {
                fn $name($($c)*) -> u64;
            }
            // Safe: the function takes any numbers, and every slice is whole and the call's alone.
            answer(unsafe { $name($($passed)*) })
        }
    };
}

header! {
    fn xc9500_fuse_count(device: Device);
    fn xc9500_image_bytes(device: Device);
    fn xc9500_readout_bytes(device: Device);
    fn xc9500_text_bytes(device: Device);
    fn xc9500_address_of_fuse(device: Device, fuse: u32);
    fn xc9500_fuse_of_address(device: Device, address: u32, bit: u32);
    fn xc9500_fuse_sum(device: Device, image: &[u8]);
    fn xc9500_zero_count(device: Device, image: &[u8]);
    fn xc9500_image_to_readout(device: Device, image: &[u8], readout: &mut [u8]);
    fn xc9500_readout_to_image(device: Device, readout: &[u8], image: &mut [u8]);
    fn xc9500_setting_count(device: Device);
    fn xc9500_setting_fuse(device: Device, setting: u32, bit: u32);
    fn xc9500_setting_at_fuse(device: Device, fuse: u32);
    fn xc9500_read_in_image(device: Device, image: &[u8], setting: u32);
    fn xc9500_read_in_readout(device: Device, readout: &[u8], setting: u32);
    fn xc9500_set_in_image(device: Device, image: &mut [u8], setting: u32, pattern: u32);
    fn xc9500_set_in_readout(device: Device, readout: &mut [u8], setting: u32, pattern: u32);
    fn xc9500_image_to_text(device: Device, image: &[u8], text: &mut [u8]);
    fn xc9500_text_to_image(device: Device, text: &[u8], image: &mut [u8]);
    fn xc9500_differences(device: Device, old: &[u8], new: &[u8], text: &mut [u8]);
}
