// What the vectors program of reading and setting prints, worked out by the plain access to settings.
// Many settings are read, set one after the other on the same bytes, and read again; then some are set in an image and in its readout at once.

use crate::access::{read_in_image, read_in_readout, set_in_image, set_in_readout};
use crate::catalogue::{number_of_setting, setting_count};
use crate::device::{Answer, Device, Refusal, SMALL};
use crate::image::{image_bytes, image_to_readout, readout_bytes, readout_to_image};
use crate::setting::{MacrocellField, Setting};
use crate::value::{pattern_of_value, value_of_pattern, Value, ValueName};
use crate::vectors::{devices_and_others, fill, halves, word, Digest};
use std::fmt::Write;

#[derive(Clone, Copy)]
enum Layout {
    Image,
    Readout,
}

fn read_pattern(layout: Layout, device: Device, bytes: &[u8], setting: u32) -> Answer<u32> {
    match layout {
        Layout::Image => read_in_image(device, bytes, setting),
        Layout::Readout => read_in_readout(device, bytes, setting),
    }
}

fn read(layout: Layout, device: Device, bytes: &[u8], setting: u32) -> u64 {
    word(read_pattern(layout, device, bytes, setting).map(u64::from))
}

fn set(layout: Layout, device: Device, bytes: &mut [u8], setting: u32, pattern: u32) -> u64 {
    let answer = match layout {
        Layout::Image => set_in_image(device, bytes, setting, pattern),
        Layout::Readout => set_in_readout(device, bytes, setting, pattern),
    };
    word(answer.map(|()| 0))
}

/// Settings asked for one by one from the end, and all settings asked for.
const FROM_THE_END: usize = 400;
const ASKED: usize = 4900;

/// The numbers to ask for: from a few past the last down through some hundreds, then in steps
/// through all.
fn numbers_to_ask(device: Device) -> Vec<u32> {
    let past = setting_count(device).unwrap_or(0) + 8;
    let mut numbers = vec![past - 1];
    while numbers.len() < ASKED {
        let last = numbers[numbers.len() - 1];
        // A device that is unknown has no more than those few, and they end at 0 again and again.
        let falls = numbers.len() <= FROM_THE_END && last > 0;
        numbers.push(if falls { last - 1 } else { (last + 61) % past });
    }
    numbers
}

/// The pattern to put at the k-th of them; the eighth after the first is USERCODE.
fn pattern_to_put(k: usize, turn: u32) -> u32 {
    if k == 8 {
        0x1234_5678 + turn
    } else {
        (k as u32 + turn) % 7 % 5
    }
}

fn reads(layout: Layout, device: Device, bytes: &[u8]) -> u64 {
    let mut digest = Digest::new();
    for setting in numbers_to_ask(device) {
        digest.take_in(read(layout, device, bytes, setting));
    }
    digest.value
}

fn sets(layout: Layout, device: Device, bytes: &mut [u8], turn: u32) -> u64 {
    let mut digest = Digest::new();
    for (k, setting) in numbers_to_ask(device).into_iter().enumerate() {
        let pattern = pattern_to_put(k, turn);
        digest.take_in(set(layout, device, bytes, setting, pattern));
    }
    digest.value
}

fn digest_of(bytes: &[u8]) -> u64 {
    let mut digest = Digest::new();
    for byte in bytes {
        digest.take_in(u64::from(*byte));
    }
    digest.value
}

/// What is read, what setting answers, what is read then, and the bytes.
fn edits(layout: Layout, device: Device, bytes: &mut [u8], turn: u32) -> String {
    let read = reads(layout, device, bytes);
    let set = sets(layout, device, bytes, turn);
    let then = reads(layout, device, bytes);
    let bytes = digest_of(bytes);
    format!("read {read} set {set} then {then} bytes {bytes}")
}

/// Edits of an image, of any bytes as a readout, and of the image's readout.
fn answers(device: Device, image_length: usize, readout_length: usize) -> String {
    let mut image = vec![0; image_length];
    let mut readout = vec![0; readout_length];
    fill(&mut image, 1);
    fill(&mut readout, 2);
    let in_image = edits(Layout::Image, device, &mut image, 0);
    let in_any = edits(Layout::Readout, device, &mut readout, 1);
    let conversion = halves(word(
        image_to_readout(device, &image, &mut readout).map(|()| 0),
    ));
    let in_its_readout = edits(Layout::Readout, device, &mut readout, 2);
    format!(
        "image {image_length} {in_image} readout {readout_length} {in_any} \
         {conversion} {in_its_readout}"
    )
}

/// OE_MUX as it is read, then set to FOE2 and read again.
fn set_to_foe2(layout: Layout, device: Device, bytes: &mut [u8], oe_mux: u32) -> Answer<String> {
    let before = read(layout, device, bytes, oe_mux);
    let foe2 = pattern_of_value(device, oe_mux, Value::Named(ValueName::Foe2))?;
    let set = set(layout, device, bytes, oe_mux, foe2);
    let then = read(layout, device, bytes, oe_mux);
    let bytes = digest_of(bytes);
    Ok(format!("{before} set {set} then {then} bytes {bytes}"))
}

/// The same with its values: 0 for PT, 1 for FOE2, 2 for any other, 3 for a refusal.
fn set_to_foe2_by_name(
    layout: Layout,
    device: Device,
    bytes: &mut [u8],
    oe_mux: u32,
) -> Answer<String> {
    let which = |bytes: &[u8]| match read_pattern(layout, device, bytes, oe_mux)
        .and_then(|pattern| value_of_pattern(device, oe_mux, pattern))
    {
        Ok(Value::Named(ValueName::Pt)) => 0,
        Ok(Value::Named(ValueName::Foe2)) => 1,
        Ok(_) => 2,
        Err(_) => 3,
    };
    let before = which(bytes);
    let foe2 = pattern_of_value(device, oe_mux, Value::Named(ValueName::Foe2))?;
    let set = set(layout, device, bytes, oe_mux, foe2);
    let then = which(bytes);
    let bytes = digest_of(bytes);
    Ok(format!("{before} set {set} then {then} bytes {bytes}"))
}

/// Document 01's case: an image of ones, in which two fuses are cleared and one is kept.
fn document_case(smallest: Device) -> Answer<Vec<String>> {
    let setting = Setting::Macrocell {
        block: 0,
        macrocell: 0,
        field: MacrocellField::OeMux,
    };
    let oe_mux = number_of_setting(smallest, setting)?;
    let mut image = vec![255; image_bytes(smallest)?];
    let mut readout = vec![0; readout_bytes(smallest)?];
    let conversion = image_to_readout(smallest, &image, &mut readout);
    let mut lines = vec![format!("readout of ones {}", word(conversion.map(|()| 0)))];
    let in_image = set_to_foe2(Layout::Image, smallest, &mut image, oe_mux)?;
    lines.push(format!("OE_MUX in the image {in_image}"));
    for fuse in [3138, 3246, 3354] {
        lines.push(format!("byte of fuse {fuse} {}", image[fuse / 8]));
    }
    let in_readout = set_to_foe2(Layout::Readout, smallest, &mut readout, oe_mux)?;
    lines.push(format!("OE_MUX in the readout {in_readout}"));
    image.fill(255);
    let in_image = set_to_foe2_by_name(Layout::Image, smallest, &mut image, oe_mux)?;
    lines.push(format!("by name in the image {in_image}"));
    readout.fill(255);
    let in_readout = set_to_foe2_by_name(Layout::Readout, smallest, &mut readout, oe_mux)?;
    lines.push(format!("by name in a readout of bytes 255 {in_readout}"));
    Ok(lines)
}

/// How many times a device is asked both ways.
const TURNS: u32 = 37;

/// The setting of a number, or OE_MUX of macrocell 0 where the device has none.
fn setting_or_oe_mux(device: Device, number: u32) -> u32 {
    let count = setting_count(device).unwrap_or(0);
    if number < count {
        return number;
    }
    let oe_mux = Setting::Macrocell {
        block: 0,
        macrocell: 0,
        field: MacrocellField::OeMux,
    };
    number_of_setting(device, oe_mux).unwrap_or(number)
}

/// A refusal's number in the high half of the word and its value in the low half; 0 or the pattern where it is accepted.
fn halved(answer: Answer<u32>) -> u64 {
    match answer {
        Ok(result) => u64::from(result),
        Err(Refusal { number, value }) => (u64::from(number) << 32) + u64::from(value),
    }
}

/// A setting set to a pattern in an image and straight in its readout, both converted, and another setting read in both before and after.
fn both_ways(device: Device, lengths: [usize; 5]) -> String {
    let [mut image, mut readout, mut kept, mut its_readout, mut its_image] =
        lengths.map(|length| vec![0; length]);
    let slices = [
        &mut image,
        &mut readout,
        &mut kept,
        &mut its_readout,
        &mut its_image,
    ];
    for (bytes, seed) in slices.into_iter().zip(3..) {
        fill(bytes, seed);
    }
    let count = setting_count(device).unwrap_or(0);
    let mut digest = Digest::new();
    let done = |answer: Answer<()>| halved(answer.map(|()| 0));
    for k in 0..TURNS {
        let number = if k % 9 == 8 {
            count + k % 2
        } else {
            (k * 7919 + 13) % (count + 1)
        };
        let setting = setting_or_oe_mux(device, number);
        let other = setting_or_oe_mux(device, (k * 104_729 + 7) % (count + 1));
        let pattern = if k % 5 == 4 { k / 5 + 2 } else { k / 2 % 2 };
        digest.take_in(done(image_to_readout(device, &image, &mut readout)));
        if kept.len() == readout.len() {
            kept.copy_from_slice(&readout);
        }
        digest.take_in(halved(read_in_image(device, &image, other)));
        digest.take_in(halved(read_in_readout(device, &readout, other)));
        digest.take_in(done(set_in_image(device, &mut image, setting, pattern)));
        digest.take_in(done(set_in_readout(device, &mut readout, setting, pattern)));
        digest.take_in(done(image_to_readout(device, &image, &mut its_readout)));
        digest.take_in(done(readout_to_image(device, &readout, &mut its_image)));
        for asked in [setting, other] {
            digest.take_in(halved(read_in_image(device, &image, asked)));
            digest.take_in(halved(read_in_readout(device, &readout, asked)));
        }
    }
    format!(
        "both ways {} image {} readout {} before {} its readout {} its image {}",
        digest.value,
        digest_of(&image),
        digest_of(&readout),
        digest_of(&kept),
        digest_of(&its_readout),
        digest_of(&its_image)
    )
}

/// The sizes of a device's image and readout, or of the smallest one's where there is none.
fn sizes(device: Device, smallest: Device) -> (usize, usize) {
    let sized = if device.is_known() { device } else { smallest };
    (image_bytes(sized).unwrap(), readout_bytes(sized).unwrap())
}

/// Document 01's case; then each device, with the lengths one off, right, and one off the other way; then both ways at once.
pub(crate) fn edit_vectors() -> String {
    let smallest = Device {
        blocks: 2,
        class: SMALL,
    };
    let mut lines = String::new();
    for line in document_case(smallest).expect("the smallest part has the setting") {
        writeln!(lines, "{line}").unwrap();
    }
    for device in devices_and_others() {
        let Device { blocks, class } = device;
        let (image, readout) = sizes(device, smallest);
        for (image, readout) in [
            (image - 1, readout + 1),
            (image, readout),
            (image + 1, readout - 1),
        ] {
            let answers = answers(device, image, readout);
            writeln!(lines, "blocks {blocks} class {class} {answers}").unwrap();
        }
    }
    for device in devices_and_others() {
        let Device { blocks, class } = device;
        let (image, readout) = sizes(device, smallest);
        for lengths in [
            [image - 1, readout + 1, readout - 1, readout - 1, image + 1],
            [image, readout, readout, readout, image],
            [image + 1, readout - 1, readout + 1, readout + 1, image - 1],
        ] {
            let both = both_ways(device, lengths);
            writeln!(lines, "blocks {blocks} class {class} {both}").unwrap();
        }
    }
    lines
}
