// The comparison of a function that finds the fuses of settings with the reference.
// It asks for every bit of every setting of every device, bits past a width, edges, random numbers, unknown devices.

use crate::inputs::{edges, odd_devices, random_number};
use crate::library::XC9500_NONE;
use crate::tally::Tally;
use xc9500_reference::random::Random;
use xc9500_reference::{
    all_devices, fuse_count, locate_bit, setting_count, setting_of_number, setting_width, Answer,
    Device, LocatedFuse, Setting, SMALL,
};

/// A function from a setting and one of its bits to the word of the fuse there.
pub type Locate = fn(Device, u32, u32) -> Answer<u64>;

/// Random calls of each of four kinds.
const ROUNDS: u32 = 300_000;

/// A fuse with its address and bit in one word, as the C interface gives them.
#[inline]
pub fn word_of_located(located: Option<LocatedFuse>) -> u64 {
    located.map_or(XC9500_NONE, |LocatedFuse { fuse, address, bit }| {
        u64::from(fuse) * (1 << 20) + u64::from(address) * 8 + u64::from(bit)
    })
}

/// How many fuses of a device no setting has, by document 01.
pub fn unnamed_fuses(device: Device) -> u32 {
    let fewer = if device.class == SMALL { 48 } else { 54 };
    624 * device.blocks - fewer
}

/// How many bits the settings of all devices have: as many as there are fuses that are not unnamed.
pub fn bits_of_all_devices() -> u64 {
    let bits = |device| fuse_count(device).unwrap() - unnamed_fuses(device);
    all_devices().into_iter().map(bits).map(u64::from).sum()
}

/// Bits past a setting's width: of literals and wire-AND, which are many and alike, a few.
fn bits_past(setting: Setting, width: u32) -> Vec<u32> {
    match setting {
        Setting::Literal { .. } | Setting::WireAnd { .. } => vec![1, 2, 31, 32, u32::MAX],
        _ => {
            let is_past = |bit: &u32| *bit >= width;
            (width..=33)
                .chain(edges().into_iter().filter(is_past))
                .collect()
        }
    }
}

/// Compares a function with the reference, and sees that it found every bit of every setting.
pub fn compare_locating(name: &'static str, locate: Locate, random: &mut Random) {
    let mut tally = Tally::new(name);
    // Tells whether there is an answer other than none.
    let mut compare = |device: Device, setting: u32, bit: u32| {
        let answer = locate(device, setting, bit);
        let reference = locate_bit(device, setting, bit).map(word_of_located);
        tally.compare((device, setting, bit), answer, reference);
        answer != Ok(XC9500_NONE)
    };

    let (mut located, mut past) = (0, 0);
    for device in all_devices() {
        let count = setting_count(device).unwrap();
        for setting in 0..count {
            let width = setting_width(device, setting).unwrap();
            for bit in 0..width {
                located += u64::from(compare(device, setting, bit));
            }
            for bit in bits_past(setting_of_number(device, setting).unwrap(), width) {
                past += u64::from(!compare(device, setting, bit));
            }
        }
        for edge in edges() {
            for setting in [edge, count.wrapping_add(edge), count.wrapping_sub(edge)] {
                for bit in edges() {
                    compare(device, setting, bit);
                }
            }
        }
        for _ in 0..ROUNDS / 12 {
            let setting = random.below(u64::from(count)) as u32;
            compare(device, setting, random.below(34) as u32);
            compare(device, setting, random_number(random));
            compare(device, random_number(random), random.below(34) as u32);
            compare(device, random.next_u64() as u32, random.next_u64() as u32);
        }
    }
    for device in odd_devices(random) {
        for setting in edges() {
            compare(device, setting, 0);
            compare(device, setting, random_number(random));
        }
        compare(device, random_number(random), random_number(random));
    }
    println!("{name}: {located} bits of settings, {past} past a width");
    assert_eq!(located, bits_of_all_devices(), "{name}: bits are left out");
    assert!(past >= located, "{name}: too few bits past a width");
    tally.assert_refusals(&[1, 4]);
}
