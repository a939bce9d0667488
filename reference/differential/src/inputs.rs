// What the tests put in: edges, odd devices, images, readouts with and without bits above a width, lengths.
// All that is random comes from the generator that is handed over, so a run can be repeated.

use xc9500_reference::random::Random;
use xc9500_reference::{
    address_of_fuse, all_devices, fuse_count, fuse_of_address, fuses_of_setting, image_bytes,
    image_to_readout, readout_bytes, setting_count, setting_of_number, Device, Setting,
    BLOCK_COUNTS,
};

/// The bytes of an image or a readout, with a name that tells them from the others.
pub type Input = (String, Vec<u8>);

/// Random images of each device, and random readouts.
const RANDOM_INPUTS: u32 = 8;

/// Random places of above bits, one at a time and several at a time.
const RANDOM_STRAYS: u32 = 40;

/// Random literals to edit, and as many wire-AND; random numbers for USERCODE.
const RANDOM_SETTINGS: u32 = 150;
const RANDOM_USERCODES: u32 = 12;

/// The macrocells of which every field is edited: the first and last of each of the two bits.
const MACROCELLS: [u32; 4] = [0, 8, 9, 17];

/// A number with a random number of bits, so that small ones are as likely as large ones.
pub fn random_number(random: &mut Random) -> u32 {
    let bits = random.below(33);
    random.below(1 << bits) as u32
}

/// Numbers where a width, a mask or a sign could go wrong: around 0 and around each power of two.
pub fn edges() -> Vec<u32> {
    let mut edges = vec![0, u32::MAX];
    for power in 0..32 {
        let edge = 1u32 << power;
        edges.extend([
            edge - 1,
            edge,
            edge.saturating_add(1),
            !edge,
            u32::MAX - edge + 1,
        ]);
    }
    edges.sort();
    edges.dedup();
    edges
}

/// Every pair of small numbers, and pairs that a narrower number would take for a known device.
pub fn odd_devices(random: &mut Random) -> Vec<Device> {
    let mut devices = Vec::new();
    for blocks in 0..=40 {
        for class in 0..=4 {
            devices.push(Device { blocks, class });
        }
    }
    for device in all_devices() {
        for power in [5, 6, 7, 8, 9, 15, 16, 17, 24, 31] {
            let (blocks, class) = (device.blocks, device.class);
            devices.push(Device {
                blocks: blocks + (1 << power),
                class,
            });
            devices.push(Device {
                blocks,
                class: class + (1 << power),
            });
        }
        devices.push(Device {
            blocks: device.blocks.wrapping_neg(),
            class: device.class,
        });
        devices.push(Device {
            blocks: device.blocks,
            class: !device.class,
        });
    }
    for _ in 0..1000 {
        let blocks = random_number(random);
        let class = random_number(random);
        devices.push(Device { blocks, class });
        devices.push(Device {
            blocks: random.pick(&BLOCK_COUNTS),
            class,
        });
        devices.push(Device {
            blocks,
            class: random.below(2) as u32,
        });
    }
    devices
}

/// Lengths other than the right one: none, a little or much off, and all of the other devices.
pub fn wrong_lengths(right: usize) -> Vec<usize> {
    let mut lengths = vec![0, 1, right / 2, right - 8, right - 1, right + 1, right + 8];
    // The right length again to a number of 8, of 16 or of 20 bits.
    lengths.extend([right + (1 << 8), right + (1 << 16), right + (1 << 20)]);
    for device in all_devices() {
        lengths.push(image_bytes(device).unwrap());
        lengths.push(readout_bytes(device).unwrap());
    }
    lengths.sort();
    lengths.dedup();
    lengths.retain(|length| *length != right);
    lengths
}

/// Images of all 0, of all 1, and random ones.
pub fn images(device: Device, random: &mut Random) -> Vec<Input> {
    let length = image_bytes(device).unwrap();
    let mut images = vec![
        ("all 0".to_string(), vec![0; length]),
        ("all 1".to_string(), vec![0xFF; length]),
    ];
    for number in 0..RANDOM_INPUTS {
        images.push((format!("random {number}"), random.bytes(length)));
    }
    images
}

/// Images with one fuse at 1, at a corner.
pub fn corner_images(device: Device) -> Vec<Input> {
    let one_fuse = |fuse: u32| {
        let mut image = vec![0; image_bytes(device).unwrap()];
        image[fuse as usize / 8] = 1 << (fuse % 8);
        (format!("fuse {fuse}"), image)
    };
    corners(device).into_iter().map(one_fuse).collect()
}

/// Readouts without a above bit: all 0, all 1, and random ones.
pub fn readouts(device: Device, random: &mut Random) -> Vec<Input> {
    let widths = all_ones(device);
    let mut readouts = vec![
        ("all 0".to_string(), vec![0; widths.len()]),
        ("all 1".to_string(), widths.clone()),
    ];
    for number in 0..RANDOM_INPUTS {
        let readout = random_readout(&widths, random);
        readouts.push((format!("random {number}"), readout));
    }
    readouts
}

/// Readouts with one bit at 1, at a corner.
pub fn corner_readouts(device: Device) -> Vec<Input> {
    let addresses = addresses(device);
    let one_fuse = |fuse: u32| {
        let (address, bit) = address_of_fuse(device, fuse).unwrap();
        let mut readout = vec![0; addresses.len()];
        readout[addresses.binary_search(&address).unwrap()] = 1 << bit;
        (format!("fuse {fuse}"), readout)
    };
    corners(device).into_iter().map(one_fuse).collect()
}

/// Readouts with above bits: one at the first, a middle and the last byte that can have one, and at
/// random ones; then several at once.
pub fn damaged_readouts(device: Device, random: &mut Random) -> Vec<Input> {
    let widths = all_ones(device);
    let can_have: Vec<usize> = (0..widths.len()).filter(|i| widths[*i] != 0xFF).collect();
    let (first, last) = (can_have[0], can_have[can_have.len() - 1]);
    let middle = can_have[can_have.len() / 2];

    let mut places: Vec<Vec<usize>> = Vec::new();
    // In the smallest part each byte has its turn.
    if device.blocks == BLOCK_COUNTS[0] {
        places.extend(can_have.iter().map(|index| vec![*index]));
    }
    places.extend([vec![first], vec![middle], vec![last]]);
    places.extend([vec![first, last], vec![middle, last], can_have.clone()]);
    for _ in 0..RANDOM_STRAYS {
        places.push(vec![random.pick(&can_have)]);
        let several = 2 + random.below(8);
        places.push((0..several).map(|_| random.pick(&can_have)).collect());
    }

    // Of the bits above the width all, the highest, or the lowest.
    let stray_bits: [fn(u8) -> u8; 3] = [
        |above| above,
        |_| 0x80,
        |above| above & above.wrapping_neg(),
    ];
    let mut damaged = Vec::new();
    for places in places {
        for stray_bits in stray_bits {
            let random_one = random_readout(&widths, random);
            for mut readout in [vec![0; widths.len()], widths.clone(), random_one] {
                for index in &places {
                    readout[*index] |= stray_bits(!widths[*index]);
                }
                let lowest = places.iter().min().unwrap();
                let name = format!("{} above, lowest at {lowest}", places.len());
                damaged.push((name, readout));
            }
        }
    }
    damaged
}

/// The first and last fuse of each block's main area, of its first and last row, of the wire-AND
/// area and of each subarea.
fn corners(device: Device) -> Vec<u32> {
    const ROW: u32 = 108;
    const MAIN: u32 = 72 * ROW;
    const SUBAREA: u32 = 18 * 36;
    let mut fuses = Vec::new();
    let mut first = 0;
    for _ in 0..device.blocks {
        fuses.extend([first, first + ROW - 1, first + MAIN - ROW, first + MAIN - 1]);
        first += MAIN;
        for _ in 0..device.blocks {
            fuses.extend([first, first + SUBAREA - 1]);
            first += SUBAREA;
        }
    }
    assert_eq!(fuse_count(device), Ok(first));

    // A class moves no fuse, so the two classes of a block count take the corners in turns.
    let class = device.class as usize;
    fuses.into_iter().skip(class).step_by(2).collect()
}

/// The valid addresses of a device; the position of one is the index of its readout byte.
fn addresses(device: Device) -> Vec<u32> {
    let has_byte = |address: &u32| fuse_of_address(device, *address, 0).is_ok();
    (0..1 << 17).filter(has_byte).collect()
}

/// A setting to edit: its number, the patterns to put there, and the readout bytes that hold it.
pub struct Edited {
    pub setting: u32,
    pub width: u32,
    pub patterns: Vec<u32>,
    pub bytes: Vec<usize>,
}

/// All settings of the device and of each block, all of some macrocells, random ones of the others.
pub fn settings_to_edit(device: Device, random: &mut Random) -> Vec<Edited> {
    let (mut literals, mut wire_ands, mut numbers) = (Vec::new(), Vec::new(), Vec::new());
    for number in 0..setting_count(device).unwrap() {
        match setting_of_number(device, number).unwrap() {
            Setting::Literal { .. } => literals.push(number),
            Setting::WireAnd { .. } => wire_ands.push(number),
            Setting::Macrocell {
                block, macrocell, ..
            } => {
                let is_edge = block == 0 || block == device.blocks - 1;
                if is_edge && MACROCELLS.contains(&macrocell) || random.below(64) == 0 {
                    numbers.push(number);
                }
            }
            Setting::Block { .. } | Setting::Global { .. } => numbers.push(number),
        }
    }
    for many in [literals, wire_ands] {
        numbers.extend([many[0], many[many.len() - 1]]);
        for _ in 0..RANDOM_SETTINGS {
            numbers.push(random.pick(&many));
        }
    }

    let addresses = addresses(device);
    let index_of_fuse = |fuse: &u32| {
        let (address, _) = address_of_fuse(device, *fuse).unwrap();
        addresses.binary_search(&address).unwrap()
    };
    let mut edited = Vec::new();
    for setting in numbers {
        let fuses = fuses_of_setting(device, setting).unwrap();
        let width = fuses.len() as u32;
        edited.push(Edited {
            setting,
            width,
            patterns: patterns(width, random),
            bytes: fuses.iter().map(index_of_fuse).collect(),
        });
    }
    edited
}

/// Of a setting with few bits every pattern, up and down again, so that each bit changes both ways
/// and once not at all; of USERCODE all 0, all 1, each bit alone or alone missing, random ones.
fn patterns(width: u32, random: &mut Random) -> Vec<u32> {
    if width <= 3 {
        return (0..1 << width).chain((0..1 << width).rev()).collect();
    }
    let mut patterns = vec![0, u32::MAX, 0];
    for bit in 0..width {
        patterns.extend([1 << bit, !(1 << bit)]);
    }
    for _ in 0..RANDOM_USERCODES {
        patterns.push(random.next_u64() as u32);
    }
    patterns
}

/// Some patterns with a bit at or above a width: the lowest and the highest, each power of two that
/// a narrower number would lose; USERCODE has none.
pub fn too_wide(width: u32) -> Vec<u32> {
    if width == 32 {
        return Vec::new();
    }
    let first = 1 << width;
    vec![first, first + 1, 1 << 8, 1 << 16, 1 << 31, u32::MAX]
}

/// The readout of the image of all 1: each byte has the bits of its width.
pub fn all_ones(device: Device) -> Vec<u8> {
    let image = vec![0xFF; image_bytes(device).unwrap()];
    let mut readout = vec![0; readout_bytes(device).unwrap()];
    image_to_readout(device, &image, &mut readout).unwrap();
    readout
}

/// Random bytes, of each the bits of its width.
fn random_readout(widths: &[u8], random: &mut Random) -> Vec<u8> {
    let bytes = random.bytes(widths.len());
    bytes
        .iter()
        .zip(widths)
        .map(|(byte, width)| byte & width)
        .collect()
}
