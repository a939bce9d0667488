// The list of every fuse of a device, in fuse order, each with its place, address and bit.
// Everything else (counts, widths, the way back from an address) is taken from this list.

use crate::device::{refuse, Answer, Device, BLOCK_COUNTS};
use std::collections::{BTreeMap, HashMap};
use std::sync::OnceLock;

/// The part of a block's bits that a fuse lies in.
#[derive(Clone, Copy, Debug, PartialEq, Eq, Hash)]
pub enum Area {
    Main,
    WireAnd { subarea: u32 },
}

/// Where a fuse lies.
#[derive(Clone, Copy, Debug, PartialEq, Eq, Hash)]
pub struct Place {
    pub block: u32,
    pub area: Area,
    pub row: u32,
    pub column: u32,
    pub bit: u32,
}

/// One fuse of the list; its number is its position there.
#[derive(Clone, Copy, Debug)]
pub(crate) struct Fuse {
    pub place: Place,
    pub address: u32,
    pub bit: u32,
    pub readout_index: usize,
}

/// One byte of the readout.
#[derive(Clone, Copy, Debug)]
pub(crate) struct ReadoutByte {
    pub width: u32,
}

/// The whole list for one block count, with the ways back.
pub(crate) struct Layout {
    pub fuses: Vec<Fuse>,
    pub bytes: Vec<ReadoutByte>,
    fuse_at_address: HashMap<(u32, u32), u32>,
    fuse_at_place: HashMap<Place, u32>,
}

fn main_column_width(column: u32) -> u32 {
    if column <= 8 {
        8
    } else {
        6
    }
}

fn wire_and_column_width(column: u32) -> u32 {
    if column == 0 {
        8
    } else {
        7
    }
}

/// Every place of a device, in fuse order.
fn every_place(blocks: u32) -> Vec<Place> {
    let mut places = Vec::new();
    for block in 0..blocks {
        for row in 0..72 {
            for column in 0..15 {
                for bit in 0..main_column_width(column) {
                    places.push(Place {
                        block,
                        area: Area::Main,
                        row,
                        column,
                        bit,
                    });
                }
            }
        }
        for subarea in 0..blocks {
            for row in 0..18 {
                for column in 0..5 {
                    for bit in 0..wire_and_column_width(column) {
                        places.push(Place {
                            block,
                            area: Area::WireAnd { subarea },
                            row,
                            column,
                            bit,
                        });
                    }
                }
            }
        }
    }
    places
}

/// The 17-bit address of the byte at a place, as a sum of its fields' weights.
fn address_of_place(place: Place) -> u32 {
    const BIT_3: u32 = 8;
    const BIT_5: u32 = 32;
    const BIT_8: u32 = 256;
    const BIT_12: u32 = 4096;
    const BIT_13: u32 = 8192;
    match place.area {
        Area::Main => {
            place.block * BIT_13 + place.row * BIT_5 + (place.column / 5) * BIT_3 + place.column % 5
        }
        Area::WireAnd { subarea } => {
            place.block * BIT_13 + BIT_12 + subarea * BIT_8 + place.row * BIT_3 + place.column
        }
    }
}

impl Layout {
    fn build(blocks: u32) -> Layout {
        let places = every_place(blocks);

        // A byte is as wide as the number of fuses at its address; the map sorts by address.
        let mut width_at_address: BTreeMap<u32, u32> = BTreeMap::new();
        for place in &places {
            *width_at_address
                .entry(address_of_place(*place))
                .or_insert(0) += 1;
        }
        let mut bytes = Vec::new();
        let mut index_of_address = HashMap::new();
        for (address, width) in width_at_address {
            index_of_address.insert(address, bytes.len());
            bytes.push(ReadoutByte { width });
        }

        let mut fuses = Vec::new();
        let mut fuse_at_address = HashMap::new();
        let mut fuse_at_place = HashMap::new();
        for place in places {
            let number = fuses.len() as u32;
            let address = address_of_place(place);
            fuse_at_address.insert((address, place.bit), number);
            fuse_at_place.insert(place, number);
            fuses.push(Fuse {
                place,
                address,
                bit: place.bit,
                readout_index: index_of_address[&address],
            });
        }
        Layout {
            fuses,
            bytes,
            fuse_at_address,
            fuse_at_place,
        }
    }

    /// The list of a known device; refusal 1 for any other.
    pub fn of(device: Device) -> Answer<&'static Layout> {
        static LAYOUTS: [OnceLock<Layout>; 6] = [const { OnceLock::new() }; 6];
        if !device.is_known() {
            return refuse(1, 0);
        }
        for (blocks, layout) in BLOCK_COUNTS.iter().zip(&LAYOUTS) {
            if *blocks == device.blocks {
                return Ok(layout.get_or_init(|| Layout::build(*blocks)));
            }
        }
        refuse(1, 0)
    }

    pub fn fuse_at_address(&self, address: u32, bit: u32) -> Option<u32> {
        self.fuse_at_address.get(&(address, bit)).copied()
    }

    pub fn fuse_at_place(&self, place: Place) -> Option<u32> {
        self.fuse_at_place.get(&place).copied()
    }

    pub fn image_bytes(&self) -> usize {
        self.fuses.len().div_ceil(8)
    }

    /// Refusal 2 unless the image has its exact length.
    pub fn check_image(&self, image: &[u8]) -> Answer<()> {
        if image.len() == self.image_bytes() {
            Ok(())
        } else {
            refuse(2, 0)
        }
    }

    /// Refusal 2 unless the readout has its exact length.
    pub fn check_readout(&self, readout: &[u8]) -> Answer<()> {
        if readout.len() == self.bytes.len() {
            Ok(())
        } else {
            refuse(2, 0)
        }
    }

    /// True if a readout byte has a bit at or above its width.
    pub fn has_bit_above_width(&self, readout: &[u8], index: usize) -> bool {
        (self.bytes[index].width..8).any(|bit| bit_of_byte(readout[index], bit))
    }
}

/// Bit `bit` (0 lowest) of a byte.
pub(crate) fn bit_of_byte(byte: u8, bit: u32) -> bool {
    byte / 2u8.pow(bit) % 2 == 1
}

/// The same byte with bit `bit` put to a state.
pub(crate) fn with_bit(byte: u8, bit: u32, state: bool) -> u8 {
    let weight = 2u8.pow(bit);
    match (bit_of_byte(byte, bit), state) {
        (false, true) => byte + weight,
        (true, false) => byte - weight,
        _ => byte,
    }
}

/// The state of a fuse in an image.
pub(crate) fn fuse_state(image: &[u8], fuse: usize) -> bool {
    bit_of_byte(image[fuse / 8], (fuse % 8) as u32)
}

/// Puts a fuse of an image to a state.
pub(crate) fn put_fuse(image: &mut [u8], fuse: usize, state: bool) {
    image[fuse / 8] = with_bit(image[fuse / 8], (fuse % 8) as u32, state);
}
