// The device, a block count and an output-enable class, and the numbered refusals.
// Any two numbers make a Device; the twelve known pairs are told apart by is_known.

/// Class number of the small output-enable class (two global output enables).
pub const SMALL: u32 = 0;

/// Class number of the large output-enable class (four global output enables).
pub const LARGE: u32 = 1;

/// The block counts of the family.
pub const BLOCK_COUNTS: [u32; 6] = [2, 4, 6, 8, 12, 16];

/// A device as the caller names it; it need not exist.
#[derive(Clone, Copy, Debug, PartialEq, Eq, Hash)]
pub struct Device {
    pub blocks: u32,
    pub class: u32,
}

impl Device {
    /// True for the twelve pairs that exist.
    pub fn is_known(self) -> bool {
        BLOCK_COUNTS.contains(&self.blocks) && [SMALL, LARGE].contains(&self.class)
    }
}

/// The twelve known devices, by block count, small before large.
pub fn all_devices() -> Vec<Device> {
    let mut devices = Vec::new();
    for blocks in BLOCK_COUNTS {
        for class in [SMALL, LARGE] {
            devices.push(Device { blocks, class });
        }
    }
    devices
}

/// A refusal: its number (1 to 13) and the value returned with it.
#[derive(Clone, Copy, Debug, PartialEq, Eq, Hash)]
pub struct Refusal {
    pub number: u32,
    pub value: u64,
}

/// What every operation answers.
pub type Answer<T> = Result<T, Refusal>;

/// Answers with a refusal.
pub(crate) fn refuse<T>(number: u32, value: u64) -> Answer<T> {
    Err(Refusal { number, value })
}
