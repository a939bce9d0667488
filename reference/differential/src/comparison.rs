// The comparison of one function on whole parts, by this or that program, with the reference.
// Of every call the answer and every byte of every slice is compared.

use crate::inputs::{odd_devices, wrong_lengths, Input};
use crate::tally::Tally;
use xc9500_reference::random::Random;
use xc9500_reference::{all_devices, Answer, Device, BLOCK_COUNTS};

/// A function from a source into a target; the target is empty where the function has none.
pub type Function = fn(Device, &[u8], &mut [u8]) -> Answer<u64>;

/// The length of a slice by block count, worked out for counts that no part has as well.
pub type Length = fn(usize) -> usize;

/// Bytes before and after a target, which no call may change.
const GUARD: usize = 64;

pub const IMAGE: Length = |blocks| blocks * (972 + 81 * blocks);
pub const READOUT: Length = |blocks| blocks * (1080 + 90 * blocks);
pub const NO_TARGET: Length = |_| 0;

/// The text: three lines a main row, one a wire-AND row, and a frame that holds the fuse count.
pub const TEXT: Length = |blocks| {
    let lines = blocks * (72 * 153 + 18 * 51 * blocks);
    lines + 23 + (8 * IMAGE(blocks)).to_string().len()
};

/// A function under test, the reference's, the lengths of their slices, and what came of it so far.
pub struct Comparison {
    tally: Tally,
    function: Function,
    reference: Function,
    source: Length,
    target: Length,
}

impl Comparison {
    pub fn new(
        name: &'static str,
        (source, target): (Length, Length),
        function: Function,
        reference: Function,
    ) -> Comparison {
        Comparison {
            tally: Tally::new(name),
            function,
            reference,
            source,
            target,
        }
    }

    /// Compares one call, with a target that is filled with a pattern first.
    pub fn call(&mut self, device: Device, input: &str, source: &[u8], target_bytes: usize) {
        let call = (device, input, source.len(), target_bytes);
        let lent = source.to_vec();
        let pattern = (0..GUARD + target_bytes + GUARD).map(|i| (i * 89 + 90) as u8);
        let mut guarded: Vec<u8> = pattern.collect();
        let mut expected = guarded.clone();
        let target = GUARD..GUARD + target_bytes;
        let answer = (self.function)(device, &lent, &mut guarded[target.clone()]);
        let reference = (self.reference)(device, source, &mut expected[target]);
        self.tally.compare(call, answer, reference);
        self.tally.compare_bytes(call, "source", &lent, source);
        self.tally
            .compare_bytes(call, "guarded target", &guarded, &expected);
    }

    /// Compares the calls with inputs of the right length.
    pub fn inputs(&mut self, device: Device, inputs: Vec<Input>) {
        let target_bytes = (self.target)(device.blocks as usize);
        for (name, source) in inputs {
            self.call(device, &name, &source, target_bytes);
        }
    }

    /// Compares the calls with a wrong source, a wrong target, or both.
    pub fn wrong_lengths(&mut self, random: &mut Random) {
        for device in all_devices() {
            let blocks = device.blocks as usize;
            let (source, target) = ((self.source)(blocks), (self.target)(blocks));
            let wrong_sources = wrong_lengths(source);
            let mut lengths: Vec<(usize, usize)> = Vec::new();
            for wrong in &wrong_sources {
                lengths.push((*wrong, target));
            }
            if target > 0 {
                for wrong in wrong_lengths(target) {
                    lengths.push((source, wrong));
                    lengths.push((random.pick(&wrong_sources), wrong));
                }
                lengths.push((target, source));
            }
            for (source, target) in lengths {
                self.call(device, "random", &random.bytes(source), target);
            }
        }
    }

    /// Compares the calls with unknown devices; a known one is among them now and then.
    pub fn unknown_devices(&mut self, random: &mut Random) {
        for device in odd_devices(random) {
            // The lengths that a count would have if it were known, and those of a known one.
            let known = random.pick(&BLOCK_COUNTS);
            for blocks in [device.blocks, known] {
                if blocks <= 40 {
                    let blocks = blocks as usize;
                    let (source, target) = ((self.source)(blocks), (self.target)(blocks));
                    self.call(device, "all 0", &vec![0; source], target);
                    self.call(device, "all 1", &vec![0xFF; source], target);
                }
            }
            self.call(device, "empty", &[], 0);
        }
    }

    /// Panics unless each of the refusals occurred often enough, acceptance too, and no other did.
    pub fn assert_refusals(&self, refusals: &[u32]) {
        self.tally.assert_refusals(refusals);
    }

    /// How often an outcome occurred; 0 is acceptance.
    pub fn seen(&self, number: u32) -> u64 {
        self.tally.seen(number)
    }
}
