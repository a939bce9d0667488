// The differential test of the two conversions: the library's answers against the reference's.
// Every fuse and every address of 17 bits, then edges, random numbers and unknown devices.

use xc9500_differential::inputs::{edges, odd_devices, random_number};
use xc9500_differential::library::{xc9500_address_of_fuse, xc9500_fuse_of_address};
use xc9500_differential::tally::Tally;
use xc9500_reference::random::Random;
use xc9500_reference::{address_of_fuse, all_devices, fuse_count, fuse_of_address, Device};

const ROUNDS: u32 = 300_000;

#[test]
fn address_of_fuse_agrees() {
    let mut tally = Tally::new("xc9500_address_of_fuse");
    let mut compare = |device: Device, fuse: u32| {
        let library = xc9500_address_of_fuse(device, fuse);
        let reference = address_of_fuse(device, fuse)
            .map(|(address, bit)| u64::from(address) * 8 + u64::from(bit));
        tally.compare((device, fuse), library, reference);
    };

    let mut random = Random::new(0x9500_0001);
    for device in all_devices() {
        let count = fuse_count(device).unwrap();
        for fuse in 0..count {
            compare(device, fuse);
        }
        for edge in edges() {
            for fuse in [edge, count.wrapping_add(edge), count.wrapping_sub(edge)] {
                compare(device, fuse);
            }
        }
        for _ in 0..ROUNDS / 12 {
            compare(device, random.next_u64() as u32);
            compare(device, random_number(&mut random));
        }
    }
    for device in odd_devices(&mut random) {
        for fuse in edges() {
            compare(device, fuse);
        }
        compare(device, random_number(&mut random));
    }
    tally.assert_refusals(&[1, 3]);
}

#[test]
fn fuse_of_address_agrees() {
    let mut tally = Tally::new("xc9500_fuse_of_address");
    let mut compare = |device: Device, address: u32, bit: u32| {
        let library = xc9500_fuse_of_address(device, address, bit);
        let reference = fuse_of_address(device, address, bit).map(u64::from);
        tally.compare((device, address, bit), library, reference);
    };

    let mut random = Random::new(0x9500_0002);
    for device in all_devices() {
        for address in 0..1 << 17 {
            for bit in 0..=8 {
                compare(device, address, bit);
            }
        }
        for address in edges() {
            for bit in edges() {
                compare(device, address, bit);
            }
        }
        let count = u64::from(fuse_count(device).unwrap());
        for _ in 0..ROUNDS / 12 {
            let address = random_number(&mut random);
            compare(device, address, random_number(&mut random));
            compare(device, random.next_u64() as u32, random.next_u64() as u32);

            // A valid pair, and the same with one bit of either number turned over.
            let (address, bit) = address_of_fuse(device, random.below(count) as u32).unwrap();
            let turned = 1 << random.below(32);
            compare(device, address, bit);
            compare(device, address ^ turned, bit);
            compare(device, address, bit ^ turned);
        }
    }
    for device in odd_devices(&mut random) {
        for address in edges() {
            compare(device, address, 0);
            compare(device, address, random_number(&mut random));
        }
        compare(device, random_number(&mut random), random.below(9) as u32);
    }
    tally.assert_refusals(&[1, 3]);
}
