// The conversions for all devices against the source's forward routine and its corrected reverse.
// Every fuse is converted, and every address of 18 bits with bits 0 to 8.

use xc9500_reference::*;

const REFUSED_3: Refusal = Refusal {
    number: 3,
    value: 0,
};

/// The forward routine as printed in the source.
fn printed_forward(blocks: u32, fuse: u32) -> (u32, u32) {
    let main_area_bits = 108 * 72;
    let block_bits = main_area_bits + 36 * 18 * blocks;
    let block = fuse / block_bits;
    let mut rest = fuse % block_bits;
    if rest < main_area_bits {
        let row = rest / 108;
        rest %= 108;
        let (column, bit) = if rest < 72 {
            (rest / 8, rest % 8)
        } else {
            (9 + (rest - 72) / 6, (rest - 72) % 6)
        };
        (
            block << 13 | row << 5 | (column / 5) << 3 | (column % 5),
            bit,
        )
    } else {
        rest -= main_area_bits;
        let subarea = rest / 648;
        rest %= 648;
        let row = rest / 36;
        rest %= 36;
        let (column, bit) = if rest < 8 {
            (0, rest)
        } else {
            (1 + (rest - 8) / 7, (rest - 8) % 7)
        };
        (
            block << 13 | 1 << 12 | subarea << 8 | row << 3 | column,
            bit,
        )
    }
}

/// The reverse routine with the right area test and 8 times 9; None where it has no answer.
fn corrected_reverse(blocks: u32, address: u32, bit: u32) -> Option<u32> {
    if address >= 1 << 17 {
        return None;
    }
    let block = address >> 13;
    let block_start = block * (7776 + 648 * blocks);
    if block >= blocks {
        return None;
    }
    if address >> 12 & 1 == 0 {
        let row = address >> 5 & 127;
        let high = address >> 3 & 3;
        let low = address & 7;
        if row >= 72 || high >= 3 || low >= 5 {
            return None;
        }
        let column = 5 * high + low;
        let (first, width) = if column < 9 {
            (8 * column, 8)
        } else {
            (72 + 6 * (column - 9), 6)
        };
        (bit < width).then_some(block_start + 108 * row + first + bit)
    } else {
        let subarea = address >> 8 & 15;
        let row = address >> 3 & 31;
        let column = address & 7;
        if subarea >= blocks || row >= 18 || column >= 5 {
            return None;
        }
        let (first, width) = if column == 0 {
            (0, 8)
        } else {
            (8 + 7 * (column - 1), 7)
        };
        (bit < width).then_some(block_start + 7776 + 648 * subarea + 36 * row + first + bit)
    }
}

#[test]
fn every_fuse_as_in_the_forward_routine() {
    for device in all_devices() {
        let count = fuse_count(device).unwrap();
        for fuse in 0..count {
            let (address, bit) = printed_forward(device.blocks, fuse);
            assert_eq!(address_of_fuse(device, fuse), Ok((address, bit)));
            assert_eq!(fuse_of_address(device, address, bit), Ok(fuse));
        }
        for fuse in [count, count + 1, 1 << 31, u32::MAX] {
            assert_eq!(address_of_fuse(device, fuse), Err(REFUSED_3));
        }
    }
}

#[test]
fn every_address_has_its_fuse_or_is_refused() {
    for blocks in BLOCK_COUNTS {
        let device = Device {
            blocks,
            class: LARGE,
        };
        let mut found = 0;
        for address in 0..1 << 18 {
            for bit in 0..9 {
                let expected = corrected_reverse(blocks, address, bit).ok_or(REFUSED_3);
                let answer = fuse_of_address(device, address, bit);
                assert_eq!(answer, expected, "address {address} bit {bit}");
                if let Ok(fuse) = answer {
                    assert_eq!(address_of_fuse(device, fuse), Ok((address, bit)));
                    found += 1;
                }
            }
        }
        assert_eq!(Ok(found), fuse_count(device));
    }
}

#[test]
fn addresses_over_17_bits_are_not_masked() {
    for device in all_devices() {
        for high in 17..32 {
            assert_eq!(fuse_of_address(device, 1 << high, 0), Err(REFUSED_3));
            assert_eq!(fuse_of_address(device, (1 << high) + 11, 7), Err(REFUSED_3));
        }
        for bit in [8, 32, 256, u32::MAX] {
            assert_eq!(fuse_of_address(device, 0, bit), Err(REFUSED_3));
        }
    }
}
