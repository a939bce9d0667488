// The differential test of settings by number: the library's answers against the reference's.
// Every setting with its bits and every fuse, then edges, random numbers and unknown devices.

use xc9500_differential::inputs::{edges, odd_devices, random_number};
use xc9500_differential::library::{
    xc9500_address_of_fuse, xc9500_fuse_of_address, xc9500_setting_at_fuse, xc9500_setting_count,
    xc9500_setting_fuse, XC9500_NONE,
};
use xc9500_differential::locating::{bits_of_all_devices, compare_locating, unnamed_fuses};
use xc9500_differential::tally::{Tally, ENOUGH};
use xc9500_reference::random::Random;
use xc9500_reference::{
    all_devices, fuse_count, number_of_setting, setting_at_fuse, setting_count, setting_width,
    Answer, Device, GlobalField, MacrocellField, Polarity, Setting, SMALL,
};

const ROUNDS: u32 = 300_000;

const SMALLEST: Device = Device {
    blocks: 2,
    class: SMALL,
};

fn reference_at_fuse(device: Device, fuse: u32) -> Answer<u64> {
    let word = |(setting, bit)| u64::from(setting) * 32 + u64::from(bit);
    setting_at_fuse(device, fuse).map(|named| named.map_or(XC9500_NONE, word))
}

#[test]
fn setting_count_agrees() {
    let mut tally = Tally::new("xc9500_setting_count");
    let mut compare = |device: Device| {
        let library = xc9500_setting_count(device);
        let reference = setting_count(device).map(u64::from);
        tally.compare(device, library, reference);
    };

    let mut random = Random::new(0x9500_0031);
    // Twelve devices are few: they are asked again and again.
    for _ in 0..ENOUGH {
        for device in all_devices() {
            compare(device);
        }
    }
    for device in odd_devices(&mut random) {
        compare(device);
    }
    tally.assert_refusals(&[1]);
}

#[test]
fn setting_fuse_agrees() {
    let mut random = Random::new(0x9500_0032);
    compare_locating("xc9500_setting_fuse", xc9500_setting_fuse, &mut random);
}

/// The library against itself: the address and bit with a fuse are those of its conversion, and both ways back
/// lead to the fuse, and to the setting and its bit.
#[test]
fn every_bit_agrees_with_the_conversion_and_leads_back() {
    let mut bits = 0;
    for device in all_devices() {
        for setting in 0..setting_count(device).unwrap() {
            for bit in 0..setting_width(device, setting).unwrap() {
                let call = (device, setting, bit);
                let word = xc9500_setting_fuse(device, setting, bit).unwrap();
                let fuse = u32::try_from(word >> 20).unwrap();
                let place = word & 0xF_FFFF;
                assert_eq!(xc9500_address_of_fuse(device, fuse), Ok(place), "{call:?}");
                let (address, bit_there) = ((place >> 3) as u32, (place & 7) as u32);
                let back = xc9500_fuse_of_address(device, address, bit_there);
                assert_eq!(back, Ok(u64::from(fuse)), "{call:?}");
                let named = u64::from(setting) * 32 + u64::from(bit);
                assert_eq!(xc9500_setting_at_fuse(device, fuse), Ok(named), "{call:?}");
                bits += 1;
            }
        }
    }
    println!("{bits} bits of settings lead back");
    assert_eq!(bits, bits_of_all_devices());
}

#[test]
fn setting_at_fuse_agrees() {
    let mut tally = Tally::new("xc9500_setting_at_fuse");
    let mut compare = |device: Device, fuse: u32| {
        let library = xc9500_setting_at_fuse(device, fuse);
        tally.compare((device, fuse), library, reference_at_fuse(device, fuse));
    };

    let mut random = Random::new(0x9500_0033);
    for device in all_devices() {
        let count = fuse_count(device).unwrap();
        for fuse in 0..count {
            compare(device, fuse);
        }
        for edge in edges() {
            for fuse in [edge, count.wrapping_add(edge), count.wrapping_sub(edge)] {
                compare(device, fuse);
            }
        }
        for _ in 0..ROUNDS / 12 {
            compare(device, random.next_u64() as u32);
            compare(device, random_number(&mut random));
        }
    }
    for device in odd_devices(&mut random) {
        for fuse in edges() {
            compare(device, fuse);
        }
        compare(device, random_number(&mut random));
    }
    tally.assert_refusals(&[1, 3]);
}

#[test]
fn unnamed_fuses_are_as_many_as_document_01_says() {
    for device in all_devices() {
        let count = fuse_count(device).unwrap();
        let is_unnamed = |fuse: &u32| xc9500_setting_at_fuse(device, *fuse) == Ok(XC9500_NONE);
        let unnamed = (0..count).filter(is_unnamed).count() as u32;
        assert_eq!(unnamed, unnamed_fuses(device), "{device:?}");
    }
}

/// The cases of document 01, two blocks and the small class: setting and bit; fuse, address and bit there.
fn document_cases() -> [(Setting, u32, (u32, u32, u32)); 9] {
    let literal = |polarity| Setting::Literal {
        block: 0,
        macrocell: 4,
        term: 2,
        input: 7,
        polarity,
    };
    let wire_and = Setting::WireAnd {
        block: 0,
        input: 7,
        source: 1,
        macrocell: 3,
    };
    let macrocell = |macrocell, field| Setting::Macrocell {
        block: 0,
        macrocell,
        field,
    };
    let usercode = Setting::Global {
        field: GlobalField::Usercode,
    };
    let oe_mux = macrocell(0, MacrocellField::OeMux);
    [
        (literal(Polarity::P), 0, (1677, 490, 1)),
        (literal(Polarity::N), 0, (1569, 458, 1)),
        (wire_and, 0, (8548, 4378, 1)),
        (macrocell(10, MacrocellField::Inv), 0, (2391, 705, 7)),
        (usercode, 0, (818, 234, 6)),
        (usercode, 31, (655, 192, 7)),
        (oe_mux, 0, (3138, 928, 6)),
        (oe_mux, 1, (3246, 960, 6)),
        (oe_mux, 2, (3354, 992, 6)),
    ]
}

#[test]
fn document_01_cases_both_ways() {
    for (setting, bit, (fuse, address, bit_there)) in document_cases() {
        // The number is the reference's: document 01 gives the order, and no number.
        let number = number_of_setting(SMALLEST, setting).unwrap();
        let named = u64::from(number) * 32 + u64::from(bit);
        let place = u64::from(address) * 8 + u64::from(bit_there);
        assert_eq!(
            xc9500_setting_fuse(SMALLEST, number, bit),
            Ok(u64::from(fuse) * 1_048_576 + place),
            "{setting:?} bit {bit}"
        );
        assert_eq!(xc9500_address_of_fuse(SMALLEST, fuse), Ok(place));
        assert_eq!(
            xc9500_setting_at_fuse(SMALLEST, fuse),
            Ok(named),
            "fuse {fuse}"
        );
    }
}

/// The whole words of OE_MUX: 3138 times 2^20, plus 928 times 8, plus 6, and so on; it has three bits.
#[test]
fn words_of_oe_mux() {
    let (oe_mux, _, _) = document_cases()[6];
    let number = number_of_setting(SMALLEST, oe_mux).unwrap();
    for (bit, word) in [
        (0, 3_290_438_918),
        (1, 3_403_685_382),
        (2, 3_516_931_846),
        (3, 72_057_594_037_927_935),
    ] {
        assert_eq!(
            xc9500_setting_fuse(SMALLEST, number, bit),
            Ok(word),
            "bit {bit}"
        );
    }
}
