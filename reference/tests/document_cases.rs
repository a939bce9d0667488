// The worked cases of the specification: sizes, addresses, settings, texts and the bench program.
// Unless said otherwise they are for two blocks, small class.

use std::io::Write;
use std::process::{Command, Stdio};
use xc9500_reference::*;

const DEVICE: Device = Device {
    blocks: 2,
    class: SMALL,
};

fn refused<T>(number: u32, value: u64) -> Answer<T> {
    Err(Refusal { number, value })
}

#[test]
fn table_of_sizes() {
    let table = [
        (2, 18144, 2268, 2520),
        (4, 41472, 5184, 5760),
        (6, 69984, 8748, 9720),
        (8, 103680, 12960, 14400),
        (12, 186624, 23328, 25920),
        (16, 290304, 36288, 40320),
    ];
    for (blocks, fuses, image, readout) in table {
        for class in [SMALL, LARGE] {
            let device = Device { blocks, class };
            assert_eq!(fuse_count(device), Ok(fuses));
            assert_eq!(image_bytes(device), Ok(image));
            assert_eq!(readout_bytes(device), Ok(readout));
        }
    }
}

#[test]
fn p_cases_fuse_and_address() {
    let table = [
        (0, 0, 0),
        (71, 11, 7),
        (72, 12, 0),
        (107, 20, 5),
        (108, 32, 0),
        (7775, 2292, 5),
        (7776, 4096, 0),
        (7784, 4097, 0),
        (9072, 8192, 0),
        (18143, 12684, 6),
    ];
    for (fuse, address, bit) in table {
        assert_eq!(address_of_fuse(DEVICE, fuse), Ok((address, bit)));
        assert_eq!(fuse_of_address(DEVICE, address, bit), Ok(fuse));
    }
}

#[test]
fn p_cases_refused() {
    assert_eq!(address_of_fuse(DEVICE, 18144), refused(3, 0));
    for address in [5, 24, 2304, 16384] {
        for bit in 0..9 {
            assert_eq!(fuse_of_address(DEVICE, address, bit), refused(3, 0));
        }
    }
}

/// Fuse, address and bit of each bit of a setting, lowest bit first.
fn located(setting: Setting) -> Vec<(u32, u32, u32)> {
    let number = number_of_setting(DEVICE, setting).unwrap();
    let located = locate_setting(DEVICE, number).unwrap();
    let fuses: Vec<u32> = located.iter().map(|located| located.fuse).collect();
    assert_eq!(fuses_of_setting(DEVICE, number), Ok(fuses));
    for (bit, located) in (0..).zip(&located) {
        assert_eq!(locate_bit(DEVICE, number, bit), Ok(Some(*located)));
    }
    assert_eq!(locate_bit(DEVICE, number, located.len() as u32), Ok(None));
    located
        .into_iter()
        .map(|LocatedFuse { fuse, address, bit }| (fuse, address, bit))
        .collect()
}

/// The addresses are worked out by hand: in block 0 a main row is worth 32, column 5 is at 8; the
/// wire-AND area starts at 4096, a subarea of it is worth 256 and a row 8.
#[test]
fn fuses_and_addresses_of_named_settings() {
    // Rows 15 and 14, column 7, bit 1.
    for (polarity, place) in [(Polarity::P, (1677, 490, 1)), (Polarity::N, (1569, 458, 1))] {
        assert_eq!(
            located(Setting::Literal {
                block: 0,
                macrocell: 4,
                term: 2,
                input: 7,
                polarity,
            }),
            [place]
        );
    }
    // Subarea 1, row 3, column 2, bit 1.
    assert_eq!(
        located(Setting::WireAnd {
            block: 0,
            input: 7,
            source: 1,
            macrocell: 3,
        }),
        [(8548, 4378, 1)]
    );
    // Row 22, column 1, bit 7.
    assert_eq!(
        located(Setting::Macrocell {
            block: 0,
            macrocell: 10,
            field: MacrocellField::Inv,
        }),
        [(2391, 705, 7)]
    );
}

/// Bits 0 to 15 from row 7, bits 16 to 31 from row 6; of each row columns 7 to 0, bit 6 before 7.
#[test]
fn fuses_and_addresses_of_usercode() {
    assert_eq!(
        located(Setting::Global {
            field: GlobalField::Usercode,
        }),
        [
            (818, 234, 6),
            (819, 234, 7),
            (810, 233, 6),
            (811, 233, 7),
            (802, 232, 6),
            (803, 232, 7),
            (794, 228, 6),
            (795, 228, 7),
            (786, 227, 6),
            (787, 227, 7),
            (778, 226, 6),
            (779, 226, 7),
            (770, 225, 6),
            (771, 225, 7),
            (762, 224, 6),
            (763, 224, 7),
            (710, 202, 6),
            (711, 202, 7),
            (702, 201, 6),
            (703, 201, 7),
            (694, 200, 6),
            (695, 200, 7),
            (686, 196, 6),
            (687, 196, 7),
            (678, 195, 6),
            (679, 195, 7),
            (670, 194, 6),
            (671, 194, 7),
            (662, 193, 6),
            (663, 193, 7),
            (654, 192, 6),
            (655, 192, 7),
        ]
    );
}

#[test]
fn oe_mux_of_an_all_ones_image() {
    let setting = Setting::Macrocell {
        block: 0,
        macrocell: 0,
        field: MacrocellField::OeMux,
    };
    let mut image = vec![0xFF; 2268];
    assert_eq!(
        read_value_in_image(DEVICE, &image, setting),
        Ok(Value::Named(ValueName::Pt))
    );
    assert_eq!(
        set_value_in_image(DEVICE, &mut image, setting, Value::Named(ValueName::Foe2)),
        Ok(())
    );
    let mut expected = vec![0xFF; 2268];
    for fuse in [3138, 3246] {
        expected[fuse / 8] &= !(1 << (fuse % 8));
    }
    assert_eq!(image, expected);
    // Rows 29, 30 and 31, column 0, bit 6.
    assert_eq!(
        located(setting),
        [(3138, 928, 6), (3246, 960, 6), (3354, 992, 6)]
    );
    assert_eq!(
        read_value_in_image(DEVICE, &image, setting),
        Ok(Value::Named(ValueName::Foe2))
    );
}

fn read_text(text: &[u8]) -> Answer<Vec<u8>> {
    let mut image = vec![0x5A; 2268];
    text_to_image(DEVICE, text, &mut image)?;
    Ok(image)
}

#[test]
fn texts_of_the_all_ones_image() {
    let good = b"\x02*QF18144*F1*CD324*\x0303DD";
    assert_eq!(good.len(), 24);
    assert_eq!(read_text(good), Ok(vec![0xFF; 2268]));
    assert_eq!(
        read_text(b"\x02*QF18144*F1*CD324*\x030000"),
        Ok(vec![0xFF; 2268])
    );
    assert_eq!(
        read_text(b"\x02*QF18144*F1*CD324*\x0303DC"),
        refused(11, 19)
    );
    assert_eq!(
        read_text(b"\x02*QF18144*F1*CD325*\x030000"),
        refused(10, 13)
    );
    assert_eq!(fuse_sum(DEVICE, &[0xFF; 2268]), Ok(0xD324));
    assert_eq!(zero_count(DEVICE, &[0xFF; 2268]), Ok(0));
}

#[test]
fn lengths_of_the_written_text() {
    for class in [SMALL, LARGE] {
        assert_eq!(text_bytes(Device { blocks: 2, class }), Ok(25_732));
        assert_eq!(text_bytes(Device { blocks: 16, class }), Ok(411_293));
    }
}

#[test]
fn slips_seen_are_not_made() {
    // Column 9 bit 5 and column 10 bit 0: still right with 8-bit columns, then not.
    assert_eq!(address_of_fuse(DEVICE, 72 + 5), Ok((12, 5)));
    assert_eq!(address_of_fuse(DEVICE, 72 + 6), Ok((16, 0)));
    // Wire-AND input 1 is column 1 bit 0.
    let input_1 = located(Setting::WireAnd {
        block: 0,
        input: 1,
        source: 0,
        macrocell: 0,
    });
    assert_eq!(input_1, [(7784, 4097, 0)]);
    // Flags and USERCODE are stored inverted.
    let mut image = vec![0xFF; 2268];
    let enable = Setting::Block {
        block: 1,
        field: BlockField::Enable,
    };
    let usercode = Setting::Global {
        field: GlobalField::Usercode,
    };
    assert_eq!(
        read_value_in_image(DEVICE, &image, enable),
        Ok(Value::Flag(false))
    );
    assert_eq!(
        read_value_in_image(DEVICE, &image, usercode),
        Ok(Value::Usercode(0))
    );
    set_value_in_image(DEVICE, &mut image, usercode, Value::Usercode(1)).unwrap();
    assert_eq!(image[818 / 8], 0xFF - (1 << (818 % 8)));
    set_value_in_image(DEVICE, &mut image, enable, Value::Flag(true)).unwrap();
    let fuse = located(enable)[0].0 as usize;
    assert_eq!(image[fuse / 8], 0xFF - (1 << (fuse % 8)));
}

fn run_bench_program(input: &[u8]) -> Vec<u8> {
    let mut child = Command::new(env!("CARGO_BIN_EXE_reference_bench"))
        .stdin(Stdio::piped())
        .stdout(Stdio::piped())
        .spawn()
        .unwrap();
    child.stdin.take().unwrap().write_all(input).unwrap();
    child.wait_with_output().unwrap().stdout
}

#[test]
fn bench_program_output() {
    let all_ones: &[u8] = b"\x02*QF18144*F1*CD324*\x0303DD";
    let report: &[u8] = b"blocks 2\nfuses 18144\nzero 0\nsum D324\n";
    let too_long = [b'x'; 65_537];
    let cases: [(&[u8], &[u8]); 4] = [
        (all_ones, report),
        (b"", b"refused 7 at 0\n"),
        (&too_long, b"refused 7 at 65536\n"),
        (
            b"\x02*QF41472*F0*L41464 1*\x030000\r\n",
            b"blocks 4\nfuses 41472\nzero 41471\nsum 0001\n",
        ),
    ];
    for (input, output) in cases {
        assert_eq!(bench(input), output);
        assert_eq!(run_bench_program(input), output);
    }
}
