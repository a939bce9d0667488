// The numbered settings of all devices: counts, numbers, fuses, addresses, names and values.
// Numbers, fuses and addresses are worked out again here by arithmetic and compared with the lists.

use std::collections::HashSet;
use xc9500_reference::random::Random;
use xc9500_reference::*;

fn refused<T>(number: u32, value: u64) -> Answer<T> {
    Err(Refusal { number, value })
}

fn device(blocks: u32, class: u32) -> Device {
    Device { blocks, class }
}

#[test]
fn first_numbers_and_counts() {
    for class in [SMALL, LARGE] {
        let device = device(2, class);
        let firsts = [
            (0, "literal"),
            (12960, "wire-AND"),
            (15552, "macrocell"),
            (16524, "block"),
            (16536, "global"),
        ];
        for (number, group) in firsts {
            assert_eq!(
                group_name(setting_of_number(device, number).unwrap()),
                group
            );
            if number > 0 {
                let before = setting_of_number(device, number - 1).unwrap();
                assert_ne!(group_name(before), group);
            }
        }
    }
    assert_eq!(setting_count(device(2, SMALL)), Ok(16548));
    assert_eq!(setting_count(device(2, LARGE)), Ok(16552));
}

/// The number of a setting by arithmetic; the field's position is given by the caller.
fn number_by_arithmetic(blocks: u32, setting: Setting, field: u32) -> u32 {
    let wire_and = blocks * 6480;
    let macrocells = wire_and + blocks * blocks * 648;
    let block_fields = macrocells + blocks * 18 * 27;
    let globals = block_fields + blocks * 6;
    match setting {
        Setting::Literal {
            block,
            macrocell,
            term,
            input,
            polarity,
        } => {
            let negative = u32::from(polarity == Polarity::N);
            (((block * 18 + macrocell) * 5 + term) * 36 + input) * 2 + negative
        }
        Setting::WireAnd {
            block,
            input,
            source,
            macrocell,
        } => wire_and + ((block * 36 + input) * blocks + source) * 18 + macrocell,
        Setting::Macrocell {
            block, macrocell, ..
        } => macrocells + (block * 18 + macrocell) * 27 + field,
        Setting::Block { block, .. } => block_fields + block * 6 + field,
        Setting::Global { .. } => globals + field,
    }
}

/// The address of a place, each of document 01's fields put at its bits.
fn address_by_fields(place: Place) -> u32 {
    match place.area {
        Area::Main => {
            place.block << 13 | place.row << 5 | (place.column / 5) << 3 | (place.column % 5)
        }
        Area::WireAnd { subarea } => {
            place.block << 13 | 1 << 12 | subarea << 8 | place.row << 3 | place.column
        }
    }
}

/// The fuse of a place by arithmetic, with its address and bit.
fn located_by_arithmetic(blocks: u32, place: Place) -> LocatedFuse {
    let in_block = match place.area {
        Area::Main if place.column < 9 => 108 * place.row + 8 * place.column,
        Area::Main => 108 * place.row + 72 + 6 * (place.column - 9),
        Area::WireAnd { subarea } => {
            let first = match place.column {
                0 => 0,
                column => 8 + 7 * (column - 1),
            };
            7776 + 648 * subarea + 36 * place.row + first
        }
    };
    LocatedFuse {
        fuse: place.block * (7776 + 648 * blocks) + in_block + place.bit,
        address: address_by_fields(place),
        bit: place.bit,
    }
}

/// The same for a place in a main area.
fn in_main_area(blocks: u32, block: u32, (row, column, bit): (u32, u32, u32)) -> LocatedFuse {
    let place = Place {
        block,
        area: Area::Main,
        row,
        column,
        bit,
    };
    located_by_arithmetic(blocks, place)
}

/// How many fuses no setting has, by document 01.
fn unnamed_fuses(device: Device) -> u32 {
    let fewer = if device.class == SMALL { 48 } else { 54 };
    624 * device.blocks - fewer
}

#[test]
fn literals_by_arithmetic() {
    for device in all_devices() {
        let blocks = device.blocks;
        for block in 0..blocks {
            for macrocell in 0..18 {
                for term in 0..5 {
                    for input in 0..36 {
                        for polarity in [Polarity::P, Polarity::N] {
                            let setting = Setting::Literal {
                                block,
                                macrocell,
                                term,
                                input,
                                polarity,
                            };
                            let number = number_by_arithmetic(blocks, setting, 0);
                            let row = 2 * input + u32::from(polarity == Polarity::P);
                            let column = term + 5 * (macrocell % 3);
                            let located = in_main_area(blocks, block, (row, column, macrocell / 3));
                            assert_eq!(number_of_setting(device, setting), Ok(number));
                            assert_eq!(setting_of_number(device, number), Ok(setting));
                            assert_eq!(locate_bit(device, number, 0), Ok(Some(located)));
                            assert_eq!(locate_bit(device, number, 1), Ok(None));
                        }
                    }
                }
            }
        }
    }
}

#[test]
fn wire_and_by_arithmetic() {
    for device in all_devices() {
        let blocks = device.blocks;
        for block in 0..blocks {
            for input in 0..36 {
                for source in 0..blocks {
                    for macrocell in 0..18 {
                        let setting = Setting::WireAnd {
                            block,
                            input,
                            source,
                            macrocell,
                        };
                        let number = number_by_arithmetic(blocks, setting, 0);
                        let place = Place {
                            block,
                            area: Area::WireAnd { subarea: source },
                            row: macrocell,
                            column: input % 5,
                            bit: input / 5,
                        };
                        let located = located_by_arithmetic(blocks, place);
                        assert_eq!(number_of_setting(device, setting), Ok(number));
                        assert_eq!(setting_of_number(device, number), Ok(setting));
                        assert_eq!(locate_bit(device, number, 0), Ok(Some(located)));
                        assert_eq!(locate_bit(device, number, 1), Ok(None));
                    }
                }
            }
        }
    }
}

/// Printed name and rows of each macrocell field, in order, written out a second time.
const MACROCELL_TABLE: [(&str, &[u32]); 27] = [
    ("ALLOC[0]", &[12, 13]),
    ("ALLOC[1]", &[14, 15]),
    ("ALLOC[2]", &[16, 17]),
    ("ALLOC[3]", &[18, 19]),
    ("ALLOC[4]", &[20, 21]),
    ("INV", &[22]),
    ("IMPORT_UP_ALLOC", &[23]),
    ("IMPORT_DOWN_ALLOC", &[24]),
    ("EXPORT_DIR", &[25]),
    ("SUM_HP", &[26]),
    ("IOB_OE_MUX", &[27, 28]),
    ("OE_MUX", &[29, 30, 31]),
    ("OUT_MUX", &[35]),
    ("CLK_MUX", &[36, 37]),
    ("REG_MODE", &[40]),
    ("RST_MUX", &[41]),
    ("SET_MUX", &[42]),
    ("INIT", &[43]),
    ("UIM_OE_MUX", &[44, 45]),
    ("UIM_OUT_INV", &[46]),
    ("IOB_GND", &[48]),
    ("IOB_SLEW", &[49]),
    ("HP[0]", &[50]),
    ("HP[1]", &[51]),
    ("HP[2]", &[52]),
    ("HP[3]", &[53]),
    ("HP[4]", &[54]),
];

#[test]
fn macrocell_fields_by_arithmetic() {
    for device in all_devices() {
        let blocks = device.blocks;
        for block in 0..blocks {
            for macrocell in 0..18 {
                for (position, (name, rows)) in MACROCELL_TABLE.iter().enumerate() {
                    let setting = Setting::Macrocell {
                        block,
                        macrocell,
                        field: MACROCELL_FIELDS[position],
                    };
                    let number = number_by_arithmetic(blocks, setting, position as u32);
                    let (column, bit) = (macrocell % 9, 6 + macrocell / 9);
                    let located = rows
                        .iter()
                        .map(|row| in_main_area(blocks, block, (*row, column, bit)))
                        .collect();
                    assert_eq!(field_name(setting), Some(*name));
                    assert_eq!(number_of_setting(device, setting), Ok(number));
                    assert_eq!(setting_of_number(device, number), Ok(setting));
                    assert_eq!(locate_setting(device, number), Ok(located));
                }
            }
        }
    }
}

#[test]
fn block_fields_by_arithmetic() {
    let table = [
        ("ENABLE", 67, 0),
        ("EXPORT_ENABLE", 67, 1),
        ("PULLUP_DISABLE", 68, 6),
        ("READ_PROT_A", 11, 3),
        ("READ_PROT_B", 68, 3),
        ("WRITE_PROT", 68, 0),
    ];
    for device in all_devices() {
        let blocks = device.blocks;
        for block in 0..blocks {
            for (position, (name, row, column)) in table.iter().enumerate() {
                let setting = Setting::Block {
                    block,
                    field: BLOCK_FIELDS[position],
                };
                let number = number_by_arithmetic(blocks, setting, position as u32);
                let located = in_main_area(blocks, block, (*row, *column, 6));
                assert_eq!(field_name(setting), Some(*name));
                assert_eq!(number_of_setting(device, setting), Ok(number));
                assert_eq!(setting_of_number(device, number), Ok(setting));
                assert_eq!(locate_setting(device, number), Ok(vec![located]));
            }
        }
    }
}

#[test]
fn global_fields_by_arithmetic() {
    for device in all_devices() {
        let output_enables = if device.class == LARGE { 4 } else { 2 };
        let mut expected = vec![("FSR_INV".to_string(), vec![(0, 1, 6)])];
        for clock in 0..3 {
            expected.push((format!("FCLK[{clock}].INV"), vec![(0, 2 + clock, 6)]));
        }
        for enable in 0..output_enables {
            expected.push((format!("FOE[{enable}].INV"), vec![(0, 5 + enable, 6)]));
        }
        for clock in 0..3 {
            let column = 2 + clock;
            expected.push((
                format!("FCLK[{clock}].MUX"),
                vec![(3, column, 6), (4, column, 6)],
            ));
        }
        for enable in 0..output_enables {
            let column = 5 + enable;
            expected.push((
                format!("FOE[{enable}].MUX"),
                vec![(3, column, 6), (4, column, 6)],
            ));
        }
        // Bits 0 to 15 run down the columns of row 7, then bits 16 to 31 those of row 6.
        let mut usercode = Vec::new();
        for row in [7, 6] {
            for column in (0..8).rev() {
                usercode.push((row, column, 6));
                usercode.push((row, column, 7));
            }
        }
        expected.push(("USERCODE".to_string(), usercode));

        let first = setting_count(device).unwrap() - expected.len() as u32;
        for (position, (name, positions)) in expected.iter().enumerate() {
            let number = first + position as u32;
            let setting = setting_of_number(device, number).unwrap();
            assert_eq!(
                number,
                number_by_arithmetic(device.blocks, setting, position as u32)
            );
            assert_eq!(group_name(setting), "global");
            assert_eq!(field_name(setting), Some(name.as_str()));
            assert_eq!(number_of_setting(device, setting), Ok(number));
            let located = positions
                .iter()
                .map(|position| in_main_area(device.blocks, 0, *position))
                .collect();
            assert_eq!(locate_setting(device, number), Ok(located));
        }
    }
}

#[test]
fn foe_2_and_3_only_in_the_large_class() {
    for blocks in BLOCK_COUNTS {
        for field in [
            GlobalField::Foe2Inv,
            GlobalField::Foe3Inv,
            GlobalField::Foe2Mux,
            GlobalField::Foe3Mux,
        ] {
            let setting = Setting::Global { field };
            assert_eq!(
                number_of_setting(device(blocks, SMALL), setting),
                refused(4, 0)
            );
            assert!(number_of_setting(device(blocks, LARGE), setting).is_ok());
        }
    }
}

#[test]
fn no_two_settings_share_a_fuse_and_the_unnamed_are_counted() {
    for device in all_devices() {
        let mut named = HashSet::new();
        for number in 0..setting_count(device).unwrap() {
            let fuses = fuses_of_setting(device, number).unwrap();
            let places = places_of_setting(device, number).unwrap();
            assert_eq!(setting_width(device, number), Ok(fuses.len() as u32));
            assert_eq!(places.len(), fuses.len());
            for (bit, fuse) in fuses.iter().enumerate() {
                let bit = bit as u32;
                assert!(named.insert(*fuse), "fuse {fuse} has two settings");
                assert_eq!(setting_at_fuse(device, *fuse), Ok(Some((number, bit))));
                let located = locate_bit(device, number, bit).unwrap();
                assert_eq!(located.map(|located| located.fuse), Some(*fuse));
            }
            for bit in [fuses.len() as u32, 33, u32::MAX] {
                assert_eq!(locate_bit(device, number, bit), Ok(None));
            }
        }
        let count = fuse_count(device).unwrap();
        let mut unnamed = 0;
        for fuse in 0..count {
            if setting_at_fuse(device, fuse) == Ok(None) {
                assert!(!named.contains(&fuse));
                unnamed += 1;
            }
        }
        assert_eq!(unnamed, unnamed_fuses(device));
        assert_eq!(named.len() as u32 + unnamed, count);
        assert_eq!(setting_at_fuse(device, count), refused(3, 0));
        assert_eq!(setting_at_fuse(device, u32::MAX), refused(3, 0));
    }
}

#[test]
fn every_bit_has_the_address_of_its_place() {
    for device in all_devices() {
        let mut bits = 0;
        for number in 0..setting_count(device).unwrap() {
            let places = places_of_setting(device, number).unwrap();
            let located = locate_setting(device, number).unwrap();
            assert_eq!(located.len(), places.len());
            for (i, place) in (0..).zip(places) {
                assert_eq!(
                    located[i],
                    located_by_arithmetic(device.blocks, place),
                    "{device:?} setting {number} bit {i}"
                );
                let LocatedFuse { fuse, address, bit } = located[i];
                assert_eq!(address_of_fuse(device, fuse), Ok((address, bit)));
                assert_eq!(fuse_of_address(device, address, bit), Ok(fuse));
                assert_eq!(locate_bit(device, number, i as u32), Ok(Some(located[i])));
                bits += 1;
            }
        }
        // These were all fuses but the unnamed ones.
        assert_eq!(Ok(bits + unnamed_fuses(device)), fuse_count(device));
    }
}

#[test]
fn unknown_settings_are_refused_4() {
    for device in all_devices() {
        let count = setting_count(device).unwrap();
        for number in [count, count + 1, u32::MAX] {
            assert_eq!(setting_of_number(device, number), refused(4, 0));
            assert_eq!(setting_width(device, number), refused(4, 0));
            assert_eq!(places_of_setting(device, number), refused(4, 0));
            assert_eq!(fuses_of_setting(device, number), refused(4, 0));
            assert_eq!(locate_setting(device, number), refused(4, 0));
            assert_eq!(locate_bit(device, number, 0), refused(4, 0));
            assert_eq!(locate_bit(device, number, u32::MAX), refused(4, 0));
            assert_eq!(value_of_pattern(device, number, u32::MAX), refused(4, 0));
            assert_eq!(
                pattern_of_value(device, number, Value::Usercode(0)),
                refused(4, 0)
            );
        }
        let blocks = device.blocks;
        let literal = |block, macrocell, term, input| Setting::Literal {
            block,
            macrocell,
            term,
            input,
            polarity: Polarity::P,
        };
        let wire_and = |block, input, source, macrocell| Setting::WireAnd {
            block,
            input,
            source,
            macrocell,
        };
        let one_too_far = [
            literal(blocks, 0, 0, 0),
            literal(0, 18, 0, 0),
            literal(0, 0, 5, 0),
            literal(0, 0, 0, 36),
            literal(u32::MAX, u32::MAX, u32::MAX, u32::MAX),
            wire_and(blocks, 0, 0, 0),
            wire_and(0, 36, 0, 0),
            wire_and(0, 0, blocks, 0),
            wire_and(0, 0, 0, 18),
            Setting::Macrocell {
                block: blocks,
                macrocell: 0,
                field: MacrocellField::Inv,
            },
            Setting::Macrocell {
                block: 0,
                macrocell: 18,
                field: MacrocellField::Inv,
            },
            Setting::Block {
                block: blocks,
                field: BlockField::Enable,
            },
        ];
        for setting in one_too_far {
            assert_eq!(number_of_setting(device, setting), refused(4, 0));
        }
        let last_ones = [
            literal(blocks - 1, 17, 4, 35),
            wire_and(blocks - 1, 35, blocks - 1, 17),
        ];
        for setting in last_ones {
            assert!(number_of_setting(device, setting).is_ok());
        }
    }
}

/// The printed values of a field, from the highest pattern down; "-" is unassigned.
fn printed_values(class: u32, group: &str, field: &str) -> &'static [&'static str] {
    match (group, field) {
        ("macrocell", name) if name.starts_with("ALLOC") => &["NONE", "SUM", "EXPORT", "SPECIAL"],
        (_, "IMPORT_UP_ALLOC" | "IMPORT_DOWN_ALLOC") => &["EXPORT", "SUM"],
        (_, "EXPORT_DIR") => &["UP", "DOWN"],
        (_, "IOB_OE_MUX") => &["GND", "OE_MUX", "VCC", "-"],
        (_, "OUT_MUX") => &["COMB", "FF"],
        (_, "OE_MUX") => &["PT", "FOE0", "FOE1", "FOE2", "FOE3", "-", "-", "-"],
        (_, "CLK_MUX") => &["FCLK1", "FCLK2", "FCLK0", "PT"],
        (_, "REG_MODE") => &["DFF", "TFF"],
        (_, "RST_MUX" | "SET_MUX") => &["PT", "FSR"],
        (_, "UIM_OE_MUX") => &["OE_MUX", "GND", "VCC", "-"],
        (_, "IOB_SLEW") => &["SLOW", "FAST"],
        (_, "FCLK[0].MUX") => &["NONE", "GCLK[1]", "GCLK[0]", "-"],
        (_, "FCLK[1].MUX") => &["NONE", "GCLK[2]", "GCLK[1]", "-"],
        (_, "FCLK[2].MUX") => &["NONE", "GCLK[0]", "GCLK[2]", "-"],
        (_, "FOE[0].MUX") => &["NONE", "GOE[1]", "GOE[0]", "-"],
        (_, "FOE[1].MUX") if class == SMALL => &["NONE", "GOE[0]", "GOE[1]", "-"],
        (_, "FOE[1].MUX") => &["NONE", "GOE[2]", "GOE[1]", "-"],
        (_, "FOE[2].MUX") => &["NONE", "GOE[3]", "GOE[2]", "-"],
        (_, "FOE[3].MUX") => &["NONE", "GOE[0]", "GOE[3]", "-"],
        _ => &["false", "true"],
    }
}

fn printed(value: Value) -> String {
    match value {
        Value::Flag(state) => state.to_string(),
        Value::Named(name) => value_name(name).to_string(),
        Value::Usercode(number) => format!("USERCODE {number}"),
        Value::Unassigned(_) => "-".to_string(),
    }
}

#[test]
fn each_pattern_is_the_printed_value_and_back() {
    let mut random = Random::new(11);
    for device in all_devices() {
        let count = setting_count(device).unwrap();
        // All numbers of the smallest device; elsewhere a sample and the whole tail.
        let mut numbers: Vec<u32> = (count.saturating_sub(4000)..count).collect();
        if device.blocks == 2 {
            numbers = (0..count).collect();
        } else {
            numbers.extend((0..2000).map(|_| random.below(u64::from(count)) as u32));
        }
        for number in numbers {
            let setting = setting_of_number(device, number).unwrap();
            let field = field_name(setting).unwrap_or("");
            if field == "USERCODE" {
                continue;
            }
            let expected = printed_values(device.class, group_name(setting), field);
            let width = setting_width(device, number).unwrap();
            assert_eq!(expected.len(), 1 << width);
            for pattern in 0..1 << width {
                let value = value_of_pattern(device, number, pattern).unwrap();
                assert_eq!(
                    printed(value),
                    expected[expected.len() - 1 - pattern as usize]
                );
                if let Value::Unassigned(carried) = value {
                    assert_eq!(carried, pattern);
                } else {
                    // Unassigned with a pattern that has a name.
                    assert_eq!(
                        pattern_of_value(device, number, Value::Unassigned(pattern)),
                        refused(5, 0)
                    );
                }
                assert_eq!(pattern_of_value(device, number, value), Ok(pattern));
            }
            for pattern in [1 << width, (1 << width) + 1, u32::MAX] {
                assert_eq!(value_of_pattern(device, number, pattern), refused(5, 0));
                assert_eq!(
                    pattern_of_value(device, number, Value::Unassigned(pattern)),
                    refused(5, 0)
                );
            }
            assert_eq!(
                pattern_of_value(device, number, Value::Usercode(1)),
                refused(5, 0)
            );
        }
    }
}

#[test]
fn usercode_pattern_is_the_complement() {
    let mut random = Random::new(12);
    for device in all_devices() {
        let setting = Setting::Global {
            field: GlobalField::Usercode,
        };
        let number = number_of_setting(device, setting).unwrap();
        let mut patterns = vec![0, 1, 0x8000_0000, u32::MAX];
        patterns.extend((0..100).map(|_| random.next_u64() as u32));
        for pattern in patterns {
            let value = Value::Usercode(u32::MAX - pattern);
            assert_eq!(value_of_pattern(device, number, pattern), Ok(value));
            assert_eq!(pattern_of_value(device, number, value), Ok(pattern));
            for other in [
                Value::Unassigned(pattern),
                Value::Flag(true),
                Value::Named(ValueName::None),
            ] {
                assert_eq!(pattern_of_value(device, number, other), refused(5, 0));
            }
        }
    }
}

#[test]
fn a_name_of_another_setting_is_refused_5() {
    let device = device(2, SMALL);
    let macrocell = |field| {
        number_of_setting(
            device,
            Setting::Macrocell {
                block: 1,
                macrocell: 5,
                field,
            },
        )
        .unwrap()
    };
    let table = [
        (macrocell(MacrocellField::OeMux), ValueName::Vcc),
        (macrocell(MacrocellField::Alloc2), ValueName::Pt),
        (macrocell(MacrocellField::Inv), ValueName::Sum),
        (macrocell(MacrocellField::IobSlew), ValueName::Ff),
    ];
    for (number, name) in table {
        assert_eq!(
            pattern_of_value(device, number, Value::Named(name)),
            refused(5, 0)
        );
    }
    for field in [MacrocellField::OeMux, MacrocellField::RegMode] {
        assert_eq!(
            pattern_of_value(device, macrocell(field), Value::Flag(true)),
            refused(5, 0)
        );
    }
    // GOE[2] is a value of FOE[1].MUX in the large class only.
    let setting = Setting::Global {
        field: GlobalField::Foe1Mux,
    };
    for (class, goe0, goe2) in [(SMALL, Ok(2), refused(5, 0)), (LARGE, refused(5, 0), Ok(2))] {
        let device = Device { blocks: 2, class };
        let number = number_of_setting(device, setting).unwrap();
        let pattern = |name| pattern_of_value(device, number, Value::Named(name));
        assert_eq!(pattern(ValueName::Goe0), goe0);
        assert_eq!(pattern(ValueName::Goe2), goe2);
    }
}
