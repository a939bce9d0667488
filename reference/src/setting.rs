// The named settings: their groups and fields, and the places of each.
// Orders and places follow the printed lists, one line for each entry.

use crate::device::{Device, LARGE};
use crate::layout::{Area, Place};

/// Which sense of an input a literal takes.
#[derive(Clone, Copy, Debug, PartialEq, Eq, Hash)]
pub enum Polarity {
    P,
    N,
}

/// The fields of a macrocell.
#[derive(Clone, Copy, Debug, PartialEq, Eq, Hash)]
pub enum MacrocellField {
    Alloc0,
    Alloc1,
    Alloc2,
    Alloc3,
    Alloc4,
    Inv,
    ImportUpAlloc,
    ImportDownAlloc,
    ExportDir,
    SumHp,
    IobOeMux,
    OeMux,
    OutMux,
    ClkMux,
    RegMode,
    RstMux,
    SetMux,
    Init,
    UimOeMux,
    UimOutInv,
    IobGnd,
    IobSlew,
    Hp0,
    Hp1,
    Hp2,
    Hp3,
    Hp4,
}

/// The macrocell fields in listing order.
pub const MACROCELL_FIELDS: [MacrocellField; 27] = [
    MacrocellField::Alloc0,
    MacrocellField::Alloc1,
    MacrocellField::Alloc2,
    MacrocellField::Alloc3,
    MacrocellField::Alloc4,
    MacrocellField::Inv,
    MacrocellField::ImportUpAlloc,
    MacrocellField::ImportDownAlloc,
    MacrocellField::ExportDir,
    MacrocellField::SumHp,
    MacrocellField::IobOeMux,
    MacrocellField::OeMux,
    MacrocellField::OutMux,
    MacrocellField::ClkMux,
    MacrocellField::RegMode,
    MacrocellField::RstMux,
    MacrocellField::SetMux,
    MacrocellField::Init,
    MacrocellField::UimOeMux,
    MacrocellField::UimOutInv,
    MacrocellField::IobGnd,
    MacrocellField::IobSlew,
    MacrocellField::Hp0,
    MacrocellField::Hp1,
    MacrocellField::Hp2,
    MacrocellField::Hp3,
    MacrocellField::Hp4,
];

/// The fields that every block has.
#[derive(Clone, Copy, Debug, PartialEq, Eq, Hash)]
pub enum BlockField {
    Enable,
    ExportEnable,
    PullupDisable,
    ReadProtA,
    ReadProtB,
    WriteProt,
}

/// The block fields in listing order.
pub const BLOCK_FIELDS: [BlockField; 6] = [
    BlockField::Enable,
    BlockField::ExportEnable,
    BlockField::PullupDisable,
    BlockField::ReadProtA,
    BlockField::ReadProtB,
    BlockField::WriteProt,
];

/// The fields of the whole device, kept in block 0.
#[derive(Clone, Copy, Debug, PartialEq, Eq, Hash)]
pub enum GlobalField {
    FsrInv,
    Fclk0Inv,
    Fclk1Inv,
    Fclk2Inv,
    Foe0Inv,
    Foe1Inv,
    Foe2Inv,
    Foe3Inv,
    Fclk0Mux,
    Fclk1Mux,
    Fclk2Mux,
    Foe0Mux,
    Foe1Mux,
    Foe2Mux,
    Foe3Mux,
    Usercode,
}

/// The global fields of the large class in listing order; the small class lacks FOE 2 and 3.
pub const GLOBAL_FIELDS: [GlobalField; 16] = [
    GlobalField::FsrInv,
    GlobalField::Fclk0Inv,
    GlobalField::Fclk1Inv,
    GlobalField::Fclk2Inv,
    GlobalField::Foe0Inv,
    GlobalField::Foe1Inv,
    GlobalField::Foe2Inv,
    GlobalField::Foe3Inv,
    GlobalField::Fclk0Mux,
    GlobalField::Fclk1Mux,
    GlobalField::Fclk2Mux,
    GlobalField::Foe0Mux,
    GlobalField::Foe1Mux,
    GlobalField::Foe2Mux,
    GlobalField::Foe3Mux,
    GlobalField::Usercode,
];

/// A setting: its group, its indices and, where the group has them, its field.
#[derive(Clone, Copy, Debug, PartialEq, Eq, Hash)]
pub enum Setting {
    Literal {
        block: u32,
        macrocell: u32,
        term: u32,
        input: u32,
        polarity: Polarity,
    },
    WireAnd {
        block: u32,
        input: u32,
        source: u32,
        macrocell: u32,
    },
    Macrocell {
        block: u32,
        macrocell: u32,
        field: MacrocellField,
    },
    Block {
        block: u32,
        field: BlockField,
    },
    Global {
        field: GlobalField,
    },
}

/// The printed name of a setting's group.
pub fn group_name(setting: Setting) -> &'static str {
    match setting {
        Setting::Literal { .. } => "literal",
        Setting::WireAnd { .. } => "wire-AND",
        Setting::Macrocell { .. } => "macrocell",
        Setting::Block { .. } => "block",
        Setting::Global { .. } => "global",
    }
}

/// The printed name of a setting's field; literals and wire-AND have indices only.
pub fn field_name(setting: Setting) -> Option<&'static str> {
    match setting {
        Setting::Literal { .. } | Setting::WireAnd { .. } => None,
        Setting::Macrocell { field, .. } => Some(match field {
            MacrocellField::Alloc0 => "ALLOC[0]",
            MacrocellField::Alloc1 => "ALLOC[1]",
            MacrocellField::Alloc2 => "ALLOC[2]",
            MacrocellField::Alloc3 => "ALLOC[3]",
            MacrocellField::Alloc4 => "ALLOC[4]",
            MacrocellField::Inv => "INV",
            MacrocellField::ImportUpAlloc => "IMPORT_UP_ALLOC",
            MacrocellField::ImportDownAlloc => "IMPORT_DOWN_ALLOC",
            MacrocellField::ExportDir => "EXPORT_DIR",
            MacrocellField::SumHp => "SUM_HP",
            MacrocellField::IobOeMux => "IOB_OE_MUX",
            MacrocellField::OeMux => "OE_MUX",
            MacrocellField::OutMux => "OUT_MUX",
            MacrocellField::ClkMux => "CLK_MUX",
            MacrocellField::RegMode => "REG_MODE",
            MacrocellField::RstMux => "RST_MUX",
            MacrocellField::SetMux => "SET_MUX",
            MacrocellField::Init => "INIT",
            MacrocellField::UimOeMux => "UIM_OE_MUX",
            MacrocellField::UimOutInv => "UIM_OUT_INV",
            MacrocellField::IobGnd => "IOB_GND",
            MacrocellField::IobSlew => "IOB_SLEW",
            MacrocellField::Hp0 => "HP[0]",
            MacrocellField::Hp1 => "HP[1]",
            MacrocellField::Hp2 => "HP[2]",
            MacrocellField::Hp3 => "HP[3]",
            MacrocellField::Hp4 => "HP[4]",
        }),
        Setting::Block { field, .. } => Some(match field {
            BlockField::Enable => "ENABLE",
            BlockField::ExportEnable => "EXPORT_ENABLE",
            BlockField::PullupDisable => "PULLUP_DISABLE",
            BlockField::ReadProtA => "READ_PROT_A",
            BlockField::ReadProtB => "READ_PROT_B",
            BlockField::WriteProt => "WRITE_PROT",
        }),
        Setting::Global { field } => Some(match field {
            GlobalField::FsrInv => "FSR_INV",
            GlobalField::Fclk0Inv => "FCLK[0].INV",
            GlobalField::Fclk1Inv => "FCLK[1].INV",
            GlobalField::Fclk2Inv => "FCLK[2].INV",
            GlobalField::Foe0Inv => "FOE[0].INV",
            GlobalField::Foe1Inv => "FOE[1].INV",
            GlobalField::Foe2Inv => "FOE[2].INV",
            GlobalField::Foe3Inv => "FOE[3].INV",
            GlobalField::Fclk0Mux => "FCLK[0].MUX",
            GlobalField::Fclk1Mux => "FCLK[1].MUX",
            GlobalField::Fclk2Mux => "FCLK[2].MUX",
            GlobalField::Foe0Mux => "FOE[0].MUX",
            GlobalField::Foe1Mux => "FOE[1].MUX",
            GlobalField::Foe2Mux => "FOE[2].MUX",
            GlobalField::Foe3Mux => "FOE[3].MUX",
            GlobalField::Usercode => "USERCODE",
        }),
    }
}

/// The rows of a macrocell field, lowest bit first.
fn macrocell_rows(field: MacrocellField) -> &'static [u32] {
    match field {
        MacrocellField::Alloc0 => &[12, 13],
        MacrocellField::Alloc1 => &[14, 15],
        MacrocellField::Alloc2 => &[16, 17],
        MacrocellField::Alloc3 => &[18, 19],
        MacrocellField::Alloc4 => &[20, 21],
        MacrocellField::Inv => &[22],
        MacrocellField::ImportUpAlloc => &[23],
        MacrocellField::ImportDownAlloc => &[24],
        MacrocellField::ExportDir => &[25],
        MacrocellField::SumHp => &[26],
        MacrocellField::IobOeMux => &[27, 28],
        MacrocellField::OeMux => &[29, 30, 31],
        MacrocellField::OutMux => &[35],
        MacrocellField::ClkMux => &[36, 37],
        MacrocellField::RegMode => &[40],
        MacrocellField::RstMux => &[41],
        MacrocellField::SetMux => &[42],
        MacrocellField::Init => &[43],
        MacrocellField::UimOeMux => &[44, 45],
        MacrocellField::UimOutInv => &[46],
        MacrocellField::IobGnd => &[48],
        MacrocellField::IobSlew => &[49],
        MacrocellField::Hp0 => &[50],
        MacrocellField::Hp1 => &[51],
        MacrocellField::Hp2 => &[52],
        MacrocellField::Hp3 => &[53],
        MacrocellField::Hp4 => &[54],
    }
}

/// Row, column and bit of a block field.
fn block_position(field: BlockField) -> (u32, u32, u32) {
    match field {
        BlockField::Enable => (67, 0, 6),
        BlockField::ExportEnable => (67, 1, 6),
        BlockField::PullupDisable => (68, 6, 6),
        BlockField::ReadProtA => (11, 3, 6),
        BlockField::ReadProtB => (68, 3, 6),
        BlockField::WriteProt => (68, 0, 6),
    }
}

/// Rows, columns and bits of a global field, lowest bit first.
fn global_positions(field: GlobalField) -> Vec<(u32, u32, u32)> {
    match field {
        GlobalField::FsrInv => vec![(0, 1, 6)],
        GlobalField::Fclk0Inv => vec![(0, 2, 6)],
        GlobalField::Fclk1Inv => vec![(0, 3, 6)],
        GlobalField::Fclk2Inv => vec![(0, 4, 6)],
        GlobalField::Foe0Inv => vec![(0, 5, 6)],
        GlobalField::Foe1Inv => vec![(0, 6, 6)],
        GlobalField::Foe2Inv => vec![(0, 7, 6)],
        GlobalField::Foe3Inv => vec![(0, 8, 6)],
        GlobalField::Fclk0Mux => vec![(3, 2, 6), (4, 2, 6)],
        GlobalField::Fclk1Mux => vec![(3, 3, 6), (4, 3, 6)],
        GlobalField::Fclk2Mux => vec![(3, 4, 6), (4, 4, 6)],
        GlobalField::Foe0Mux => vec![(3, 5, 6), (4, 5, 6)],
        GlobalField::Foe1Mux => vec![(3, 6, 6), (4, 6, 6)],
        GlobalField::Foe2Mux => vec![(3, 7, 6), (4, 7, 6)],
        GlobalField::Foe3Mux => vec![(3, 8, 6), (4, 8, 6)],
        GlobalField::Usercode => {
            let mut positions = vec![(0, 0, 0); 32];
            for i in 0..8 {
                for b in 6..=7 {
                    positions[(16 + 2 * (7 - i) + (b - 6)) as usize] = (6, i, b);
                    positions[(2 * (7 - i) + (b - 6)) as usize] = (7, i, b);
                }
            }
            positions
        }
    }
}

/// The places of a setting that exists on some device, lowest bit first.
pub(crate) fn places(setting: Setting) -> Vec<Place> {
    match setting {
        Setting::Literal {
            block,
            macrocell,
            term,
            input,
            polarity,
        } => vec![Place {
            block,
            area: Area::Main,
            row: match polarity {
                Polarity::P => 2 * input + 1,
                Polarity::N => 2 * input,
            },
            column: term + 5 * (macrocell % 3),
            bit: macrocell / 3,
        }],
        Setting::WireAnd {
            block,
            input,
            source,
            macrocell,
        } => vec![Place {
            block,
            area: Area::WireAnd { subarea: source },
            row: macrocell,
            column: input % 5,
            bit: input / 5,
        }],
        Setting::Macrocell {
            block,
            macrocell,
            field,
        } => macrocell_rows(field)
            .iter()
            .map(|row| Place {
                block,
                area: Area::Main,
                row: *row,
                column: macrocell % 9,
                bit: 6 + macrocell / 9,
            })
            .collect(),
        Setting::Block { block, field } => {
            let (row, column, bit) = block_position(field);
            vec![Place {
                block,
                area: Area::Main,
                row,
                column,
                bit,
            }]
        }
        Setting::Global { field } => global_positions(field)
            .into_iter()
            .map(|(row, column, bit)| Place {
                block: 0,
                area: Area::Main,
                row,
                column,
                bit,
            })
            .collect(),
    }
}

/// True if a global field exists on a device of this class.
fn global_field_exists(device: Device, field: GlobalField) -> bool {
    match field {
        GlobalField::Foe2Inv
        | GlobalField::Foe3Inv
        | GlobalField::Foe2Mux
        | GlobalField::Foe3Mux => device.class == LARGE,
        _ => true,
    }
}

/// Every setting of a known device, in the order that numbers them.
pub(crate) fn every_setting(device: Device) -> Vec<Setting> {
    let mut settings = Vec::new();
    for block in 0..device.blocks {
        for macrocell in 0..18 {
            for term in 0..5 {
                for input in 0..36 {
                    for polarity in [Polarity::P, Polarity::N] {
                        settings.push(Setting::Literal {
                            block,
                            macrocell,
                            term,
                            input,
                            polarity,
                        });
                    }
                }
            }
        }
    }
    for block in 0..device.blocks {
        for input in 0..36 {
            for source in 0..device.blocks {
                for macrocell in 0..18 {
                    settings.push(Setting::WireAnd {
                        block,
                        input,
                        source,
                        macrocell,
                    });
                }
            }
        }
    }
    for block in 0..device.blocks {
        for macrocell in 0..18 {
            for field in MACROCELL_FIELDS {
                settings.push(Setting::Macrocell {
                    block,
                    macrocell,
                    field,
                });
            }
        }
    }
    for block in 0..device.blocks {
        for field in BLOCK_FIELDS {
            settings.push(Setting::Block { block, field });
        }
    }
    for field in GLOBAL_FIELDS {
        if global_field_exists(device, field) {
            settings.push(Setting::Global { field });
        }
    }
    settings
}
