// The values of a setting and their patterns.
// Patterns are written as printed, highest bit left, and each pattern is exactly one value.

use crate::catalogue::{Catalogue, Entry};
use crate::device::{refuse, Answer, Device, SMALL};
use crate::setting::{GlobalField, MacrocellField, Setting};

/// The names in the assignment lists.
#[derive(Clone, Copy, Debug, PartialEq, Eq, Hash)]
pub enum ValueName {
    None,
    Sum,
    Export,
    Special,
    Up,
    Down,
    Gnd,
    OeMux,
    Vcc,
    Comb,
    Ff,
    Pt,
    Foe0,
    Foe1,
    Foe2,
    Foe3,
    Fclk0,
    Fclk1,
    Fclk2,
    Dff,
    Tff,
    Fsr,
    Slow,
    Fast,
    Gclk0,
    Gclk1,
    Gclk2,
    Goe0,
    Goe1,
    Goe2,
    Goe3,
}

/// A value of a setting.
#[derive(Clone, Copy, Debug, PartialEq, Eq, Hash)]
pub enum Value {
    /// A one-bit setting without names; true is the fuse at 0.
    Flag(bool),
    /// A pattern that an assignment list names.
    Named(ValueName),
    /// The 32-bit number of USERCODE, stored inverted.
    Usercode(u32),
    /// A pattern that the assignment list leaves out.
    Unassigned(u32),
}

/// The printed name of a value name.
pub fn value_name(name: ValueName) -> &'static str {
    match name {
        ValueName::None => "NONE",
        ValueName::Sum => "SUM",
        ValueName::Export => "EXPORT",
        ValueName::Special => "SPECIAL",
        ValueName::Up => "UP",
        ValueName::Down => "DOWN",
        ValueName::Gnd => "GND",
        ValueName::OeMux => "OE_MUX",
        ValueName::Vcc => "VCC",
        ValueName::Comb => "COMB",
        ValueName::Ff => "FF",
        ValueName::Pt => "PT",
        ValueName::Foe0 => "FOE0",
        ValueName::Foe1 => "FOE1",
        ValueName::Foe2 => "FOE2",
        ValueName::Foe3 => "FOE3",
        ValueName::Fclk0 => "FCLK0",
        ValueName::Fclk1 => "FCLK1",
        ValueName::Fclk2 => "FCLK2",
        ValueName::Dff => "DFF",
        ValueName::Tff => "TFF",
        ValueName::Fsr => "FSR",
        ValueName::Slow => "SLOW",
        ValueName::Fast => "FAST",
        ValueName::Gclk0 => "GCLK[0]",
        ValueName::Gclk1 => "GCLK[1]",
        ValueName::Gclk2 => "GCLK[2]",
        ValueName::Goe0 => "GOE[0]",
        ValueName::Goe1 => "GOE[1]",
        ValueName::Goe2 => "GOE[2]",
        ValueName::Goe3 => "GOE[3]",
    }
}

type Assignments = &'static [(&'static str, Value)];

const FLAG: Assignments = &[("1", Value::Flag(false)), ("0", Value::Flag(true))];

const ALLOC: Assignments = &[
    ("11", Value::Named(ValueName::None)),
    ("10", Value::Named(ValueName::Sum)),
    ("01", Value::Named(ValueName::Export)),
    ("00", Value::Named(ValueName::Special)),
];

const IMPORT_ALLOC: Assignments = &[
    ("1", Value::Named(ValueName::Export)),
    ("0", Value::Named(ValueName::Sum)),
];

const EXPORT_DIR: Assignments = &[
    ("1", Value::Named(ValueName::Up)),
    ("0", Value::Named(ValueName::Down)),
];

const IOB_OE_MUX: Assignments = &[
    ("11", Value::Named(ValueName::Gnd)),
    ("10", Value::Named(ValueName::OeMux)),
    ("01", Value::Named(ValueName::Vcc)),
];

const OUT_MUX: Assignments = &[
    ("1", Value::Named(ValueName::Comb)),
    ("0", Value::Named(ValueName::Ff)),
];

const OE_MUX: Assignments = &[
    ("111", Value::Named(ValueName::Pt)),
    ("110", Value::Named(ValueName::Foe0)),
    ("101", Value::Named(ValueName::Foe1)),
    ("100", Value::Named(ValueName::Foe2)),
    ("011", Value::Named(ValueName::Foe3)),
];

const CLK_MUX: Assignments = &[
    ("11", Value::Named(ValueName::Fclk1)),
    ("10", Value::Named(ValueName::Fclk2)),
    ("01", Value::Named(ValueName::Fclk0)),
    ("00", Value::Named(ValueName::Pt)),
];

const REG_MODE: Assignments = &[
    ("1", Value::Named(ValueName::Dff)),
    ("0", Value::Named(ValueName::Tff)),
];

const RST_SET_MUX: Assignments = &[
    ("1", Value::Named(ValueName::Pt)),
    ("0", Value::Named(ValueName::Fsr)),
];

const UIM_OE_MUX: Assignments = &[
    ("11", Value::Named(ValueName::OeMux)),
    ("10", Value::Named(ValueName::Gnd)),
    ("01", Value::Named(ValueName::Vcc)),
];

const IOB_SLEW: Assignments = &[
    ("1", Value::Named(ValueName::Slow)),
    ("0", Value::Named(ValueName::Fast)),
];

const FCLK0_MUX: Assignments = &[
    ("11", Value::Named(ValueName::None)),
    ("10", Value::Named(ValueName::Gclk1)),
    ("01", Value::Named(ValueName::Gclk0)),
];

const FCLK1_MUX: Assignments = &[
    ("11", Value::Named(ValueName::None)),
    ("10", Value::Named(ValueName::Gclk2)),
    ("01", Value::Named(ValueName::Gclk1)),
];

const FCLK2_MUX: Assignments = &[
    ("11", Value::Named(ValueName::None)),
    ("10", Value::Named(ValueName::Gclk0)),
    ("01", Value::Named(ValueName::Gclk2)),
];

const FOE0_MUX: Assignments = &[
    ("11", Value::Named(ValueName::None)),
    ("10", Value::Named(ValueName::Goe1)),
    ("01", Value::Named(ValueName::Goe0)),
];

const FOE1_MUX_SMALL: Assignments = &[
    ("11", Value::Named(ValueName::None)),
    ("10", Value::Named(ValueName::Goe0)),
    ("01", Value::Named(ValueName::Goe1)),
];

const FOE1_MUX_LARGE: Assignments = &[
    ("11", Value::Named(ValueName::None)),
    ("10", Value::Named(ValueName::Goe2)),
    ("01", Value::Named(ValueName::Goe1)),
];

const FOE2_MUX: Assignments = &[
    ("11", Value::Named(ValueName::None)),
    ("10", Value::Named(ValueName::Goe3)),
    ("01", Value::Named(ValueName::Goe2)),
];

const FOE3_MUX: Assignments = &[
    ("11", Value::Named(ValueName::None)),
    ("10", Value::Named(ValueName::Goe0)),
    ("01", Value::Named(ValueName::Goe3)),
];

/// The assignment list of a setting; None for USERCODE, whose values are numbers.
fn assignments(device: Device, setting: Setting) -> Option<Assignments> {
    match setting {
        Setting::Literal { .. } | Setting::WireAnd { .. } | Setting::Block { .. } => Some(FLAG),
        Setting::Macrocell { field, .. } => Some(match field {
            MacrocellField::Alloc0
            | MacrocellField::Alloc1
            | MacrocellField::Alloc2
            | MacrocellField::Alloc3
            | MacrocellField::Alloc4 => ALLOC,
            MacrocellField::ImportUpAlloc | MacrocellField::ImportDownAlloc => IMPORT_ALLOC,
            MacrocellField::ExportDir => EXPORT_DIR,
            MacrocellField::IobOeMux => IOB_OE_MUX,
            MacrocellField::OeMux => OE_MUX,
            MacrocellField::OutMux => OUT_MUX,
            MacrocellField::ClkMux => CLK_MUX,
            MacrocellField::RegMode => REG_MODE,
            MacrocellField::RstMux | MacrocellField::SetMux => RST_SET_MUX,
            MacrocellField::UimOeMux => UIM_OE_MUX,
            MacrocellField::IobSlew => IOB_SLEW,
            MacrocellField::Inv
            | MacrocellField::SumHp
            | MacrocellField::Init
            | MacrocellField::UimOutInv
            | MacrocellField::IobGnd
            | MacrocellField::Hp0
            | MacrocellField::Hp1
            | MacrocellField::Hp2
            | MacrocellField::Hp3
            | MacrocellField::Hp4 => FLAG,
        }),
        Setting::Global { field } => match field {
            GlobalField::FsrInv
            | GlobalField::Fclk0Inv
            | GlobalField::Fclk1Inv
            | GlobalField::Fclk2Inv
            | GlobalField::Foe0Inv
            | GlobalField::Foe1Inv
            | GlobalField::Foe2Inv
            | GlobalField::Foe3Inv => Some(FLAG),
            GlobalField::Fclk0Mux => Some(FCLK0_MUX),
            GlobalField::Fclk1Mux => Some(FCLK1_MUX),
            GlobalField::Fclk2Mux => Some(FCLK2_MUX),
            GlobalField::Foe0Mux => Some(FOE0_MUX),
            GlobalField::Foe1Mux => Some(if device.class == SMALL {
                FOE1_MUX_SMALL
            } else {
                FOE1_MUX_LARGE
            }),
            GlobalField::Foe2Mux => Some(FOE2_MUX),
            GlobalField::Foe3Mux => Some(FOE3_MUX),
            GlobalField::Usercode => None,
        },
    }
}

/// A pattern as a number: the leftmost printed digit is the highest bit.
fn number_of_printed(printed: &str) -> u32 {
    let mut number = 0;
    for digit in printed.chars() {
        number = 2 * number + u32::from(digit == '1');
    }
    number
}

/// Refusal 5 if a pattern has a bit at or above the width of its setting.
pub(crate) fn check_pattern(entry: &Entry, pattern: u32) -> Answer<()> {
    if u64::from(pattern) < 2u64.pow(entry.width()) {
        Ok(())
    } else {
        refuse(5, 0)
    }
}

/// The value of a pattern of a listed setting.
pub(crate) fn value_in_entry(device: Device, entry: &Entry, pattern: u32) -> Answer<Value> {
    check_pattern(entry, pattern)?;
    match assignments(device, entry.setting) {
        None => Ok(Value::Usercode(!pattern)),
        Some(list) => {
            for (printed, value) in list {
                if number_of_printed(printed) == pattern {
                    return Ok(*value);
                }
            }
            Ok(Value::Unassigned(pattern))
        }
    }
}

/// The pattern of a value of a listed setting; refusal 5 if no pattern has that value.
pub(crate) fn pattern_in_entry(device: Device, entry: &Entry, value: Value) -> Answer<u32> {
    if assignments(device, entry.setting).is_none() {
        return match value {
            Value::Usercode(number) => Ok(!number),
            _ => refuse(5, 0),
        };
    }
    for pattern in 0..2u32.pow(entry.width()) {
        if value_in_entry(device, entry, pattern)? == value {
            return Ok(pattern);
        }
    }
    refuse(5, 0)
}

/// The value that a pattern of a setting stands for.
pub fn value_of_pattern(device: Device, setting: u32, pattern: u32) -> Answer<Value> {
    let entry = Catalogue::of(device)?.entry(setting)?;
    value_in_entry(device, entry, pattern)
}

/// The pattern that stands for a value of a setting.
pub fn pattern_of_value(device: Device, setting: u32, value: Value) -> Answer<u32> {
    let entry = Catalogue::of(device)?.entry(setting)?;
    pattern_in_entry(device, entry, value)
}
