// What the vectors program of the settings prints: numbers, fuses, addresses and values, from the lists.
// A value is one number there: its kind and its printed name, flag, number or pattern.

use crate::catalogue::{
    locate_bit, number_of_setting, setting_at_fuse, setting_count, setting_of_number,
    setting_width, LocatedFuse,
};
use crate::device::{refuse, Answer, Device, LARGE, SMALL};
use crate::image::fuse_count;
use crate::setting::{
    field_name, BlockField, GlobalField, MacrocellField, Polarity, Setting, BLOCK_FIELDS,
    GLOBAL_FIELDS, MACROCELL_FIELDS,
};
use crate::value::{pattern_of_value, value_name, value_of_pattern, Value, ValueName};
use crate::vectors::{devices_and_others, halves, word, Digest};
use std::fmt::Write;

/// The word where a setting has no such bit, and where no setting has the fuse.
const NONE: u64 = (1 << 56) - 1;

/// The printed names of all values; a name's number is its position.
const NAMES: [&str; 31] = [
    "NONE", "SUM", "EXPORT", "SPECIAL", "UP", "DOWN", "GND", "OE_MUX", "VCC", "COMB", "FF", "PT",
    "FOE0", "FOE1", "FOE2", "FOE3", "FCLK0", "FCLK1", "FCLK2", "DFF", "TFF", "FSR", "SLOW", "FAST",
    "GCLK[0]", "GCLK[1]", "GCLK[2]", "GOE[0]", "GOE[1]", "GOE[2]", "GOE[3]",
];

/// The position of the one item of a list that is this one.
fn position<T: PartialEq>(list: &[T], item: T) -> u64 {
    let found = list.iter().position(|listed| *listed == item);
    found.expect("the list has the item") as u64
}

fn number_of_value(value: Value) -> u64 {
    match value {
        Value::Flag(state) => 1000 + u64::from(state),
        Value::Named(name) => 2000 + position(&NAMES, value_name(name)),
        Value::Usercode(number) => 3000 + u64::from(number),
        Value::Unassigned(pattern) => (1 << 33) + u64::from(pattern),
    }
}

fn word_of_number(answer: Answer<u32>) -> u64 {
    word(answer.map(u64::from))
}

/// Fuse, address and bit in one word, as the C interface gives them.
fn word_of_bit(answer: Answer<Option<LocatedFuse>>) -> u64 {
    word(answer.map(|located| located.map_or(NONE, LocatedFuse::word)))
}

fn word_at_fuse(device: Device, fuse: u32) -> u64 {
    let named = setting_at_fuse(device, fuse);
    word(named.map(|named| named.map_or(NONE, |(s, bit)| u64::from(s) * 32 + u64::from(bit))))
}

/// A setting as six numbers: group, block, macrocell, term or source block, input, and polarity or
/// field; 0 where it has none.
fn description(setting: Setting) -> [u64; 6] {
    match setting {
        Setting::Literal {
            block,
            macrocell,
            term,
            input,
            polarity,
        } => {
            let [block, macrocell, term, input] = [block, macrocell, term, input].map(u64::from);
            let polarity = position(&[Polarity::P, Polarity::N], polarity);
            [0, block, macrocell, term, input, polarity]
        }
        Setting::WireAnd {
            block,
            input,
            source,
            macrocell,
        } => [1, block, macrocell, source, input, 0].map(u64::from),
        Setting::Macrocell {
            block,
            macrocell,
            field,
        } => {
            let field = position(&MACROCELL_FIELDS, field);
            [2, block.into(), macrocell.into(), 0, 0, field]
        }
        Setting::Block { block, field } => {
            [3, block.into(), 0, 0, 0, position(&BLOCK_FIELDS, field)]
        }
        Setting::Global { field } => [4, 0, 0, 0, 0, position(&GLOBAL_FIELDS, field)],
    }
}

/// Every pattern of a setting with few bits and the first that does not fit; five of USERCODE's.
fn patterns_to_try(width: u32) -> Vec<u32> {
    if width <= 3 {
        (0..=1 << width).collect()
    } else {
        vec![0, 1, 0x8000_0000, 0xFFFF_FFFF, 0x1234_5678]
    }
}

/// Takes in all that is known of one setting: what it is, its fuses with their addresses, its values.
fn take_in_setting(digest: &mut Digest, device: Device, number: u32) -> Answer<()> {
    let setting = setting_of_number(device, number)?;
    digest.take_in(word_of_number(number_of_setting(device, setting)));
    for word in description(setting) {
        digest.take_in(word);
    }
    let width = setting_width(device, number)?;
    digest.take_in(u64::from(width));
    for bit in 0..=width {
        digest.take_in(word_of_bit(locate_bit(device, number, bit)));
    }
    for pattern in patterns_to_try(width) {
        match value_of_pattern(device, number, pattern) {
            Ok(value) => {
                digest.take_in(number_of_value(value));
                digest.take_in(word_of_number(pattern_of_value(device, number, value)));
            }
            refused => digest.take_in(word(refused.map(number_of_value))),
        }
    }
    Ok(())
}

/// All settings, and the number after the last.
fn settings_digest(device: Device) -> u64 {
    let mut digest = Digest::new();
    for number in 0..=setting_count(device).unwrap_or(0) {
        if let Err(refusal) = take_in_setting(&mut digest, device, number) {
            digest.take_in(word(Err(refusal)));
        }
    }
    digest.value
}

/// The way back from all fuses and from the number after the last, and how many are unnamed.
fn fuses_digest(device: Device) -> (u64, u32) {
    let mut digest = Digest::new();
    let mut unnamed = 0;
    for fuse in 0..=fuse_count(device).unwrap_or(0) {
        let word = word_at_fuse(device, fuse);
        digest.take_in(word);
        unnamed += u32::from(word == NONE);
    }
    (digest.value, unnamed)
}

/// The part whose settings have every field and every value, with two blocks.
const SAMPLE: Device = Device {
    blocks: 2,
    class: LARGE,
};

/// The fields of its last macrocell, of its two blocks and of the whole part.
fn sample() -> Vec<Setting> {
    let count = setting_count(SAMPLE).unwrap();
    (count - 27 - 2 * 6 - 16..count)
        .map(|number| setting_of_number(SAMPLE, number).unwrap())
        .collect()
}

/// Which settings have the same names; a name that two lists share is a value of each on its own.
fn list_of_names(setting: Setting) -> &'static str {
    match setting {
        Setting::Literal { .. } | Setting::WireAnd { .. } | Setting::Block { .. } => "",
        Setting::Macrocell { field, .. } => match field {
            MacrocellField::Alloc0
            | MacrocellField::Alloc1
            | MacrocellField::Alloc2
            | MacrocellField::Alloc3
            | MacrocellField::Alloc4 => "ALLOC",
            MacrocellField::ImportUpAlloc | MacrocellField::ImportDownAlloc => "IMPORT_ALLOC",
            MacrocellField::RstMux | MacrocellField::SetMux => "RST_SET_MUX",
            _ => field_name(setting).unwrap_or(""),
        },
        Setting::Global { field } => match field {
            GlobalField::Fclk0Mux | GlobalField::Fclk1Mux | GlobalField::Fclk2Mux => "FCLK.MUX",
            GlobalField::Foe0Mux
            | GlobalField::Foe1Mux
            | GlobalField::Foe2Mux
            | GlobalField::Foe3Mux => "FOE.MUX",
            _ => "",
        },
    }
}

/// The pattern of a value that stands in the list of `source`, offered to another setting.
fn pattern_of_offer(
    device: Device,
    setting: Setting,
    value: Value,
    source: Setting,
) -> Answer<u32> {
    let number = number_of_setting(device, setting)?;
    match value {
        Value::Named(_) if list_of_names(source) != list_of_names(setting) => refuse(5, 0),
        _ => pattern_of_value(device, number, value),
    }
}

/// Each value of each setting of the sample, offered to each; then patterns as "unassigned".
fn offers_digest(device: Device, sample: &[Setting]) -> u64 {
    let mut digest = Digest::new();
    let mut offer = |value: Value, source: Setting| {
        for setting in sample {
            let pattern = pattern_of_offer(device, *setting, value, source);
            digest.take_in(word_of_number(pattern));
        }
    };
    for source in sample {
        let number = number_of_setting(SAMPLE, *source).unwrap();
        for pattern in patterns_to_try(setting_width(SAMPLE, number).unwrap()) {
            if let Ok(value) = value_of_pattern(SAMPLE, number, pattern) {
                offer(value, *source);
            }
        }
    }
    for pattern in (0..=8).chain([u32::MAX]) {
        offer(Value::Unassigned(pattern), sample[0]);
    }
    digest.value
}

/// One past each index, or any numbers past them.
struct Past {
    block: u32,
    macrocell: u32,
    term: u32,
    input: u32,
    clock: u32,
    enable: u32,
}

/// The settings that have one index of these and else 0; None where not even a name is left.
fn settings_past(past: Past) -> Vec<Option<Setting>> {
    let literal = |block, macrocell, term, input| Setting::Literal {
        block,
        macrocell,
        term,
        input,
        polarity: Polarity::P,
    };
    let wire_and = |block, input, source, macrocell| Setting::WireAnd {
        block,
        input,
        source,
        macrocell,
    };
    let macrocell = |block, macrocell, field| Setting::Macrocell {
        block,
        macrocell,
        field,
    };
    let in_macrocell = |name: String| {
        let settings = MACROCELL_FIELDS.map(|field| macrocell(0, 0, field));
        settings.into_iter().find(|s| field_name(*s) == Some(&name))
    };
    let global = |name: String| {
        let settings = GLOBAL_FIELDS.map(|field| Setting::Global { field });
        settings.into_iter().find(|s| field_name(*s) == Some(&name))
    };
    let inv = MacrocellField::Inv;
    vec![
        Some(literal(past.block, 0, 0, 0)),
        Some(literal(0, past.macrocell, 0, 0)),
        Some(literal(0, 0, past.term, 0)),
        Some(literal(0, 0, 0, past.input)),
        Some(wire_and(past.block, 0, 0, 0)),
        Some(wire_and(0, past.input, 0, 0)),
        Some(wire_and(0, 0, past.block, 0)),
        Some(wire_and(0, 0, 0, past.macrocell)),
        Some(macrocell(past.block, 0, inv)),
        Some(macrocell(0, past.macrocell, inv)),
        in_macrocell(format!("ALLOC[{}]", past.term)),
        in_macrocell(format!("HP[{}]", past.term)),
        Some(Setting::Block {
            block: past.block,
            field: BlockField::Enable,
        }),
        global(format!("FCLK[{}].INV", past.clock)),
        global(format!("FOE[{}].INV", past.enable)),
        global(format!("FCLK[{}].MUX", past.clock)),
        global(format!("FOE[{}].MUX", past.enable)),
    ]
}

fn number_of_any(device: Device, setting: Option<Setting>) -> Answer<u32> {
    setting_count(device)?;
    match setting {
        Some(setting) => number_of_setting(device, setting),
        None => refuse(4, 0),
    }
}

/// Settings that no device has, asked for number, width, fuse with address, value and pattern.
fn past_digest(device: Device) -> u64 {
    let just_past = Past {
        block: device.blocks,
        macrocell: 18,
        term: 5,
        input: 36,
        clock: 3,
        enable: if device.class == SMALL { 2 } else { 4 },
    };
    let far_past = Past {
        block: u32::MAX,
        macrocell: u32::MAX,
        term: u32::MAX,
        input: u32::MAX,
        clock: u32::MAX,
        enable: u32::MAX,
    };
    let mut digest = Digest::new();
    for past in [just_past, far_past] {
        for setting in settings_past(past) {
            let number = number_of_any(device, setting);
            let width = number.and_then(|number| setting_width(device, number));
            let located = number.and_then(|number| locate_bit(device, number, 0));
            let value = number.and_then(|number| value_of_pattern(device, number, 0));
            let flag = Value::Flag(true);
            let pattern = number.and_then(|number| pattern_of_value(device, number, flag));
            digest.take_in(word_of_number(number));
            digest.take_in(word_of_number(width));
            digest.take_in(word_of_bit(located));
            digest.take_in(word(value.map(number_of_value)));
            digest.take_in(word_of_number(pattern));
        }
    }
    digest.value
}

/// Number, fuse, address and bit of a bit of a setting of document 01's cases, and the way back from
/// the fuse.
fn document_case(device: Device, name: &str, setting: Setting, bit: u32) -> Answer<String> {
    let number = number_of_setting(device, setting)?;
    let located = locate_bit(device, number, bit)?.expect("the setting has the bit");
    let LocatedFuse { fuse, address, .. } = located;
    let back = word_at_fuse(device, fuse);
    Ok(format!(
        "{name} bit {bit} number {number} fuse {fuse} address {address} bit {} back {back}",
        located.bit
    ))
}

fn document_cases() -> Answer<Vec<String>> {
    let smallest = Device {
        blocks: 2,
        class: SMALL,
    };
    let literal = |polarity| Setting::Literal {
        block: 0,
        macrocell: 4,
        term: 2,
        input: 7,
        polarity,
    };
    let wire_and = Setting::WireAnd {
        block: 0,
        input: 7,
        source: 1,
        macrocell: 3,
    };
    let macrocell = |macrocell, field| Setting::Macrocell {
        block: 0,
        macrocell,
        field,
    };
    let oe_mux = macrocell(0, MacrocellField::OeMux);
    let usercode = Setting::Global {
        field: GlobalField::Usercode,
    };
    let mut lines = Vec::new();
    for (name, setting, bit) in [
        ("literal P", literal(Polarity::P), 0),
        ("literal N", literal(Polarity::N), 0),
        ("wire-AND", wire_and, 0),
        ("INV", macrocell(10, MacrocellField::Inv), 0),
        ("USERCODE", usercode, 0),
        ("USERCODE", usercode, 31),
        ("OE_MUX", oe_mux, 0),
        ("OE_MUX", oe_mux, 1),
        ("OE_MUX", oe_mux, 2),
    ] {
        lines.push(document_case(smallest, name, setting, bit)?);
    }
    // All ones is PT, and FOE2 has a pattern.
    let number = number_of_setting(smallest, oe_mux)?;
    let value = number_of_value(value_of_pattern(smallest, number, 7)?);
    lines.push(format!("OE_MUX pattern 7 value {value}"));
    let pattern = pattern_of_value(smallest, number, Value::Named(ValueName::Foe2))?;
    lines.push(format!("OE_MUX FOE2 pattern {pattern}"));
    Ok(lines)
}

/// Document 01's cases, then for each device the count of settings and digests over them.
pub(crate) fn settings_vectors() -> String {
    let mut lines = String::new();
    for line in document_cases().expect("the smallest part has these settings") {
        writeln!(lines, "{line}").unwrap();
    }
    let sample = sample();
    for device in devices_and_others() {
        let Device { blocks, class } = device;
        let count = halves(word_of_number(setting_count(device)));
        let (fuses, unnamed) = fuses_digest(device);
        writeln!(
            lines,
            "blocks {blocks} class {class} {count} settings {} fuses {fuses} unnamed {unnamed} \
             offers {} past {}",
            settings_digest(device),
            offers_digest(device, &sample),
            past_digest(device),
        )
        .unwrap();
    }
    lines
}
