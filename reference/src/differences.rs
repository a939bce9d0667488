// The fuses in which two images of one device differ, as text, and the names that fuses have there.
// Every fuse is looked at on its own; its name comes from the list of settings.

use crate::catalogue::{setting_at_fuse, setting_of_number, setting_width};
use crate::device::{refuse, Answer, Device};
use crate::layout::{fuse_state, Layout};
use crate::setting::{field_name, MacrocellField, Polarity, Setting};

/// The name of a macrocell's field; ALLOC and HP have their term before it.
fn name_in_macrocell(setting: Setting, field: MacrocellField) -> Option<&'static str> {
    match field {
        MacrocellField::Alloc0 => Some("PT0 ALLOC"),
        MacrocellField::Alloc1 => Some("PT1 ALLOC"),
        MacrocellField::Alloc2 => Some("PT2 ALLOC"),
        MacrocellField::Alloc3 => Some("PT3 ALLOC"),
        MacrocellField::Alloc4 => Some("PT4 ALLOC"),
        MacrocellField::Hp0 => Some("PT0 HP"),
        MacrocellField::Hp1 => Some("PT1 HP"),
        MacrocellField::Hp2 => Some("PT2 HP"),
        MacrocellField::Hp3 => Some("PT3 HP"),
        MacrocellField::Hp4 => Some("PT4 HP"),
        _ => field_name(setting),
    }
}

/// The name of a setting, without a bit.
pub fn name_of_setting(device: Device, number: u32) -> Answer<String> {
    let setting = setting_of_number(device, number)?;
    let field = match setting {
        Setting::Macrocell { field, .. } => name_in_macrocell(setting, field),
        _ => field_name(setting),
    };
    let field = field.unwrap_or("");
    Ok(match setting {
        Setting::Literal {
            block,
            macrocell,
            term,
            input,
            polarity,
        } => {
            let polarity = match polarity {
                Polarity::P => "P",
                Polarity::N => "N",
            };
            format!("FB{block} MC{macrocell} PT{term} IM{input} {polarity}")
        }
        Setting::WireAnd {
            block,
            input,
            source,
            macrocell,
        } => format!("FB{block} IM{input} UIM FB{source} MC{macrocell}"),
        Setting::Macrocell {
            block, macrocell, ..
        } => format!("FB{block} MC{macrocell} {field}"),
        Setting::Block { block, .. } => format!("FB{block} {field}"),
        Setting::Global { .. } => field.to_string(),
    })
}

/// The name of one bit of a setting; None if the setting has no such bit.
pub fn name_of_bit(device: Device, number: u32, bit: u32) -> Answer<Option<String>> {
    let name = name_of_setting(device, number)?;
    let width = setting_width(device, number)?;
    Ok(if bit >= width {
        None
    } else if width > 1 {
        Some(format!("{name}.{bit}"))
    } else {
        Some(name)
    })
}

/// The name of a fuse; None if the fuse is unnamed.
pub fn name_at_fuse(device: Device, fuse: u32) -> Answer<Option<String>> {
    match setting_at_fuse(device, fuse)? {
        Some((number, bit)) => name_of_bit(device, number, bit),
        None => Ok(None),
    }
}

/// The whole text of the fuses that differ.
fn write(device: Device, layout: &Layout, old: &[u8], new: &[u8]) -> Answer<String> {
    let mut count = 0;
    let mut lines = String::new();
    for fuse in 0..layout.fuses.len() {
        let (before, after) = (fuse_state(old, fuse), fuse_state(new, fuse));
        if before != after {
            let name = name_at_fuse(device, fuse as u32)?;
            let name = name.as_deref().unwrap_or("unnamed");
            let (before, after) = (u8::from(before), u8::from(after));
            lines += &format!("{fuse} {before} {after} {name}\n");
            count += 1;
        }
    }
    Ok(format!("{count} differ\n{lines}"))
}

/// Writes the fuses that differ and answers how many bytes that takes; bytes past them stay.
pub fn differences(device: Device, old: &[u8], new: &[u8], text: &mut [u8]) -> Answer<usize> {
    let layout = Layout::of(device)?;
    layout.check_image(old)?;
    layout.check_image(new)?;
    let written = write(device, layout, old, new)?;
    if text.len() < written.len() {
        return refuse(12, written.len() as u64);
    }
    text[..written.len()].copy_from_slice(written.as_bytes());
    Ok(written.len())
}
