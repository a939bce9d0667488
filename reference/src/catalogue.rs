// The numbered list of all settings of a device, each with its places and fuses.
// Numbers come from counting the settings, fuses from looking up places, addresses from converting fuses.

use crate::conversion::address_of_fuse;
use crate::device::{all_devices, refuse, Answer, Device};
use crate::layout::{Layout, Place};
use crate::setting::{every_setting, places, Setting};
use std::collections::HashMap;
use std::sync::OnceLock;

/// A fuse with its device address and its bit there.
#[derive(Clone, Copy, Debug, PartialEq, Eq, Hash)]
pub struct LocatedFuse {
    pub fuse: u32,
    pub address: u32,
    pub bit: u32,
}

impl LocatedFuse {
    /// The three in one number, as the C interface gives them.
    pub fn word(self) -> u64 {
        u64::from(self.fuse) << 20 | u64::from(self.address) << 3 | u64::from(self.bit)
    }
}

/// One setting of the list; its number is its position there.
pub(crate) struct Entry {
    pub setting: Setting,
    pub places: Vec<Place>,
    pub fuses: Vec<u32>,
}

impl Entry {
    pub fn width(&self) -> u32 {
        self.fuses.len() as u32
    }
}

/// The whole list for one device, with the ways back.
pub(crate) struct Catalogue {
    entries: Vec<Entry>,
    number_of_setting: HashMap<Setting, u32>,
    setting_at_fuse: HashMap<u32, (u32, u32)>,
}

impl Catalogue {
    fn build(device: Device, layout: &Layout) -> Catalogue {
        let mut entries: Vec<Entry> = Vec::new();
        let mut number_of_setting = HashMap::new();
        let mut setting_at_fuse = HashMap::new();
        for setting in every_setting(device) {
            let number = entries.len() as u32;
            let places = places(setting);
            let fuses: Vec<u32> = places
                .iter()
                .map(|place| {
                    layout
                        .fuse_at_place(*place)
                        .expect("a listed setting lies on fuses of its device")
                })
                .collect();
            for (bit, fuse) in fuses.iter().enumerate() {
                setting_at_fuse.insert(*fuse, (number, bit as u32));
            }
            number_of_setting.insert(setting, number);
            entries.push(Entry {
                setting,
                places,
                fuses,
            });
        }
        Catalogue {
            entries,
            number_of_setting,
            setting_at_fuse,
        }
    }

    /// The list of a known device; refusal 1 for any other.
    pub fn of(device: Device) -> Answer<&'static Catalogue> {
        static CATALOGUES: [OnceLock<Catalogue>; 12] = [const { OnceLock::new() }; 12];
        let layout = Layout::of(device)?;
        for (known, catalogue) in all_devices().into_iter().zip(&CATALOGUES) {
            if known == device {
                return Ok(catalogue.get_or_init(|| Catalogue::build(device, layout)));
            }
        }
        refuse(1, 0)
    }

    /// A setting by number; refusal 4 if the device has none.
    pub fn entry(&self, number: u32) -> Answer<&Entry> {
        match self.entries.get(number as usize) {
            Some(entry) => Ok(entry),
            None => refuse(4, 0),
        }
    }

    /// The number of a setting; refusal 4 if the device has none.
    pub fn number(&self, setting: Setting) -> Answer<u32> {
        match self.number_of_setting.get(&setting) {
            Some(number) => Ok(*number),
            None => refuse(4, 0),
        }
    }
}

/// How many settings a device has.
pub fn setting_count(device: Device) -> Answer<u32> {
    Ok(Catalogue::of(device)?.entries.len() as u32)
}

/// The setting with a number.
pub fn setting_of_number(device: Device, number: u32) -> Answer<Setting> {
    Ok(Catalogue::of(device)?.entry(number)?.setting)
}

/// The number of a setting.
pub fn number_of_setting(device: Device, setting: Setting) -> Answer<u32> {
    Catalogue::of(device)?.number(setting)
}

/// How many bits a setting has.
pub fn setting_width(device: Device, number: u32) -> Answer<u32> {
    Ok(Catalogue::of(device)?.entry(number)?.width())
}

/// The places of a setting, lowest bit first.
pub fn places_of_setting(device: Device, number: u32) -> Answer<Vec<Place>> {
    Ok(Catalogue::of(device)?.entry(number)?.places.clone())
}

/// The fuses of a setting, lowest bit first.
pub fn fuses_of_setting(device: Device, number: u32) -> Answer<Vec<u32>> {
    Ok(Catalogue::of(device)?.entry(number)?.fuses.clone())
}

/// A fuse with the address and bit that the conversion gives for it.
fn locate_fuse(device: Device, fuse: u32) -> Answer<LocatedFuse> {
    let (address, bit) = address_of_fuse(device, fuse)?;
    Ok(LocatedFuse { fuse, address, bit })
}

/// The fuses of a setting with their addresses and bits, lowest bit of the setting first.
pub fn locate_setting(device: Device, number: u32) -> Answer<Vec<LocatedFuse>> {
    let fuses = &Catalogue::of(device)?.entry(number)?.fuses;
    fuses
        .iter()
        .map(|fuse| locate_fuse(device, *fuse))
        .collect()
}

/// The same for one bit of a setting; None if the setting has no such bit.
pub fn locate_bit(device: Device, number: u32, bit: u32) -> Answer<Option<LocatedFuse>> {
    let fuses = &Catalogue::of(device)?.entry(number)?.fuses;
    match fuses.get(bit as usize) {
        Some(fuse) => locate_fuse(device, *fuse).map(Some),
        None => Ok(None),
    }
}

/// The setting and bit that a fuse belongs to; None if the fuse is unnamed.
pub fn setting_at_fuse(device: Device, fuse: u32) -> Answer<Option<(u32, u32)>> {
    let layout = Layout::of(device)?;
    if layout.fuses.get(fuse as usize).is_none() {
        return refuse(3, 0);
    }
    Ok(Catalogue::of(device)?.setting_at_fuse.get(&fuse).copied())
}
