// The reference program for the XC9500 fuse map: image, readout, JEDEC text and named settings.
// It is written to be checked by eye: everything is listed fuse by fuse, nothing is fast by design.

//! Reference for the XC9500 fuse map, covering all twelve pairs of block count and class.

mod access;
mod bench;
mod catalogue;
mod conversion;
mod device;
#[cfg(feature = "differences")]
mod difference_vectors;
mod differences;
mod edit_vectors;
mod image;
mod jedec_reader;
mod jedec_writer;
mod layout;
pub mod random;
mod reader_vectors;
mod setting;
mod settings_vectors;
mod text_vectors;
mod value;
pub mod vectors;

pub use access::{
    read_in_image, read_in_readout, read_value_in_image, read_value_in_readout, set_in_image,
    set_in_readout, set_value_in_image, set_value_in_readout,
};
pub use bench::bench;
pub use catalogue::{
    fuses_of_setting, locate_bit, locate_setting, number_of_setting, places_of_setting,
    setting_at_fuse, setting_count, setting_of_number, setting_width, LocatedFuse,
};
pub use conversion::{address_of_fuse, fuse_of_address};
pub use device::{all_devices, Answer, Device, Refusal, BLOCK_COUNTS, LARGE, SMALL};
pub use differences::{differences, name_at_fuse, name_of_bit, name_of_setting};
pub use image::{
    fuse_count, fuse_sum, image_bytes, image_to_readout, readout_bytes, readout_to_image,
    zero_count,
};
pub use jedec_reader::{image_of_text, text_to_image};
pub use jedec_writer::{image_to_text, text_bytes};
pub use layout::{Area, Place};
pub use setting::{
    field_name, group_name, BlockField, GlobalField, MacrocellField, Polarity, Setting,
    BLOCK_FIELDS, GLOBAL_FIELDS, MACROCELL_FIELDS,
};
pub use value::{pattern_of_value, value_name, value_of_pattern, Value, ValueName};
