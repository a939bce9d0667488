// The JEDEC text writer and the length of the text it writes.
// Each main row gives three L lines of five columns, each wire-AND row one line.

use crate::device::{refuse, Answer, Device};
use crate::image::low_16_of_sum;
use crate::jedec_reader::{ETX, STX};
use crate::layout::{fuse_state, Area, Layout, Place};

/// True if an L line starts with the fuse at this place.
fn starts_line(place: Place) -> bool {
    let first_column = match place.area {
        Area::Main => [0, 5, 10].contains(&place.column),
        Area::WireAnd { .. } => place.column == 0,
    };
    first_column && place.bit == 0
}

/// The whole text of an image.
fn write(layout: &Layout, image: &[u8]) -> Vec<u8> {
    let mut text = vec![STX];
    text.extend_from_slice(b"*\n");
    text.extend_from_slice(format!("QF{}*\n", layout.fuses.len()).as_bytes());
    text.extend_from_slice(b"F0*\n");
    for (number, fuse) in layout.fuses.iter().enumerate() {
        if starts_line(fuse.place) {
            if number > 0 {
                text.extend_from_slice(b"*\n");
            }
            text.extend_from_slice(format!("L{number:07}").as_bytes());
        }
        if fuse.place.bit == 0 {
            text.push(b' ');
        }
        text.push(if fuse_state(image, number) {
            b'1'
        } else {
            b'0'
        });
    }
    text.extend_from_slice(b"*\n");
    text.extend_from_slice(format!("C{:04X}*\n", low_16_of_sum(image)).as_bytes());
    text.push(ETX);
    let transmission_sum = low_16_of_sum(&text);
    text.extend_from_slice(format!("{transmission_sum:04X}").as_bytes());
    text
}

/// The length of the text of any image of a device, counted line by line.
pub fn text_bytes(device: Device) -> Answer<usize> {
    let layout = Layout::of(device)?;
    let line = |column_widths: &[usize]| {
        let columns: usize = column_widths.iter().map(|width| " ".len() + width).sum();
        "L0000000".len() + columns + "*\n".len()
    };
    let main_row = line(&[8, 8, 8, 8, 8]) + line(&[8, 8, 8, 8, 6]) + line(&[6, 6, 6, 6, 6]);
    let wire_and_row = line(&[8, 7, 7, 7, 7]);

    let start = "S*\n".len() + format!("QF{}*\n", layout.fuses.len()).len() + "F0*\n".len();
    let end = "C0000*\n".len() + "E0000".len();
    let mut bytes = start + end;
    for _block in 0..device.blocks {
        bytes += 72 * main_row;
        for _subarea in 0..device.blocks {
            bytes += 18 * wire_and_row;
        }
    }
    Ok(bytes)
}

/// Writes the text of an image and answers how many bytes it takes; bytes past them stay.
pub fn image_to_text(device: Device, image: &[u8], text: &mut [u8]) -> Answer<usize> {
    let layout = Layout::of(device)?;
    layout.check_image(image)?;
    let written = write(layout, image);
    if text.len() < written.len() {
        return refuse(12, written.len() as u64);
    }
    text[..written.len()].copy_from_slice(&written);
    Ok(written.len())
}
