// The bench program: reads one text and reports block count, fuse count, zero count and fuse sum.
// The device is found from the text's first QF field.

use crate::device::{refuse, Answer, Device, SMALL};
use crate::image::{fuse_count, fuse_sum, image_bytes, zero_count};
use crate::jedec_reader::{first_fuse_count, text_to_image};

const LONGEST_INPUT: usize = 65_536;

fn report(input: &[u8]) -> Answer<String> {
    if input.len() > LONGEST_INPUT {
        return refuse(7, LONGEST_INPUT as u64);
    }
    let blocks = if first_fuse_count(input) == Some(41472) {
        4
    } else {
        2
    };
    // The class decides nothing here: sizes and text do not depend on it.
    let device = Device {
        blocks,
        class: SMALL,
    };
    let mut image = vec![0; image_bytes(device)?];
    text_to_image(device, input, &mut image)?;
    Ok(format!(
        "blocks {}\nfuses {}\nzero {}\nsum {:04X}\n",
        blocks,
        fuse_count(device)?,
        zero_count(device, &image)?,
        fuse_sum(device, &image)?,
    ))
}

/// What the bench program writes for its input.
pub fn bench(input: &[u8]) -> Vec<u8> {
    match report(input) {
        Ok(lines) => lines.into_bytes(),
        Err(refusal) => format!("refused {} at {}\n", refusal.number, refusal.value).into_bytes(),
    }
}
