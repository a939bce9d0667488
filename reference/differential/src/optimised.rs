// The operations as they would be shipped in Rust, for the benchmark: tables, words and shifts.
// The tests hold them to the reference, fuse by fuse.

use crate::library::{answer, XC9500_NONE};
use xc9500_reference::{Answer, Device, Refusal, LARGE};

// A strip is 36 fuses: a third of a main row, or a whole wire-AND row. Every area is whole strips.
const STRIP_FUSES: u32 = 36;
const MAIN_STRIPS: u32 = 72 * 3;
const SUBAREA_STRIPS: u32 = 18;
const MOST_BLOCKS: usize = 16;
const BLOCK_COUNTS: [u32; 6] = [2, 4, 6, 8, 12, 16];

/// What the operations need of a block count.
#[derive(Clone, Copy)]
pub(crate) struct Part {
    pub(crate) fuses: u32,
    block_strips: u32,
    reciprocal: u32,
}

impl Part {
    /// The part of a known device; refusal 1 for any other.
    #[inline]
    pub(crate) fn of(device: Device) -> Answer<Part> {
        match PARTS.get(device.blocks as usize) {
            Some(part) if part.fuses > 0 && device.class <= LARGE => Ok(*part),
            _ => refuse(1, 0),
        }
    }

    pub(crate) fn image_bytes(self) -> usize {
        self.fuses as usize / 8
    }

    fn readout_bytes(self) -> usize {
        readout_of_strips(self.fuses / STRIP_FUSES)
    }

    pub(crate) fn block_image_bytes(self) -> usize {
        image_of_strips(self.block_strips)
    }

    fn block_readout_bytes(self) -> usize {
        readout_of_strips(self.block_strips)
    }

    /// Refusal 2 unless the image has its exact length.
    pub(crate) fn check_image(self, image: &[u8]) -> Answer<()> {
        if image.len() == self.image_bytes() {
            Ok(())
        } else {
            refuse(2, 0)
        }
    }

    /// Refusal 2 unless the readout has its exact length.
    fn check_readout(self, readout: &[u8]) -> Answer<()> {
        if readout.len() == self.readout_bytes() {
            Ok(())
        } else {
            refuse(2, 0)
        }
    }
}

/// The image bytes of an even number of strips.
const fn image_of_strips(strips: u32) -> usize {
    (strips * STRIP_FUSES / 8) as usize
}

/// The readout bytes of whole rows; a strip has five, in a main row on the average.
const fn readout_of_strips(strips: u32) -> usize {
    strips as usize * 5
}

pub(crate) fn refuse<T>(number: u32, value: u64) -> Answer<T> {
    Err(Refusal { number, value })
}

/// The reciprocal of a block's strips is scaled by two to this power.
const SCALE: u32 = 22;

/// By block count; a count that no part has has no fuses.
static PARTS: [Part; MOST_BLOCKS + 1] = {
    let mut parts = [Part {
        fuses: 0,
        block_strips: 0,
        reciprocal: 0,
    }; MOST_BLOCKS + 1];
    let mut i = 0;
    while i < BLOCK_COUNTS.len() {
        let blocks = BLOCK_COUNTS[i];
        let block_strips = MAIN_STRIPS + SUBAREA_STRIPS * blocks;
        let reciprocal = (1u32 << SCALE).div_ceil(block_strips);
        // Exact for every strip of the part, and the product fits a word.
        let excess = reciprocal * block_strips - (1 << SCALE);
        let strips = blocks * block_strips;
        assert!(excess * strips < 1 << SCALE && strips.checked_mul(reciprocal).is_some());
        parts[blocks as usize] = Part {
            fuses: STRIP_FUSES * strips,
            block_strips,
            reciprocal,
        };
        i += 1;
    }
    parts
};

/// A strip of a block: its row's address in the block, and its first fuse's position in POSITIONS.
#[derive(Clone, Copy)]
struct Strip {
    address: u16,
    first: u8,
}

/// The strips of the longest block; a shorter block has the first of them. Their number is rounded
/// up to a power of two, so that a masked index needs no check.
static STRIPS: [Strip; 512] = {
    let mut strips = [Strip {
        address: 0,
        first: 0,
    }; 512];
    let mut i = 0;
    while i < MAIN_STRIPS {
        strips[i as usize] = Strip {
            address: ((i / 3) << 5) as u16,
            first: (i % 3 * STRIP_FUSES) as u8,
        };
        i += 1;
    }
    let mut i = 0;
    while i < SUBAREA_STRIPS * MOST_BLOCKS as u32 {
        let (subarea, row) = (i / SUBAREA_STRIPS, i % SUBAREA_STRIPS);
        strips[(MAIN_STRIPS + i) as usize] = Strip {
            address: (1 << 12 | subarea << 8 | row << 3) as u16,
            first: (3 * STRIP_FUSES) as u8,
        };
        i += 1;
    }
    strips
};

/// For each fuse of a main row, then of a wire-AND row: its column's address times 8, plus its bit.
/// Long enough for every index of a byte.
static POSITIONS: [u8; 256] = {
    let mut positions = [0; 256];
    let mut next = 0;
    let mut column = 0;
    while column < 15 {
        let width = if column < 9 { 8 } else { 6 };
        let mut bit = 0;
        while bit < width {
            positions[next] = (column / 5) << 6 | (column % 5) << 3 | bit;
            next += 1;
            bit += 1;
        }
        column += 1;
    }
    let mut column = 0;
    while column < 5 {
        let width = if column == 0 { 8 } else { 7 };
        let mut bit = 0;
        while bit < width {
            positions[next] = column << 3 | bit;
            next += 1;
            bit += 1;
        }
        column += 1;
    }
    positions
};

/// The refusal of a fuse that was not converted: 1 if the device is unknown, else 3.
#[cold]
fn no_such_fuse<T>(device: Device) -> Answer<T> {
    Part::of(device)?;
    refuse(3, 0)
}

/// The address and bit of a fuse. A call like every other operation here and in the library, and not compiled into the caller's loop.
#[inline(never)]
pub fn address_of_fuse(device: Device, fuse: u32) -> Answer<(u32, u32)> {
    let Some(part) = PARTS.get(device.blocks as usize) else {
        return no_such_fuse(device);
    };
    if fuse >= part.fuses || device.class > LARGE {
        return no_such_fuse(device);
    }
    // The compiler divides by a constant by multiply and shift; the block is divided out likewise.
    let strip = fuse / STRIP_FUSES;
    let block = (strip * part.reciprocal) >> SCALE;
    let row = STRIPS[(strip - block * part.block_strips) as usize & 511];
    let in_strip = (fuse - strip * STRIP_FUSES) as u8;
    let position = u32::from(POSITIONS[row.first.wrapping_add(in_strip) as usize]);
    let address = block << 13 | u32::from(row.address) | position >> 3;
    Ok((address, position & 7))
}

/// The fuse sum: the image bytes added up, the low 16 bits kept.
pub fn fuse_sum(device: Device, image: &[u8]) -> Answer<u16> {
    Part::of(device)?.check_image(image)?;
    Ok(sum_of_bytes(image))
}

/// The low 16 bits of the sum of some bytes.
pub(crate) fn sum_of_bytes(bytes: &[u8]) -> u16 {
    // A pair read as one word has its upper byte 256 times, so 255 of them come off again; the
    // processor adds up eight such words at a time. Every image is whole pairs, a text need not be.
    let (pairs, rest) = bytes.as_chunks();
    let (mut words, mut uppers) = (0u16, 0u16);
    for pair in pairs {
        let word = u16::from_le_bytes(*pair);
        words = words.wrapping_add(word);
        uppers = uppers.wrapping_add(word >> 8);
    }
    for byte in rest {
        words = words.wrapping_add(u16::from(*byte));
    }
    words.wrapping_sub(uppers.wrapping_mul(255))
}

/// The number of fuses at 0: all less those at 1.
pub fn zero_count(device: Device, image: &[u8]) -> Answer<u32> {
    let part = Part::of(device)?;
    part.check_image(image)?;
    let (words, rest) = image.as_chunks();
    // Added up as wide as the words, which spares a narrowing of each count.
    let mut ones = 0u64;
    for word in words {
        ones += u64::from(u64::from_le_bytes(*word).count_ones());
    }
    // The parts of 2 and of 6 blocks have half a word left.
    for byte in rest {
        ones += u64::from(byte.count_ones());
    }
    Ok(part.fuses - ones as u32)
}

// The conversions take two rows at a time: those are whole bytes of an image, in which every second
// row starts in the middle of a byte. Their words are shifted and masked by fixed amounts.

pub(crate) const MAIN_IMAGE_BYTES: usize = image_of_strips(MAIN_STRIPS);
const MAIN_READOUT_BYTES: usize = readout_of_strips(MAIN_STRIPS);
const MOST_STRIPS: u32 = MAIN_STRIPS + SUBAREA_STRIPS * MOST_BLOCKS as u32;

/// Writes the readout of an image.
pub fn image_to_readout(device: Device, image: &[u8], readout: &mut [u8]) -> Answer<()> {
    let part = Part::of(device)?;
    part.check_image(image)?;
    part.check_readout(readout)?;
    let images = image.chunks_exact(part.block_image_bytes());
    let readouts = readout.chunks_exact_mut(part.block_readout_bytes());
    for (image, readout) in images.zip(readouts) {
        let (main, wire_and) = image.split_at(MAIN_IMAGE_BYTES);
        let (to_main, to_wire_and) = readout.split_at_mut(MAIN_READOUT_BYTES);
        each_two_rows(main, to_main, main_to_readout);
        each_two_rows(wire_and, to_wire_and, wire_and_to_readout);
    }
    Ok(())
}

/// Writes the image of a readout, unless some byte has a bit above its width.
pub fn readout_to_image(device: Device, readout: &[u8], image: &mut [u8]) -> Answer<()> {
    let part = Part::of(device)?;
    part.check_readout(readout)?;
    part.check_image(image)?;
    check_widths(part, readout)?;
    let readouts = readout.chunks_exact(part.block_readout_bytes());
    let images = image.chunks_exact_mut(part.block_image_bytes());
    for (readout, image) in readouts.zip(images) {
        let (main, wire_and) = readout.split_at(MAIN_READOUT_BYTES);
        let (to_main, to_wire_and) = image.split_at_mut(MAIN_IMAGE_BYTES);
        each_two_rows(main, to_main, main_to_image);
        each_two_rows(wire_and, to_wire_and, wire_and_to_image);
    }
    Ok(())
}

/// The bits above the width of each byte of the longest block; a shorter one has the first of them.
static ABOVE_WIDTH: [u8; readout_of_strips(MOST_STRIPS)] = {
    let mut above = [0; readout_of_strips(MOST_STRIPS)];
    let mut i = 0;
    while i < above.len() {
        above[i] = match (i < MAIN_READOUT_BYTES, i % 15, i % 5) {
            (true, 9.., _) => 0xC0,
            (false, _, 1..) => 0x80,
            _ => 0,
        };
        i += 1;
    }
    above
};

/// Refusal 6, with the lowest index, if a readout byte has a bit above its width.
fn check_widths(part: Part, readout: &[u8]) -> Answer<()> {
    let block_bytes = part.block_readout_bytes();
    for (number, block) in readout.chunks_exact(block_bytes).enumerate() {
        // Without a way out of the loop many bytes are tested at a time.
        let above = || {
            block
                .iter()
                .zip(&ABOVE_WIDTH)
                .map(|(byte, above)| byte & above)
        };
        if above().fold(0, |all, bits| all | bits) != 0 {
            let lowest = above().take_while(|bits| *bits == 0).count();
            return refuse(6, (number * block_bytes + lowest) as u64);
        }
    }
    Ok(())
}

/// Moves an area, two rows at a time.
#[inline]
pub(crate) fn each_two_rows<const FROM: usize, const TO: usize>(
    from: &[u8],
    to: &mut [u8],
    mut two_rows: impl FnMut(&[u8; FROM], &mut [u8; TO]),
) {
    let (from, _) = from.as_chunks();
    let (to, _) = to.as_chunks_mut();
    for (from, to) in from.iter().zip(to) {
        two_rows(from, to);
    }
}

#[inline]
fn main_to_readout(image: &[u8; 27], readout: &mut [u8; 30]) {
    let put_sixes = |readout: &mut [u8; 30], at: usize, sixes: u64| {
        put_u32(readout, at, sixes as u32);
        readout[at + 4] = (sixes >> 32) as u8;
        readout[at + 5] = (sixes >> 40) as u8;
    };
    // The first row is nine bytes and 36 fuses, the second the same from the middle of byte 13.
    put_u64(readout, 0, u64_at(image, 0));
    readout[8] = image[8];
    put_sixes(readout, 9, spread_sixes(u64_at(image, 9)));
    let second = u64_at(image, 13) >> 4 | u64::from(image[21]) << 60;
    put_u64(readout, 15, second);
    let last = u64_at(image, 19);
    readout[23] = (last >> 20) as u8;
    put_sixes(readout, 24, spread_sixes(last >> 28));
}

#[inline]
fn main_to_image(readout: &[u8; 30], image: &mut [u8; 27]) {
    put_u64(image, 0, u64_at(readout, 0));
    image[8] = readout[8];
    let sixes = gather_sixes(u64_at(readout, 9));
    let second = u64_at(readout, 15);
    put_u64(image, 9, sixes | second << 36);
    let sixes = gather_sixes(u64_at(readout, 22) >> 16);
    let last = second >> 28 | u64::from(readout[23]) << 36 | sixes << 44;
    put_u64(image, 17, last);
    image[25] = (sixes >> 20) as u8;
    image[26] = (sixes >> 28) as u8;
}

#[inline]
fn wire_and_to_readout(image: &[u8; 9], readout: &mut [u8; 10]) {
    // A row is a byte and 28 fuses; those of the second end with the last byte.
    let (first, last) = (u64_at(image, 0), u64_at(image, 1));
    let sevens = first >> 8 & 0x0FFF_FFFF | last >> 4 & 0x0FFF_FFFF_0000_0000;
    let sevens = spread_sevens(sevens);
    readout[0] = first as u8;
    put_u32(readout, 1, sevens as u32);
    readout[5] = (first >> 36) as u8;
    put_u32(readout, 6, (sevens >> 32) as u32);
}

#[inline]
fn wire_and_to_image(readout: &[u8; 10], image: &mut [u8; 9]) {
    let sevens = u64::from(u32_at(readout, 1)) | u64::from(u32_at(readout, 6)) << 32;
    let sevens = gather_sevens(sevens);
    let (first, second) = (sevens & 0x0FFF_FFFF, sevens >> 32);
    let eights = u64::from(readout[0]) | u64::from(readout[5]) << 36;
    put_u64(image, 0, eights | first << 8 | second << 44);
    image[8] = (second >> 20) as u8;
}

// A field moves up by n bits where 2^n - 1 times it is added, and down where that is taken off.

/// The low 36 bits, six to a byte.
#[inline]
fn spread_sixes(bits: u64) -> u64 {
    let twelves = bits & 0xFFF | (bits & 0xFFF000) << 4 | (bits & 0xFFF000000) << 8;
    twelves + 3 * (twelves & 0x0FC0_0FC0_0FC0)
}

/// The way back from six bytes; what is above them is left out.
#[inline]
fn gather_sixes(bytes: u64) -> u64 {
    let twelves = bytes - 3 * ((bytes & 0x3F00_3F00_3F00) >> 2);
    twelves & 0xFFF | (twelves & 0xFFF_0000) >> 4 | (twelves & 0xFFF_0000_0000) >> 8
}

/// In each half of the word 28 bits, seven to a byte.
#[inline]
fn spread_sevens(bits: u64) -> u64 {
    let fourteens = bits + 3 * (bits & 0x0FFF_C000_0FFF_C000);
    fourteens + (fourteens & 0x3F80_3F80_3F80_3F80)
}

/// The way back from eight bytes.
#[inline]
fn gather_sevens(bytes: u64) -> u64 {
    let fourteens = bytes - ((bytes & 0x7F00_7F00_7F00_7F00) >> 1);
    fourteens & 0x3FFF_0000_3FFF | (fourteens & 0x3FFF_0000_3FFF_0000) >> 2
}

// Settings by number. Each setting but USERCODE lies at one column and bit of one row, or of up to
// three rows that follow one another in the main area, so its first bit tells the others.

/// The settings of a block in each group, and the rows and bytes of a main area.
const LITERALS: u32 = 18 * 5 * 72;
const MACROCELL_FIELDS: u32 = 27;
const BLOCK_FIELDS: u32 = 6;
const MAIN_ROW_FUSES: u32 = 3 * STRIP_FUSES;
const MAIN_ROW_BYTES: u32 = 15;

/// The first number of each group after the literals, and what divides a wire-AND number into its
/// block and input and its row; then the step from a block's locations to those of the next.
#[derive(Clone, Copy)]
struct Numbers {
    wire_and: u32,
    macrocells: u32,
    blocks: u32,
    globals: u32,
    rows: u32,
    reciprocal: u32,
    next_block: u64,
}

/// By block count, as PARTS; a count that no part has has no settings.
static NUMBERS: [Numbers; MOST_BLOCKS + 1] = {
    let mut numbers = [Numbers {
        wire_and: 0,
        macrocells: 0,
        blocks: 0,
        globals: 0,
        rows: 0,
        reciprocal: 0,
        next_block: 0,
    }; MOST_BLOCKS + 1];
    let mut i = 0;
    while i < BLOCK_COUNTS.len() {
        let blocks = BLOCK_COUNTS[i];
        let rows = SUBAREA_STRIPS * blocks;
        let wire_and = LITERALS * blocks;
        let macrocells = wire_and + 36 * rows * blocks;
        let fields = macrocells + 18 * MACROCELL_FIELDS * blocks;
        // Exact for every wire-AND number of the part.
        let reciprocal = (1u64 << 32).div_ceil(rows as u64);
        let excess = reciprocal * rows as u64 - (1 << 32);
        assert!(excess * ((macrocells - wire_and) as u64) < 1 << 32 && reciprocal < 1 << 32);
        numbers[blocks as usize] = Numbers {
            wire_and,
            macrocells,
            blocks: fields,
            globals: fields + BLOCK_FIELDS * blocks,
            rows,
            reciprocal: reciprocal as u32,
            next_block: location((MAIN_STRIPS + rows) * STRIP_FUSES, 1 << 13, 0),
        };
        i += 1;
    }
    numbers
};

/// A position in a row: its first fuse there and its byte, with the bits above that byte's width.
#[derive(Clone, Copy)]
struct InRow {
    fuse: u8,
    byte: u8,
    bit: u8,
    above: u8,
}

/// The position of each term of a block in its row, macrocell by macrocell.
static TERMS: [InRow; 90] = {
    let mut terms = [InRow {
        fuse: 0,
        byte: 0,
        bit: 0,
        above: 0,
    }; 90];
    let mut i = 0;
    while i < 90 {
        let (macrocell, term) = (i / 5, i % 5);
        let column = term + macrocell % 3 * 5;
        let bit = macrocell / 3;
        let first = if column < 9 {
            8 * column
        } else {
            72 + 6 * (column - 9)
        };
        terms[i as usize] = InRow {
            fuse: first + bit,
            byte: column,
            bit,
            above: if column < 9 { 0 } else { 0xC0 },
        };
        i += 1;
    }
    terms
};

/// The position of each input in its wire-AND row.
static INPUTS: [InRow; 36] = {
    let mut inputs = [InRow {
        fuse: 0,
        byte: 0,
        bit: 0,
        above: 0,
    }; 36];
    let mut i = 0;
    while i < 36 {
        let (column, bit) = (i % 5, i / 5);
        inputs[i as usize] = InRow {
            fuse: if column == 0 {
                bit
            } else {
                8 + 7 * (column - 1) + bit
            },
            byte: column,
            bit,
            above: if column == 0 { 0 } else { 0x80 },
        };
        i += 1;
    }
    inputs
};

/// First row, column and number of rows of a field; a macrocell has its own column.
type Field = (u8, u8, u8);

static OF_MACROCELL: [Field; MACROCELL_FIELDS as usize] = [
    (12, 0, 2),
    (14, 0, 2),
    (16, 0, 2),
    (18, 0, 2),
    (20, 0, 2),
    (22, 0, 1),
    (23, 0, 1),
    (24, 0, 1),
    (25, 0, 1),
    (26, 0, 1),
    (27, 0, 2),
    (29, 0, 3),
    (35, 0, 1),
    (36, 0, 2),
    (40, 0, 1),
    (41, 0, 1),
    (42, 0, 1),
    (43, 0, 1),
    (44, 0, 2),
    (46, 0, 1),
    (48, 0, 1),
    (49, 0, 1),
    (50, 0, 1),
    (51, 0, 1),
    (52, 0, 1),
    (53, 0, 1),
    (54, 0, 1),
];

static OF_BLOCK: [Field; BLOCK_FIELDS as usize] = [
    (67, 0, 1),
    (67, 1, 1),
    (68, 6, 1),
    (11, 3, 1),
    (68, 3, 1),
    (68, 0, 1),
];

/// USERCODE is told by its width.
const USERCODE: Field = (6, 0, 32);

static OF_SMALL: [Field; 12] = [
    (0, 1, 1),
    (0, 2, 1),
    (0, 3, 1),
    (0, 4, 1),
    (0, 5, 1),
    (0, 6, 1),
    (3, 2, 2),
    (3, 3, 2),
    (3, 4, 2),
    (3, 5, 2),
    (3, 6, 2),
    USERCODE,
];

static OF_LARGE: [Field; 16] = [
    (0, 1, 1),
    (0, 2, 1),
    (0, 3, 1),
    (0, 4, 1),
    (0, 5, 1),
    (0, 6, 1),
    (0, 7, 1),
    (0, 8, 1),
    (3, 2, 2),
    (3, 3, 2),
    (3, 4, 2),
    (3, 5, 2),
    (3, 6, 2),
    (3, 7, 2),
    (3, 8, 2),
    USERCODE,
];

/// Where the first bit of a setting lies, and how many it has.
struct Spot {
    fuse: u32,
    byte: u32,
    bit: u32,
    above: u8,
    width: u32,
}

/// A field of a block, at bit 6 or 7 of a column of eight bits.
#[inline(always)]
fn field(part: Part, block: u32, (row, column, width): Field, bit: u32) -> Spot {
    let (row, column) = (u32::from(row), u32::from(column));
    Spot {
        fuse: block * part.block_strips * STRIP_FUSES + row * MAIN_ROW_FUSES + column * 8 + bit,
        byte: block * part.block_strips * 5 + row * MAIN_ROW_BYTES + column,
        bit,
        above: 0,
        width: u32::from(width),
    }
}

/// The spot of a setting of a known device; refusal 4 if it has none.
#[inline(always)]
fn spot(device: Device, part: Part, setting: u32) -> Answer<Spot> {
    let numbers = &NUMBERS[device.blocks as usize];
    if setting < numbers.wire_and {
        let block = setting / LITERALS;
        let position = TERMS[(setting / 72 - block * 90) as usize];
        // The positive literal is numbered first and lies in the second row.
        let row = (setting % 72) ^ 1;
        return Ok(Spot {
            fuse: block * part.block_strips * STRIP_FUSES
                + row * MAIN_ROW_FUSES
                + u32::from(position.fuse),
            byte: block * part.block_strips * 5 + row * MAIN_ROW_BYTES + u32::from(position.byte),
            bit: u32::from(position.bit),
            above: position.above,
            width: 1,
        });
    }
    if setting < numbers.macrocells {
        let number = setting - numbers.wire_and;
        let block_and_input = ((u64::from(number) * u64::from(numbers.reciprocal)) >> 32) as u32;
        let row = number - block_and_input * numbers.rows;
        let block = block_and_input / 36;
        let position = INPUTS[(block_and_input - block * 36) as usize];
        let strip = block * part.block_strips + MAIN_STRIPS + row;
        return Ok(Spot {
            fuse: strip * STRIP_FUSES + u32::from(position.fuse),
            byte: strip * 5 + u32::from(position.byte),
            bit: u32::from(position.bit),
            above: position.above,
            width: 1,
        });
    }
    if setting < numbers.blocks {
        let number = setting - numbers.macrocells;
        let macrocell = number / MACROCELL_FIELDS;
        let (row, _, width) = OF_MACROCELL[(number - macrocell * MACROCELL_FIELDS) as usize];
        let (block, macrocell) = (macrocell / 18, macrocell % 18);
        let column = (macrocell % 9) as u8;
        return Ok(field(part, block, (row, column, width), 6 + macrocell / 9));
    }
    if setting < numbers.globals {
        let number = setting - numbers.blocks;
        let block = number / BLOCK_FIELDS;
        let of_block = OF_BLOCK[(number - block * BLOCK_FIELDS) as usize];
        return Ok(field(part, block, of_block, 6));
    }
    let fields: &[Field] = if device.class == LARGE {
        &OF_LARGE
    } else {
        &OF_SMALL
    };
    match fields.get((setting - numbers.globals) as usize) {
        Some(of_device) => Ok(field(part, 0, *of_device, 6)),
        None => refuse(4, 0),
    }
}

// Where a bit of a setting lies is one word, as in the C interface: the fuse from bit 20 up, the
// address from bit 3 up, the bit below. From row to row and from block to block the fuse and the
// address grow by fixed steps, so one product moves both.

const fn location(fuse: u32, address: u32, bit: u32) -> u64 {
    (fuse as u64) << 20 | (address as u64) << 3 | bit as u64
}

/// The step from a row of a main area to the next.
const NEXT_ROW: u64 = location(MAIN_ROW_FUSES, 1 << 5, 0);

/// The address of a column in its main row.
const fn column_address(column: u32) -> u32 {
    (column / 5) << 3 | (column % 5)
}

/// The location of a field's bit in block 0; a field lies in a column of eight bits.
const fn field_location(row: u32, column: u32, bit: u32) -> u64 {
    row as u64 * NEXT_ROW + location(8 * column + bit, column_address(column), bit)
}

/// The location of each term in the first row of block 0, macrocell by macrocell.
static TERM_LOCATIONS: [u64; 90] = {
    let mut locations = [0; 90];
    let mut i = 0;
    while i < locations.len() {
        let InRow {
            fuse, byte, bit, ..
        } = TERMS[i];
        locations[i] = location(fuse as u32, column_address(byte as u32), bit as u32);
        i += 1;
    }
    locations
};

/// The location of each input in a wire-AND row.
static INPUT_LOCATIONS: [u64; 36] = {
    let mut locations = [0; 36];
    let mut i = 0;
    while i < locations.len() {
        let InRow {
            fuse, byte, bit, ..
        } = INPUTS[i];
        locations[i] = location(fuse as u32, byte as u32, bit as u32);
        i += 1;
    }
    locations
};

/// The location of each wire-AND row of the longest block; their number is rounded up as in STRIPS.
static WIRE_AND_ROWS: [u64; 512] = {
    let mut locations = [0; 512];
    let mut strip = MAIN_STRIPS;
    while strip < MOST_STRIPS {
        let address = STRIPS[strip as usize].address as u32;
        locations[(strip - MAIN_STRIPS) as usize] = location(strip * STRIP_FUSES, address, 0);
        strip += 1;
    }
    locations
};

/// The fields of a block's macrocells.
const OF_ALL_MACROCELLS: u32 = 18 * MACROCELL_FIELDS;

/// The location of the first bit of each of them in block 0, and from bit 56 up the number of bits.
static FIELD_LOCATIONS: [u64; OF_ALL_MACROCELLS as usize] = {
    let mut locations = [0; OF_ALL_MACROCELLS as usize];
    let mut i = 0;
    while i < OF_ALL_MACROCELLS {
        let (row, _, width) = OF_MACROCELL[(i % MACROCELL_FIELDS) as usize];
        let macrocell = i / MACROCELL_FIELDS;
        let first = field_location(row as u32, macrocell % 9, 6 + macrocell / 9);
        locations[i as usize] = (width as u64) << 56 | first;
        i += 1;
    }
    locations
};

/// The word of a refusal.
const fn refusal(number: u64) -> u64 {
    number << 56
}

/// The fuse, address and bit of a bit of a setting, in one word.
#[inline]
pub fn locate_bit(device: Device, setting: u32, bit: u32) -> Answer<u64> {
    answer(location_of_bit(device, setting, bit))
}

/// A call, and not compiled into the caller's loop; its word stays in a register, as the library's does.
#[inline(never)]
fn location_of_bit(device: Device, setting: u32, bit: u32) -> u64 {
    let Some(numbers) = NUMBERS.get(device.blocks as usize) else {
        return refusal(1);
    };
    if device.class > LARGE {
        return refusal(1);
    }
    // A block count that no part has leaves every setting to the last case.
    if setting < numbers.wire_and {
        if bit > 0 {
            return XC9500_NONE;
        }
        let term = setting / 72;
        // The positive literal is numbered first and lies in the second row.
        let row = u64::from((setting % 72) ^ 1);
        let in_block = TERM_LOCATIONS[(term % 90) as usize] + row * NEXT_ROW;
        return in_block + u64::from(term / 90) * numbers.next_block;
    }
    if setting < numbers.macrocells {
        if bit > 0 {
            return XC9500_NONE;
        }
        let number = setting - numbers.wire_and;
        let block_and_input = ((u64::from(number) * u64::from(numbers.reciprocal)) >> 32) as u32;
        let row = number - block_and_input * numbers.rows;
        let in_row = INPUT_LOCATIONS[(block_and_input % 36) as usize];
        let in_block = WIRE_AND_ROWS[row as usize & 511] + in_row;
        return in_block + u64::from(block_and_input / 36) * numbers.next_block;
    }
    if setting < numbers.blocks {
        let number = setting - numbers.macrocells;
        let first = FIELD_LOCATIONS[(number % OF_ALL_MACROCELLS) as usize];
        if u64::from(bit) >= first >> 56 {
            return XC9500_NONE;
        }
        let in_block = (first & !(0xFF << 56)) + u64::from(bit) * NEXT_ROW;
        return in_block + u64::from(number / OF_ALL_MACROCELLS) * numbers.next_block;
    }
    location_of_other(device, numbers, setting, bit)
}

/// The same for the fields of the blocks and of the whole part.
fn location_of_other(device: Device, numbers: &Numbers, setting: u32, bit: u32) -> u64 {
    if Part::of(device).is_err() {
        return refusal(1);
    }
    let (block, (row, column, width)) = if setting < numbers.globals {
        let number = setting - numbers.blocks;
        let of_block = OF_BLOCK[(number % BLOCK_FIELDS) as usize];
        (number / BLOCK_FIELDS, of_block)
    } else {
        let fields: &[Field] = if device.class == LARGE {
            &OF_LARGE
        } else {
            &OF_SMALL
        };
        match fields.get((setting - numbers.globals) as usize) {
            Some(of_device) => (0, *of_device),
            None => return refusal(4),
        }
    };
    if bit >= u32::from(width) {
        return XC9500_NONE;
    }
    if width == 32 {
        // The lower half lies in row 7, the upper in row 6, each from column 7 down to column 0.
        return field_location(7 - bit / 16, 7 - bit % 16 / 2, 6 + bit % 2);
    }
    let in_block = field_location(u32::from(row) + bit, u32::from(column), 6);
    in_block + u64::from(block) * numbers.next_block
}

/// Refusal 5 if a pattern has a bit at or above a width.
#[inline(always)]
fn check_pattern(pattern: u32, width: u32) -> Answer<()> {
    if u64::from(pattern) >> width == 0 {
        Ok(())
    } else {
        refuse(5, 0)
    }
}

/// Refusal 6 if the byte that holds a setting has a bit above its width.
#[inline(always)]
fn check_spot(readout: &[u8], spot: &Spot) -> Answer<()> {
    if readout[spot.byte as usize] & spot.above == 0 {
        Ok(())
    } else {
        refuse(6, u64::from(spot.byte))
    }
}

#[inline(always)]
fn put_bit(byte: &mut u8, bit: u32, state: u32) {
    *byte = *byte & !(1 << bit) | ((state & 1) << bit) as u8;
}

// USERCODE is the upper two bits of the first eight bytes of rows 6 and 7, the first byte highest.
// In an image row 7 starts in the middle of a byte.
const ROW_6: usize = 6;
const ROW_7: usize = 7;

/// The upper two bits of each byte.
const UPPER: u64 = 0xC0C0_C0C0_C0C0_C0C0;

/// The upper two bits of each byte, together in the low sixteen bits.
#[inline]
fn gather_uppers(bytes: u64) -> u32 {
    let twos = bytes >> 6 & 0x0303_0303_0303_0303;
    let fours = (twos | twos >> 6) & 0x000F_000F_000F_000F;
    let eights = (fours | fours >> 12) & 0x0000_00FF_0000_00FF;
    ((eights | eights >> 24) & 0xFFFF) as u32
}

/// The way back, with the other bits at 0.
#[inline]
fn spread_uppers(bits: u32) -> u64 {
    let sixteen = u64::from(bits & 0xFFFF);
    let eights = (sixteen | sixteen << 24) & 0x0000_00FF_0000_00FF;
    let fours = (eights | eights << 12) & 0x000F_000F_000F_000F;
    let twos = (fours | fours << 6) & 0x0303_0303_0303_0303;
    twos << 6
}

#[inline]
fn eight_bytes(bytes: &[u8], at: usize) -> &[u8; 8] {
    bytes[at..].first_chunk().expect("every part has the row")
}

#[inline]
fn eight_bytes_mut(bytes: &mut [u8], at: usize) -> &mut [u8; 8] {
    bytes[at..]
        .first_chunk_mut()
        .expect("every part has the row")
}

/// USERCODE's pattern in whole bytes from an index.
#[inline]
fn uppers_at(bytes: &[u8], at: usize) -> u32 {
    gather_uppers(u64::from_be_bytes(*eight_bytes(bytes, at)))
}

#[inline]
fn put_uppers_at(bytes: &mut [u8], at: usize, bits: u32) {
    let row = eight_bytes_mut(bytes, at);
    *row = (u64::from_be_bytes(*row) & !UPPER | spread_uppers(bits)).to_be_bytes();
}

const ROW_6_IN_IMAGE: usize = ROW_6 * MAIN_ROW_FUSES as usize / 8;
const ROW_7_IN_IMAGE: usize = ROW_7 * MAIN_ROW_FUSES as usize / 8;
const ROW_6_IN_READOUT: usize = ROW_6 * MAIN_ROW_BYTES as usize;
const ROW_7_IN_READOUT: usize = ROW_7 * MAIN_ROW_BYTES as usize;

#[inline]
fn usercode_in_image(image: &[u8]) -> u32 {
    let low = u64::from_le_bytes(*eight_bytes(image, ROW_7_IN_IMAGE)) >> 4;
    let row_7 = low | u64::from(image[ROW_7_IN_IMAGE + 8]) << 60;
    uppers_at(image, ROW_6_IN_IMAGE) << 16 | gather_uppers(row_7.swap_bytes())
}

#[inline]
fn put_usercode_in_image(image: &mut [u8], pattern: u32) {
    put_uppers_at(image, ROW_6_IN_IMAGE, pattern >> 16);
    let bits = spread_uppers(pattern).swap_bytes();
    let row_7 = eight_bytes_mut(image, ROW_7_IN_IMAGE);
    *row_7 = (u64::from_le_bytes(*row_7) & !(UPPER << 4) | bits << 4).to_le_bytes();
    let last = &mut image[ROW_7_IN_IMAGE + 8];
    *last = *last & !(UPPER >> 60) as u8 | (bits >> 60) as u8;
}

/// The pattern of a setting in an image.
pub fn read_in_image(device: Device, image: &[u8], setting: u32) -> Answer<u32> {
    let part = Part::of(device)?;
    part.check_image(image)?;
    let spot = spot(device, part, setting)?;
    if spot.width == 32 {
        return Ok(usercode_in_image(image));
    }
    let mut pattern = 0;
    for i in 0..spot.width {
        let fuse = spot.fuse + i * MAIN_ROW_FUSES;
        pattern |= u32::from(image[fuse as usize / 8] >> (fuse % 8) & 1) << i;
    }
    Ok(pattern)
}

/// Puts a setting to a pattern in an image.
pub fn set_in_image(device: Device, image: &mut [u8], setting: u32, pattern: u32) -> Answer<()> {
    let part = Part::of(device)?;
    part.check_image(image)?;
    let spot = spot(device, part, setting)?;
    check_pattern(pattern, spot.width)?;
    if spot.width == 32 {
        put_usercode_in_image(image, pattern);
        return Ok(());
    }
    for i in 0..spot.width {
        let fuse = spot.fuse + i * MAIN_ROW_FUSES;
        put_bit(&mut image[fuse as usize / 8], fuse % 8, pattern >> i);
    }
    Ok(())
}

/// The pattern of a setting in a readout, unless a byte that holds it has a bit above its width.
pub fn read_in_readout(device: Device, readout: &[u8], setting: u32) -> Answer<u32> {
    let part = Part::of(device)?;
    part.check_readout(readout)?;
    let spot = spot(device, part, setting)?;
    if spot.width == 32 {
        let row_6 = uppers_at(readout, ROW_6_IN_READOUT);
        return Ok(row_6 << 16 | uppers_at(readout, ROW_7_IN_READOUT));
    }
    check_spot(readout, &spot)?;
    let mut pattern = 0;
    for i in 0..spot.width {
        let byte = readout[(spot.byte + i * MAIN_ROW_BYTES) as usize];
        pattern |= u32::from(byte >> spot.bit & 1) << i;
    }
    Ok(pattern)
}

/// Puts a setting to a pattern in a readout, unless a byte that holds it has a bit above its width.
pub fn set_in_readout(
    device: Device,
    readout: &mut [u8],
    setting: u32,
    pattern: u32,
) -> Answer<()> {
    let part = Part::of(device)?;
    part.check_readout(readout)?;
    let spot = spot(device, part, setting)?;
    check_pattern(pattern, spot.width)?;
    if spot.width == 32 {
        put_uppers_at(readout, ROW_6_IN_READOUT, pattern >> 16);
        put_uppers_at(readout, ROW_7_IN_READOUT, pattern);
        return Ok(());
    }
    check_spot(readout, &spot)?;
    for i in 0..spot.width {
        let byte = &mut readout[(spot.byte + i * MAIN_ROW_BYTES) as usize];
        put_bit(byte, spot.bit, pattern >> i);
    }
    Ok(())
}

#[inline]
pub(crate) fn u64_at<const N: usize>(bytes: &[u8; N], at: usize) -> u64 {
    u64::from_le_bytes(*bytes[at..].first_chunk().expect("the word is in the rows"))
}

#[inline]
fn u32_at<const N: usize>(bytes: &[u8; N], at: usize) -> u32 {
    u32::from_le_bytes(*bytes[at..].first_chunk().expect("the word is in the rows"))
}

#[inline]
pub(crate) fn put_u64<const N: usize>(bytes: &mut [u8; N], at: usize, word: u64) {
    bytes[at..at + 8].copy_from_slice(&word.to_le_bytes());
}

#[inline]
fn put_u32<const N: usize>(bytes: &mut [u8; N], at: usize, word: u32) {
    bytes[at..at + 4].copy_from_slice(&word.to_le_bytes());
}
