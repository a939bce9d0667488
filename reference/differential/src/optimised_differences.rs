// The list of the fuses that differ as it would be written in Rust, for the benchmark: names from tables, words.
// The tests hold it to the reference, answer by answer and byte by byte.

use crate::optimised::{refuse, u64_at, Part};
use xc9500_reference::{Answer, Device, LARGE};

// A chunk is 27 bytes, 216 fuses: two main rows, or six wire-AND rows. Every area is whole chunks.
const CHUNK_BYTES: usize = 27;
const CHUNK_FUSES: usize = 8 * CHUNK_BYTES;
const MAIN_CHUNKS: usize = 36;
const MAIN_ROWS: usize = 72;
const WIRE_AND_ROWS: usize = 18 * 16;

// A name is made of three pieces: the block, a head that depends on the place in the chunk alone, and an ending.
// `FB0 MC4 PT2 IM7 P` has the head `MC4 PT2 ` and the ending `IM7 P`, and `FB0 IM7 UIM FB1 MC3` the head `IM7 UIM `.
// A piece is copied with the zeros behind it, and the next piece is written over them.

/// Some text, with zeros behind it.
#[derive(Clone, Copy)]
#[repr(align(32))]
struct Piece<const N: usize> {
    bytes: [u8; N],
    length: usize,
}

impl<const N: usize> Piece<N> {
    const EMPTY: Piece<N> = Piece {
        bytes: [0; N],
        length: 0,
    };

    const fn text(mut self, text: &[u8]) -> Piece<N> {
        let mut i = 0;
        while i < text.len() {
            self.bytes[self.length] = text[i];
            self.length += 1;
            i += 1;
        }
        self
    }

    /// A number below 100.
    const fn number(self, number: usize) -> Piece<N> {
        let digits = [b'0' + number as u8 / 10, b'0' + number as u8 % 10];
        if number < 10 {
            self.text(&[digits[1]])
        } else {
            self.text(&digits)
        }
    }
}

/// The states and the block, as ` 1 0 FB15 `.
type Start = Piece<16>;

/// The longest is `MC17 PT4 `, as long as `IM35 UIM `.
type Head = Piece<16>;

/// The longest is `IMPORT_DOWN_ALLOC`, with LF.
type Text = Piece<24>;

/// The end of a line: the end of a name, and LF.
#[derive(Clone, Copy)]
struct Ending {
    text: Text,
    /// Whether the block stands before it, and the head.
    has_block: bool,
    has_head: bool,
}

/// The end of a line that has neither block nor head.
const fn global(text: Text) -> Ending {
    Ending {
        text: text.text(b"\n"),
        has_block: false,
        has_head: false,
    }
}

const fn of_block(text: Text) -> Ending {
    Ending {
        has_block: true,
        ..global(text)
    }
}

const fn with_head(text: Text) -> Ending {
    Ending {
        has_head: true,
        ..of_block(text)
    }
}

const NO_TEXT: Text = Piece::EMPTY;
const UNNAMED: Ending = global(NO_TEXT.text(b"unnamed"));

/// The ending of a macrocell's field, by row; most other rows have unnamed fuses there.
const fn field_in_row(row: usize) -> Ending {
    let field: &[u8] = match row {
        12..=21 => {
            let term = NO_TEXT.text(b"PT").number((row - 12) / 2);
            return with_head(term.text(b" ALLOC.").number((row - 12) % 2));
        }
        22 => b"INV",
        23 => b"IMPORT_UP_ALLOC",
        24 => b"IMPORT_DOWN_ALLOC",
        25 => b"EXPORT_DIR",
        26 => b"SUM_HP",
        27 => b"IOB_OE_MUX.0",
        28 => b"IOB_OE_MUX.1",
        29 => b"OE_MUX.0",
        30 => b"OE_MUX.1",
        31 => b"OE_MUX.2",
        35 => b"OUT_MUX",
        36 => b"CLK_MUX.0",
        37 => b"CLK_MUX.1",
        40 => b"REG_MODE",
        41 => b"RST_MUX",
        42 => b"SET_MUX",
        43 => b"INIT",
        44 => b"UIM_OE_MUX.0",
        45 => b"UIM_OE_MUX.1",
        46 => b"UIM_OUT_INV",
        48 => b"IOB_GND",
        49 => b"IOB_SLEW",
        50..=54 => {
            let term = NO_TEXT.text(b"PT").number(row - 50);
            return with_head(term.text(b" HP"));
        }
        _ => return UNNAMED,
    };
    with_head(NO_TEXT.text(field))
}

/// Row, column and name of the fields of a block, which lie at bit 6.
const BLOCK_FIELDS: [(usize, usize, &[u8]); 6] = [
    (67, 0, b"ENABLE"),
    (67, 1, b"EXPORT_ENABLE"),
    (68, 6, b"PULLUP_DISABLE"),
    (11, 3, b"READ_PROT_A"),
    (68, 3, b"READ_PROT_B"),
    (68, 0, b"WRITE_PROT"),
];

// Where the endings of each group start in ENDINGS; the literals' are the first.
const OF_FIELDS: usize = MAIN_ROWS;
const OF_BLOCK: usize = OF_FIELDS + MAIN_ROWS;
const OF_INVERTS: usize = OF_BLOCK + BLOCK_FIELDS.len();
const OF_MUXES: usize = OF_INVERTS + 8;
const OF_USERCODE: usize = OF_MUXES + 2 * 7;
const OF_WIRE_ANDS: usize = OF_USERCODE + 32;

/// The name of output enable or clock `i`, in the order of their columns.
const fn clock_or_enable(i: usize) -> Text {
    if i < 3 {
        NO_TEXT.text(b"FCLK[").number(i).text(b"]")
    } else {
        NO_TEXT.text(b"FOE[").number(i - 3).text(b"]")
    }
}

/// An ending is told by a byte, from its chunk's first on, so as many more follow the last as a byte could reach.
const ALL_ENDINGS: usize = OF_WIRE_ANDS + WIRE_AND_ROWS + 256;

/// The endings in main areas: of literals by row, of macrocells' fields by row, then the others. After them those in
/// wire-AND areas, by row.
static ENDINGS: [Ending; ALL_ENDINGS] = {
    let mut endings = [UNNAMED; ALL_ENDINGS];
    let mut row = 0;
    while row < MAIN_ROWS {
        let input = NO_TEXT.text(b"IM").number(row / 2);
        let polarity: &[u8] = if row % 2 == 0 { b" N" } else { b" P" };
        endings[row] = with_head(input.text(polarity));
        endings[OF_FIELDS + row] = field_in_row(row);
        row += 1;
    }
    let mut i = 0;
    while i < BLOCK_FIELDS.len() {
        endings[OF_BLOCK + i] = of_block(NO_TEXT.text(BLOCK_FIELDS[i].2));
        i += 1;
    }
    endings[OF_INVERTS] = global(NO_TEXT.text(b"FSR_INV"));
    let mut i = 0;
    while i < 7 {
        let name = clock_or_enable(i);
        endings[OF_INVERTS + 1 + i] = global(name.text(b".INV"));
        endings[OF_MUXES + 2 * i] = global(name.text(b".MUX.0"));
        endings[OF_MUXES + 2 * i + 1] = global(name.text(b".MUX.1"));
        i += 1;
    }
    let mut bit = 0;
    while bit < 32 {
        endings[OF_USERCODE + bit] = global(NO_TEXT.text(b"USERCODE.").number(bit));
        bit += 1;
    }
    let mut row = 0;
    while row < WIRE_AND_ROWS {
        let source = NO_TEXT.text(b"FB").number(row / 18);
        endings[OF_WIRE_ANDS + row] = with_head(source.text(b" MC").number(row % 18));
        row += 1;
    }
    endings
};

/// Their texts, which is all that a line needs of them.
static TEXTS: [Text; ALL_ENDINGS] = {
    let mut texts = [NO_TEXT; ALL_ENDINGS];
    let mut i = 0;
    while i < ALL_ENDINGS {
        texts[i] = ENDINGS[i].text;
        i += 1;
    }
    texts
};

/// For each fuse of a chunk the ending that it has.
type EndingsOf = [u8; CHUNK_FUSES];

/// The column and bit of a place in a main row.
const fn column_and_bit(place: usize) -> (usize, usize) {
    if place < 72 {
        (place / 8, place % 8)
    } else {
        (9 + (place - 72) / 6, (place - 72) % 6)
    }
}

/// The first block of a small part, that of a large one, and any other block.
static MAIN_ENDINGS_OF: [[EndingsOf; MAIN_CHUNKS]; 3] = [
    main_endings_of(Some(2)),
    main_endings_of(Some(4)),
    main_endings_of(None),
];

/// The same for a block that holds the global fields of so many output enables, or none.
const fn main_endings_of(output_enables: Option<usize>) -> [EndingsOf; MAIN_CHUNKS] {
    let mut of = [[0; CHUNK_FUSES]; MAIN_CHUNKS];
    let mut row = 0;
    while row < MAIN_ROWS {
        let mut place = 0;
        while place < 108 {
            let (_, bit) = column_and_bit(place);
            let ending = if bit < 6 { row } else { OF_FIELDS + row };
            of[row / 2][row % 2 * 108 + place] = ending as u8;
            place += 1;
        }
        row += 1;
    }
    let mut i = 0;
    while i < BLOCK_FIELDS.len() {
        let (row, column, _) = BLOCK_FIELDS[i];
        of[row / 2][row % 2 * 108 + 8 * column + 6] = (OF_BLOCK + i) as u8;
        i += 1;
    }
    let Some(output_enables) = output_enables else {
        return of;
    };
    // FSR_INV lies in column 1, then come three clocks and the output enables.
    let mut i = 0;
    while i < 1 + 3 + output_enables {
        let place = 8 * (1 + i) + 6;
        of[0][place] = (OF_INVERTS + i) as u8;
        if i > 0 {
            let mux = OF_MUXES + 2 * (i - 1);
            of[1][108 + place] = mux as u8;
            of[2][place] = mux as u8 + 1;
        }
        i += 1;
    }
    // The lower half of USERCODE lies in row 7, the upper in row 6, each from column 7 down to column 0.
    let mut bit = 0;
    while bit < 32 {
        let place = 8 * (7 - bit % 16 / 2) + 6 + bit % 2;
        of[3][(1 - bit / 16) * 108 + place] = (OF_USERCODE + bit) as u8;
        bit += 1;
    }
    of
}

/// In a wire-AND chunk the ending is that of the row.
static WIRE_AND_ENDINGS_OF: EndingsOf = {
    let mut of = [0; CHUNK_FUSES];
    let mut place = 0;
    while place < CHUNK_FUSES {
        of[place] = (place / 36) as u8;
        place += 1;
    }
    of
};

/// The heads of a main chunk, with the term where the fuse is a literal's.
static MAIN_HEADS: [Head; CHUNK_FUSES] = {
    let mut heads = [Head::EMPTY; CHUNK_FUSES];
    let mut place = 0;
    while place < CHUNK_FUSES {
        let (column, bit) = column_and_bit(place % 108);
        let head = Head::EMPTY.text(b"MC");
        heads[place] = if bit < 6 {
            let term = head.number(3 * bit + column / 5).text(b" PT");
            term.number(column % 5).text(b" ")
        } else {
            head.number(column + 9 * (bit - 6)).text(b" ")
        };
        place += 1;
    }
    heads
};

/// The heads of a wire-AND chunk.
static WIRE_AND_HEADS: [Head; CHUNK_FUSES] = {
    let mut heads = [Head::EMPTY; CHUNK_FUSES];
    let mut place = 0;
    while place < CHUNK_FUSES {
        let in_row = place % 36;
        let (column, bit) = if in_row < 8 {
            (0, in_row)
        } else {
            (1 + (in_row - 8) / 7, (in_row - 8) % 7)
        };
        let head = Head::EMPTY.text(b"IM").number(column + 5 * bit);
        heads[place] = head.text(b" UIM ");
        place += 1;
    }
    heads
};

/// What stands before the head, by the old state.
static STARTS: [[Start; 2]; 16] = {
    let mut starts = [[Start::EMPTY; 2]; 16];
    let mut block = 0;
    while block < starts.len() {
        let to_1 = Start::EMPTY.text(b" 0 1 FB").number(block);
        let to_0 = Start::EMPTY.text(b" 1 0 FB").number(block);
        starts[block] = [to_1.text(b" "), to_0.text(b" ")];
        block += 1;
    }
    starts
};

/// The states alone.
const STATES: usize = " 0 1 ".len();

/// For each fuse of a chunk the bytes of its name, with LF.
type Lengths = [u8; CHUNK_FUSES];

/// The lengths in a chunk whose block has a name of so many bytes, with the space.
const fn lengths(
    heads: &[Head; CHUNK_FUSES],
    endings_of: &EndingsOf,
    first_ending: usize,
    block: usize,
) -> Lengths {
    let mut lengths = [0; CHUNK_FUSES];
    let mut place = 0;
    while place < CHUNK_FUSES {
        let ending = &ENDINGS[first_ending + endings_of[place] as usize];
        let mut length = ending.text.length;
        if ending.has_block {
            length += block;
        }
        if ending.has_head {
            length += heads[place].length;
        }
        lengths[place] = length as u8;
        place += 1;
    }
    lengths
}

const fn main_lengths(of: &[EndingsOf; MAIN_CHUNKS], block: usize) -> [Lengths; MAIN_CHUNKS] {
    let mut all = [[0; CHUNK_FUSES]; MAIN_CHUNKS];
    let mut chunk = 0;
    while chunk < MAIN_CHUNKS {
        all[chunk] = lengths(&MAIN_HEADS, &of[chunk], 0, block);
        chunk += 1;
    }
    all
}

/// As MAIN_ENDINGS_OF, with the blocks of two digits last.
static MAIN_LENGTHS: [[Lengths; MAIN_CHUNKS]; 4] = [
    main_lengths(&MAIN_ENDINGS_OF[0], "FB0 ".len()),
    main_lengths(&MAIN_ENDINGS_OF[1], "FB0 ".len()),
    main_lengths(&MAIN_ENDINGS_OF[2], "FB0 ".len()),
    main_lengths(&MAIN_ENDINGS_OF[2], "FB10 ".len()),
];

/// Of the three chunks of a subarea, where block and source have one digit each.
static WIRE_AND_LENGTHS: [Lengths; 3] = {
    let mut all = [[0; CHUNK_FUSES]; 3];
    let mut chunk = 0;
    while chunk < 3 {
        let first = OF_WIRE_ANDS + 6 * chunk;
        all[chunk] = lengths(&WIRE_AND_HEADS, &WIRE_AND_ENDINGS_OF, first, "FB0 ".len());
        chunk += 1;
    }
    all
};

/// The last three digits of a number, the first digit lowest. A chunk that starts below a thousand may end above.
static THREE_DIGITS: [u32; 1000 + CHUNK_FUSES] = {
    let mut digits = [0; 1000 + CHUNK_FUSES];
    let mut i = 0;
    while i < digits.len() {
        let number = i as u32;
        let (hundreds, tens, ones) = (number / 100 % 10, number / 10 % 10, number % 10);
        digits[i] = 0x30_3030 + (hundreds | tens << 8 | ones << 16);
        i += 1;
    }
    digits
};

/// How many digits a number below a million has.
fn digits_of(number: u32) -> usize {
    let powers = [10, 100, 1000, 10_000, 100_000];
    1 + powers.iter().filter(|power| number >= **power).count()
}

/// What the names in a chunk are made of.
#[derive(Clone, Copy)]
struct Names {
    starts: &'static [Start; 2],
    heads: &'static [Head; CHUNK_FUSES],
    texts: &'static [Text; 256],
    endings_of: &'static EndingsOf,
    lengths: &'static Lengths,
    /// Bytes of each name that are not in its length: the second digits of block and source.
    more: usize,
}

impl Names {
    /// Of a chunk, which is told by its block and its number there.
    #[inline]
    fn of(device: Device, block: usize, chunk: usize) -> Names {
        let starts = &STARTS[block & 15];
        if chunk < MAIN_CHUNKS {
            let kind = match (block, device.class) {
                (0, LARGE) => 1,
                (0, _) => 0,
                _ => 2,
            };
            let kind_of_length = if block < 10 { kind } else { 3 };
            return Names {
                starts,
                heads: &MAIN_HEADS,
                texts: texts_from(0),
                endings_of: &MAIN_ENDINGS_OF[kind][chunk],
                lengths: &MAIN_LENGTHS[kind_of_length][chunk],
                more: 0,
            };
        }
        let chunk = chunk - MAIN_CHUNKS;
        Names {
            starts,
            heads: &WIRE_AND_HEADS,
            texts: texts_from(OF_WIRE_ANDS + 6 * chunk),
            endings_of: &WIRE_AND_ENDINGS_OF,
            lengths: &WIRE_AND_LENGTHS[chunk % 3],
            more: usize::from(block >= 10) + usize::from(chunk / 3 >= 10),
        }
    }
}

#[inline]
fn texts_from(first: usize) -> &'static [Text; 256] {
    TEXTS[first..].first_chunk().expect("some more follow")
}

/// A chunk that differs, or the part of one whose fuse numbers have so many digits.
struct Chunk<'a> {
    names: &'a Names,
    first: u32,
    digits: usize,
    old: &'a Words,
    differing: Words,
}

/// The fuses of a chunk, each one bit.
type Words = [u64; 4];

#[inline]
fn words(bytes: &[u8; CHUNK_BYTES]) -> Words {
    // The last three bytes are read with the five before them.
    let last = u64_at(bytes, 19) >> 40;
    [u64_at(bytes, 0), u64_at(bytes, 8), u64_at(bytes, 16), last]
}

/// Calls `act` with the word and bit of each fuse at 1.
#[inline(always)]
fn each_one(words: &Words, mut act: impl FnMut(usize, usize)) {
    for (number, word) in words.iter().enumerate() {
        let mut left = *word;
        while left != 0 {
            act(number, left.trailing_zeros() as usize);
            left &= left - 1;
        }
    }
}

/// No line is as long as this, with what is copied behind it.
const LONGEST_LINE: usize = 64;

#[inline(always)]
fn put<const N: usize>(text: &mut [u8; LONGEST_LINE], at: usize, bytes: &[u8; N]) {
    text[at..at + N].copy_from_slice(bytes);
}

impl Chunk<'_> {
    /// How many lines it gives, and their bytes.
    #[inline]
    fn lines(&self) -> (u32, usize) {
        let (mut count, mut names) = (0, 0);
        each_one(&self.differing, |word, bit| {
            count += 1;
            names += usize::from(self.names.lengths[64 * word + bit]);
        });
        let rest = self.digits + STATES + self.names.more;
        (count, count as usize * rest + names)
    }

    /// Writes its lines; answers where they end.
    #[inline]
    fn put_lines(&self, text: &mut [u8], mut at: usize) -> usize {
        let first = self.first as usize;
        let line = Line {
            names: *self.names,
            thousands: [first / 1000, first / 1000 + 1].map(|thousands| THREE_DIGITS[thousands]),
            rest: first % 1000,
            leading_zeros: 48 - 8 * self.digits,
            digits: self.digits,
            head: self.digits + self.names.starts[0].length,
            before_name: self.digits + STATES + self.names.more,
        };
        each_one(&self.differing, |word, bit| {
            let place = 64 * word + bit;
            let state = (self.old[word] >> bit) as usize;
            at += match text[at..].first_chunk_mut() {
                Some(text) => line.put(text, place, state),
                None => put_at_end(line, &mut text[at..], place, state),
            };
        });
        at
    }
}

/// What a chunk's lines have in common.
#[derive(Clone, Copy)]
struct Line {
    names: Names,
    /// The digits of the first number's thousands, and of one more; then what is above the thousands.
    thousands: [u32; 2],
    rest: usize,
    /// The bits of the zeros before a number that is written with six digits.
    leading_zeros: usize,
    /// Where the states stand, and the head; then the bytes that are not in a name's length.
    digits: usize,
    head: usize,
    before_name: usize,
}

impl Line {
    /// Writes a line; answers its length. Each piece is written over what was copied behind the one before it.
    #[inline(always)]
    fn put(&self, text: &mut [u8; LONGEST_LINE], place: usize, state: usize) -> usize {
        let names = &self.names;
        let rest = self.rest + place;
        let thousands = self.thousands[usize::from(rest >= 1000)];
        let number = u64::from(thousands) | u64::from(THREE_DIGITS[rest]) << 24;
        let ending = &names.texts[usize::from(names.endings_of[place])];
        let length = self.before_name + usize::from(names.lengths[place]);
        // The masks only show the compiler that every piece is inside.
        put(text, 0, &(number >> self.leading_zeros).to_le_bytes());
        put(text, self.digits & 7, &names.starts[state & 1].bytes);
        put(text, self.head & 31, &names.heads[place].bytes);
        put(text, (length - ending.length) & 31, &ending.bytes);
        length
    }
}

/// Near the end of the text what is copied behind a line would go too far.
#[cold]
#[inline(never)]
fn put_at_end(line: Line, text: &mut [u8], place: usize, state: usize) -> usize {
    let mut whole = [0; LONGEST_LINE];
    let length = line.put(&mut whole, place, state);
    text[..length].copy_from_slice(&whole[..length]);
    length
}

/// Calls `act` with each chunk that differs. In a few of them the fuse numbers become longer; these come in parts.
#[inline]
fn each_chunk(device: Device, old: &[u8], new: &[u8], mut act: impl FnMut(&Chunk)) {
    let (olds, _) = old.as_chunks::<CHUNK_BYTES>();
    let (news, _) = new.as_chunks::<CHUNK_BYTES>();
    let block_chunks = MAIN_CHUNKS as u32 + 3 * device.blocks;
    for (number, (old, new)) in (0..).zip(olds.iter().zip(news)) {
        if old != new {
            let (block, in_block) = (number / block_chunks, number % block_chunks);
            let first = number * CHUNK_FUSES as u32;
            let (old, new) = (words(old), words(new));
            let mut chunk = Chunk {
                names: &Names::of(device, block as usize, in_block as usize),
                first,
                digits: digits_of(first),
                old: &old,
                differing: xor(&old, &new),
            };
            let last_digits = digits_of(first + CHUNK_FUSES as u32 - 1);
            while chunk.digits < last_digits {
                let longer = 10u32.pow(chunk.digits as u32) - first;
                let others = split_at(&mut chunk.differing, longer as usize);
                act(&chunk);
                chunk.differing = others;
                chunk.digits += 1;
            }
            act(&chunk);
        }
    }
}

#[inline]
fn xor(old: &Words, new: &Words) -> Words {
    [
        old[0] ^ new[0],
        old[1] ^ new[1],
        old[2] ^ new[2],
        old[3] ^ new[3],
    ]
}

/// Takes the fuses at 1 from a place on out of the words.
#[cold]
fn split_at(words: &mut Words, place: usize) -> Words {
    let mut others = [0; 4];
    each_one(&words.clone(), |word, bit| {
        if 64 * word + bit >= place {
            words[word] ^= 1 << bit;
            others[word] |= 1 << bit;
        }
    });
    others
}

/// Writes the fuses that differ; answers the bytes that this takes.
pub fn differences(device: Device, old: &[u8], new: &[u8], text: &mut [u8]) -> Answer<usize> {
    let part = Part::of(device)?;
    part.check_image(old)?;
    part.check_image(new)?;
    let (mut count, mut lines) = (0, 0);
    if old != new {
        each_chunk(device, old, new, |chunk| {
            let (chunk_count, chunk_lines) = chunk.lines();
            count += chunk_count;
            lines += chunk_lines;
        });
    }

    let first_line = digits_of(count) + DIFFER.len();
    let needed = first_line + lines;
    let Some(text) = text.get_mut(..needed) else {
        return refuse(12, needed as u64);
    };
    put_first_line(&mut text[..first_line], count);
    if count > 0 {
        let mut at = first_line;
        each_chunk(device, old, new, |chunk| at = chunk.put_lines(text, at));
    }
    Ok(needed)
}

const DIFFER: &[u8] = b" differ\n";

/// Writes the first line, which is as long as the text.
fn put_first_line(text: &mut [u8], count: u32) {
    let (number, differ) = text.split_at_mut(text.len() - DIFFER.len());
    differ.copy_from_slice(DIFFER);
    let mut left = count;
    for digit in number.iter_mut().rev() {
        *digit = b'0' + (left % 10) as u8;
        left /= 10;
    }
}
