// Texts to read: texts of good form put together at random, and the damage done to them.
// A text is kept in pieces while fields are changed, so that its two sums can be made right again.

use crate::comparison::IMAGE;
use std::ops::Range;
use xc9500_reference::random::Random;
use xc9500_reference::{fuse_count, fuse_sum, image_bytes, text_to_image, Device, BLOCK_COUNTS};

pub const STX: u8 = 2;
pub const ETX: u8 = 3;
const BLANKS: [u8; 4] = [b' ', b'\t', b'\r', b'\n'];

/// Bytes that mean something somewhere, and some that look like them but mean nothing.
pub const ODD_BYTES: &[u8] =
    b"*\x02\x03 \t\r\n\x0B\x0C\x00\x85\xA0QFLCNJXPVGEqflcn01289aFfGg+-.,;\xFF";

/// Fields that are bad anywhere, or good in some places and bad in others.
pub const ODD_FIELDS: &[&[u8]] = &[
    b"",
    b"Z",
    b"V1 0",
    b"G0",
    b"E0",
    b"D",
    b"Q",
    b"QX",
    b"QF",
    b"QF1x",
    b"QF18144",
    b"QF41472",
    b"QF00018144",
    b"QF99999999",
    b"QF-1",
    b"QF 1",
    b"QF1 ",
    b"qf18144",
    b"F",
    b"F0",
    b"F1",
    b"F2",
    b"F00",
    b"F 1",
    b"F1 ",
    b"L",
    b"L0",
    b"L0 ",
    b"L01",
    b"L 0 1",
    b"L0 1",
    b"L0\n1",
    b"L0\t0 1\r\n",
    b"L0 2",
    b"L0 1x",
    b"L0\x0B1",
    b"L00000003 1",
    b"L0000003 1",
    b"L18143 1",
    b"L18144 1",
    b"L18144 ",
    b"L9999999 1",
    b"L9999999 ",
    b"l0 1",
    b"C",
    b"C000",
    b"C0000",
    b"C00000",
    b"C000G",
    b"C 000",
    b"C0000 ",
    b"Cd324",
    b"c0000",
    b"N",
    b"N any byte \xFF\x00",
    b"N\x02",
    b"N\x03",
    b"n",
    b"J",
    b"X1",
    b"QP84",
    b"QV0",
    b"\x02",
    b"\x02N",
];

/// A sum in four digits, in either case or in both.
pub fn hex(sum: u16, random: &mut Random) -> Vec<u8> {
    let lower = random.below(2) == 0;
    let mixed = random.below(4) == 0;
    let mut digits = format!("{sum:04X}").into_bytes();
    for digit in &mut digits {
        if lower != (mixed && random.below(2) == 0) {
            digit.make_ascii_lowercase();
        }
    }
    digits
}

/// The low 16 bits of the sum of some bytes.
pub fn low_16(bytes: &[u8]) -> u16 {
    bytes.iter().map(|byte| u64::from(*byte)).sum::<u64>() as u16
}

/// A field, with the blanks before it and without its star.
#[derive(Clone)]
pub struct Field {
    pub blanks: Vec<u8>,
    pub body: Vec<u8>,
}

impl Field {
    pub fn new(body: impl Into<Vec<u8>>) -> Field {
        Field {
            blanks: Vec::new(),
            body: body.into(),
        }
    }

    pub fn is(&self, letters: &str) -> bool {
        self.body.starts_with(letters.as_bytes())
    }
}

/// A text in pieces; `end` is what follows ETX, with the sum or what stands for it.
#[derive(Clone)]
pub struct Pieces {
    pub device: Device,
    pub design: Vec<u8>,
    pub fields: Vec<Field>,
    pub before_etx: Vec<u8>,
    pub end: Vec<u8>,
}

impl Pieces {
    /// A text of these fields with its right transmission sum.
    pub fn new(device: Device, fields: &[&str]) -> Pieces {
        let mut pieces = Pieces {
            device,
            design: Vec::new(),
            fields: fields.iter().map(|body| Field::new(*body)).collect(),
            before_etx: Vec::new(),
            end: Vec::new(),
        };
        pieces.put_right_sum();
        pieces
    }

    /// The bytes up to ETX, over which the transmission sum is taken.
    fn up_to_etx(&self) -> Vec<u8> {
        let mut text = vec![STX];
        text.extend(&self.design);
        text.push(b'*');
        for field in &self.fields {
            text.extend(&field.blanks);
            text.extend(&field.body);
            text.push(b'*');
        }
        text.extend(&self.before_etx);
        text.push(ETX);
        text
    }

    pub fn bytes(&self) -> Vec<u8> {
        let mut text = self.up_to_etx();
        text.extend(&self.end);
        text
    }

    /// Where a field starts, after its blanks; the number of fields gives ETX.
    pub fn offset(&self, number: usize) -> usize {
        let mut offset = 1 + self.design.len() + 1;
        for field in &self.fields[..number] {
            offset += field.blanks.len() + field.body.len() + 1;
        }
        offset
            + match self.fields.get(number) {
                Some(field) => field.blanks.len(),
                None => self.before_etx.len(),
            }
    }

    /// Puts the right transmission sum after ETX, with nothing after it.
    pub fn put_right_sum(&mut self) {
        self.end = format!("{:04X}", low_16(&self.up_to_etx())).into_bytes();
    }

    /// Puts the right sum into each C field, if the text can be read without them.
    pub fn put_right_checksum(&mut self, random: &mut Random) {
        let mut without = self.clone();
        without.fields.retain(|field| !field.is("C"));
        if without.fields.len() == self.fields.len() {
            return;
        }
        without.end = b"0000".to_vec();
        let mut image = vec![0; image_bytes(self.device).unwrap()];
        if text_to_image(self.device, &without.bytes(), &mut image).is_ok() {
            let sum = fuse_sum(self.device, &image).unwrap();
            for field in &mut self.fields {
                if field.is("C") {
                    field.body = [b"C", &hex(sum, random)[..]].concat();
                }
            }
        }
    }

    /// One of the fields that start with these letters.
    pub fn one_of(&self, letters: &str, random: &mut Random) -> Option<usize> {
        let numbers = 0..self.fields.len();
        let those: Vec<usize> = numbers.filter(|i| self.fields[*i].is(letters)).collect();
        (!those.is_empty()).then(|| random.pick(&those))
    }

    /// A place between two fields, or before or after all.
    pub fn gap(&self, random: &mut Random) -> usize {
        random.below(self.fields.len() as u64 + 1) as usize
    }
}

fn blanks(most: u64, random: &mut Random) -> Vec<u8> {
    let count = random.below(most + 1);
    (0..count).map(|_| random.pick(&BLANKS)).collect()
}

/// Bytes that may stand in design text and comments.
fn free_bytes(random: &mut Random) -> Vec<u8> {
    let count = random.below(12) as usize;
    let mut bytes = random.bytes(count);
    bytes.retain(|byte| ![b'*', STX, ETX].contains(byte));
    bytes
}

/// A number in up to seven digits.
fn number(number: usize, random: &mut Random) -> String {
    let digits = 1 + random.below(7) as usize;
    format!("{number:0digits$}")
}

/// An L field with random states, and blanks now and then.
pub fn list(first: usize, length: usize, random: &mut Random) -> Vec<u8> {
    let mut body = format!("L{}", number(first, random)).into_bytes();
    body.push(random.pick(&BLANKS));
    let blank_one_in = random.pick(&[3, 9, 1000]);
    for _ in 0..length {
        if random.below(blank_one_in) == 0 {
            body.extend(blanks(3, random));
        }
        body.push(random.pick(b"01"));
    }
    if random.below(4) == 0 {
        body.extend(blanks(3, random));
    }
    body
}

/// A random text of good form with right sums, mostly of two blocks.
pub fn good_text(random: &mut Random) -> Pieces {
    let blocks = match random.below(16) {
        0 => random.pick(&BLOCK_COUNTS),
        1 => 4,
        _ => 2,
    };
    let class = random.below(2) as u32;
    good_text_of(Device { blocks, class }, random)
}

/// All fuses of a part, cut at random into L fields of at most so many fuses each.
pub fn cuts(count: usize, longest: usize, random: &mut Random) -> Vec<Range<usize>> {
    let mut lists = Vec::new();
    let mut first = 0;
    while first < count {
        let end = count.min(first + 1 + random.below(longest as u64) as usize);
        lists.push(first..end);
        first = end;
    }
    lists
}

/// A few short L fields, near the start or the end of a part.
fn few_lists(count: usize, random: &mut Random) -> Vec<Range<usize>> {
    let near_the_start = random.below(100) as usize;
    let mut next = random.pick(&[0, near_the_start, count - 200]);
    let longest = random.pick(&[9, 40, 120]);
    let mut lists = Vec::new();
    for _ in 0..random.below(6) {
        let gap = random.below(30) as usize;
        let first = next + random.pick(&[0, 0, gap]);
        let length = 1 + random.below(longest) as usize;
        if first + length > count {
            break;
        }
        lists.push(first..first + length);
        next = first + length;
    }
    lists
}

/// A random text of good form of a device, with right sums; a few have no F and some fuse not given.
pub fn good_text_of(device: Device, random: &mut Random) -> Pieces {
    let count = fuse_count(device).unwrap() as usize;
    let mut bodies = vec![format!("QF{}", number(count, random)).into_bytes()];
    // L fields for every fuse make a long text, so there are few such texts.
    let lists = match random.below(60) {
        0 => {
            let longest = random.pick(&[40, 300, count]);
            cuts(count, longest, random)
        }
        1..=3 => few_lists(count, random),
        _ => {
            bodies.push(random.pick(&[b"F0", b"F1"]).to_vec());
            few_lists(count, random)
        }
    };
    for fuses in lists {
        bodies.push(list(fuses.start, fuses.len(), random));
    }
    if random.below(3) > 0 {
        bodies.push(b"C0000".to_vec());
    }
    let mut pieces = pieces_of(device, bodies, random);
    pieces.put_right_checksum(random);
    pieces.put_right_sum();
    pieces.end.extend(blanks(2, random));
    pieces
}

/// A text of these fields, with design text, comments and blanks; it has its right transmission sum.
pub fn pieces_of(device: Device, mut bodies: Vec<Vec<u8>>, random: &mut Random) -> Pieces {
    // A comment or another skipped field may stand anywhere.
    while random.below(3) == 0 {
        let letters = random.pick(&["N", "J", "X", "QP", "QV"]);
        let body = [letters.as_bytes(), &free_bytes(random)[..]].concat();
        bodies.insert(random.below(bodies.len() as u64 + 1) as usize, body);
    }
    let with_blanks = |body| Field {
        blanks: blanks(2, random),
        body,
    };
    let fields = bodies.into_iter().map(with_blanks).collect();
    let mut pieces = Pieces {
        device,
        design: free_bytes(random),
        fields,
        before_etx: blanks(2, random),
        end: Vec::new(),
    };
    pieces.put_right_sum();
    pieces
}

/// A text that was damaged; it is repaired if its sums were made right after that.
pub struct Damaged {
    pub device: Device,
    pub text: Vec<u8>,
    pub repaired: bool,
}

/// A text with up to three changes of its fields and up to two of its bytes.
pub fn damaged(mut pieces: Pieces, random: &mut Random) -> Damaged {
    let repaired = random.below(2) == 0;
    for _ in 0..random.pick(&[0, 0, 1, 1, 2, 3]) {
        damage_field(&mut pieces, random);
    }
    if repaired {
        pieces.put_right_checksum(random);
    }
    // Without a repair the sum is left as it was, not given, or made wrong or right.
    match random.below(4) {
        0 => pieces.end = b"0000".to_vec(),
        1 => pieces.end = random.pick(&[b"0001", b"FFFF", b"1234", b"00a0"]).to_vec(),
        2 => pieces.put_right_sum(),
        _ => {}
    }
    let mut text = pieces.bytes();
    for _ in 0..random.pick(&[0, 0, 0, 0, 0, 1, 2]) {
        damage_bytes(&mut text, random);
    }
    Damaged {
        device: pieces.device,
        repaired: repaired && put_right_sum(&mut text, random),
        text,
    }
}

/// Puts the right sum after the last ETX; false where no four bytes follow one.
pub fn put_right_sum(text: &mut [u8], random: &mut Random) -> bool {
    let Some(etx) = text.iter().rposition(|byte| *byte == ETX) else {
        return false;
    };
    let sum = low_16(&text[..=etx]);
    let Some(digits) = text.get_mut(etx + 1..etx + 5) else {
        return false;
    };
    digits.copy_from_slice(&hex(sum, random));
    true
}

/// Changes one field, or what stands between fields.
fn damage_field(pieces: &mut Pieces, random: &mut Random) {
    let count = fuse_count(pieces.device).unwrap() as usize;
    let any = pieces.one_of("", random);
    match random.below(21) {
        // Swapped, doubled, left out, put in.
        0 => {
            if let (Some(a), Some(b)) = (any, pieces.one_of("", random)) {
                pieces.fields.swap(a, b);
            }
        }
        1 => {
            if let Some(field) = any {
                let copy = pieces.fields[field].clone();
                pieces.fields.insert(pieces.gap(random), copy);
            }
        }
        2 => {
            if let Some(field) = any {
                pieces.fields.remove(field);
            }
        }
        3 => {
            let field = Field::new(random.pick(ODD_FIELDS));
            pieces.fields.insert(pieces.gap(random), field);
        }
        // A byte of a field or of the design text changed, put in or left out.
        4 => {
            if let Some(field) = any {
                damage_bytes(&mut pieces.fields[field].body, random);
            }
        }
        5 => damage_bytes(&mut pieces.design, random),
        // Blanks where some may stand, and bytes that are none.
        6 => {
            let mut odd = blanks(9, random);
            if random.below(2) == 0 {
                odd.push(random.pick(ODD_BYTES));
            }
            match any {
                Some(field) => pieces.fields[field].blanks = odd,
                None => pieces.before_etx = odd,
            }
        }
        // The fuse count.
        7 | 16 => {
            let other = 8 * IMAGE(random.pick(&BLOCK_COUNTS) as usize);
            let wrong = random.pick(&[0, 1, count - 1, count + 1, other, 9_999_999]);
            if let Some(field) = pieces.one_of("QF", random) {
                pieces.fields[field].body = format!("QF{wrong}").into_bytes();
            }
        }
        // Numbers of seven and of eight digits.
        8 => {
            let letters = random.pick(&["QF", "L"]);
            if let Some(field) = pieces.one_of(letters, random) {
                let body = &mut pieces.fields[field].body;
                let is_digit = |byte: &&u8| byte.is_ascii_digit();
                let digits = body[letters.len()..].iter().take_while(is_digit).count();
                let zeros = random.pick(&[7, 7, 8]).max(digits) - digits;
                body.splice(letters.len()..letters.len(), vec![b'0'; zeros]);
            }
        }
        // The start state.
        9 => match pieces.one_of("F", random) {
            Some(field) => pieces.fields[field].body = random.pick(&[b"F0", b"F1"]).to_vec(),
            None => {
                let gap = pieces.gap(random);
                pieces.fields.insert(gap, Field::new("F1"));
            }
        },
        // No start state.
        18 => {
            if let Some(field) = pieces.one_of("F", random) {
                pieces.fields.remove(field);
            }
        }
        // The checksum.
        10 | 11 | 17 | 19 => {
            let any_sum = random.next_u64() as u16;
            let sum = random.pick(&[0, 0xFFFF, any_sum]);
            let body = [b"C", &hex(sum, random)[..]].concat();
            match pieces.one_of("C", random) {
                Some(field) => pieces.fields[field].body = body,
                None => pieces.fields.push(Field::new(body)),
            }
        }
        // Lists: over and below others, at the end of the part and past it.
        12..=14 => {
            let near = pieces.one_of("L", random);
            let near = near.map_or(0, |field| first_of(&pieces.fields[field].body));
            let length = 1 + random.below(40) as usize;
            let first = random.pick(&[
                near,
                near + 1,
                near.saturating_sub(length),
                near.saturating_sub(length - 1),
                count - length,
                count - length + 1,
                count,
                9_999_999,
            ]);
            let field = Field::new(list(first, length, random));
            match pieces.one_of("L", random) {
                Some(list) if random.below(2) == 0 => pieces.fields[list] = field,
                Some(list) => pieces.fields.insert(list + 1, field),
                None => pieces.fields.insert(pieces.gap(random), field),
            }
        }
        // STX or ETX inside.
        _ => {
            let mark = random.pick(&[STX, ETX]);
            let inside = match any {
                Some(field) => &mut pieces.fields[field].body,
                None => &mut pieces.design,
            };
            inside.insert(random.below(inside.len() as u64 + 1) as usize, mark);
        }
    }
}

/// The number of an L field; 0 where it has none that is short.
fn first_of(body: &[u8]) -> usize {
    let digits: Vec<u8> = body[1..]
        .iter()
        .copied()
        .take_while(u8::is_ascii_digit)
        .collect();
    let digits = String::from_utf8(digits).expect("digits are ASCII");
    digits.parse().unwrap_or(0).min(1_000_000)
}

/// Changes a byte, puts one in, takes one out, or cuts the end off.
pub fn damage_bytes(bytes: &mut Vec<u8>, random: &mut Random) {
    let at = random.below(bytes.len() as u64 + 1) as usize;
    match random.below(5) {
        0 if at < bytes.len() => bytes[at] = random.pick(ODD_BYTES),
        1 if at < bytes.len() => bytes[at] ^= 1 << random.below(8),
        2 if at < bytes.len() => {
            bytes.remove(at);
        }
        3 => bytes.truncate(at),
        _ => bytes.insert(at, random.pick(ODD_BYTES)),
    }
}

/// The text that the writer gives, in pieces.
pub fn pieces_of_written(device: Device, text: &[u8]) -> Pieces {
    let etx = text
        .iter()
        .rposition(|byte| *byte == ETX)
        .expect("a written text has ETX");
    let mut parts: Vec<&[u8]> = text[1..etx].split(|byte| *byte == b'*').collect();
    let before_etx = parts.pop().expect("there is a last part").to_vec();
    let design = parts.remove(0).to_vec();
    let in_pieces = |part: &&[u8]| Field {
        blanks: part[..1].to_vec(),
        body: part[1..].to_vec(),
    };
    Pieces {
        device,
        design,
        fields: parts.iter().map(in_pieces).collect(),
        before_etx,
        end: text[etx + 1..].to_vec(),
    }
}
