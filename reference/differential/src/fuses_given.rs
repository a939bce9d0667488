// Texts in which L fields or an F give every fuse, or some fuse is not given: request K3 of document 02.
// Each text is made to be of one kind, with the answer that it must get; the reference confirms how it was made.

use crate::texts::{cuts, hex, list, low_16, pieces_of, Field, Pieces};
use std::ops::Range;
use xc9500_reference::random::Random;
use xc9500_reference::{
    fuse_count, fuse_sum, image_bytes, text_to_image, Answer, Device, Refusal, BLOCK_COUNTS,
};

/// A text of some kind, and the answer that it must get.
pub struct Made {
    pub pieces: Pieces,
    pub answer: Answer<u64>,
}

/// Makes a text of a kind for a device.
pub type Make = fn(Device, &mut Random) -> Made;

/// Every kind of text, with its name.
pub const KINDS: &[(&str, Make)] = &[
    ("not given before the first L", |device, random| {
        not_given_before(device, random).made(None, random)
    }),
    ("not given between two L", |device, random| {
        not_given_between(device, random).made(None, random)
    }),
    ("not given behind the last L", |device, random| {
        not_given_behind(device, random).made(None, random)
    }),
    ("one state missing", |device, random| {
        one_state_missing(device, random).made(None, random)
    }),
    ("neither F nor L", |device, random| {
        Given::of(device, Vec::new()).made(None, random)
    }),
    ("every fuse by one L", |device, random| {
        accepted(device, one_list(device), random)
    }),
    ("every fuse by thousands of L", |device, random| {
        accepted(device, thousands(device, random), random)
    }),
    ("every fuse by L cut at random", |device, random| {
        accepted(device, few_cuts(device, random), random)
    }),
    ("F behind C", start_state_behind_checksum),
    ("13 and 7", |device, random| {
        any_not_given(device, random).made(Some(7), random)
    }),
    ("13 and 8", |device, random| {
        any_not_given(device, random).made(Some(8), random)
    }),
    ("13 and 9", |device, random| {
        any_not_given(device, random).made(Some(9), random)
    }),
    ("13 and 10", |device, random| {
        any_not_given(device, random).made(Some(10), random)
    }),
    ("13 and 11", |device, random| {
        any_not_given(device, random).made(Some(11), random)
    }),
];

fn refused(number: u32, value: usize) -> Answer<u64> {
    Err(Refusal {
        number,
        value: value as u64,
    })
}

/// What the reference answers for a text.
fn reference(pieces: &Pieces) -> Answer<u64> {
    image(pieces).map(|_| 0)
}

/// The image that the reference reads.
fn image(pieces: &Pieces) -> Answer<Vec<u8>> {
    let mut image = vec![0; image_bytes(pieces.device).unwrap()];
    text_to_image(pieces.device, &pieces.bytes(), &mut image).map(|()| image)
}

/// One L field for all fuses.
fn one_list(device: Device) -> Vec<Range<usize>> {
    let count = fuse_count(device).unwrap() as usize;
    std::iter::once(0..count).collect()
}

/// Thousands of L fields for all fuses; those of a larger part are longer, or the text would be over the size limit.
fn thousands(device: Device, random: &mut Random) -> Vec<Range<usize>> {
    let count = fuse_count(device).unwrap() as usize;
    let longest = if device.blocks == 2 {
        random.pick(&[1, 2, 5, 12])
    } else {
        20
    };
    let lists = cuts(count, longest, random);
    assert!(lists.len() >= 2000, "{} L fields", lists.len());
    lists
}

/// Few or some hundreds of L fields for all fuses.
fn few_cuts(device: Device, random: &mut Random) -> Vec<Range<usize>> {
    let count = fuse_count(device).unwrap() as usize;
    let longest = random.pick(&[100, 1000, count / 2, count]);
    cuts(count, longest, random)
}

/// One, few or thousands of L fields for all fuses.
fn any_cuts(device: Device, random: &mut Random) -> Vec<Range<usize>> {
    match random.below(8) {
        0 => one_list(device),
        1 => thousands(device, random),
        _ => few_cuts(device, random),
    }
}

/// A number from one up to, not including, another.
fn from_to(from: usize, to: usize, random: &mut Random) -> usize {
    from + random.below((to - from) as u64) as usize
}

/// Where a range ends that starts at a fuse and has at most `most` fuses: it is short as often as it is long.
fn end_after(start: usize, most: usize, random: &mut Random) -> usize {
    let longest = random.pick(&[1, 9, 100, most]).min(most);
    start + from_to(1, longest + 1, random)
}

/// The fuses that the L fields of a text give, in order.
struct Given {
    device: Device,
    count: usize,
    lists: Vec<Range<usize>>,
}

/// All fuses but those before the first L.
fn not_given_before(device: Device, random: &mut Random) -> Given {
    let mut given = Given::of(device, any_cuts(device, random));
    let end = end_after(0, given.count - 1, random);
    given.leave_out(0..end);
    given.leave_out_more(end, random);
    assert_eq!(given.lists[0].start, end);
    given
}

/// All fuses but some between two L fields.
fn not_given_between(device: Device, random: &mut Random) -> Given {
    let mut given = Given::of(device, any_cuts(device, random));
    let start = from_to(1, given.count - 1, random);
    let end = end_after(start, given.count - 1 - start, random);
    given.leave_out(start..end);
    given.leave_out_more(end, random);
    let mut lists = given.lists.iter();
    assert!(lists.any(|list| list.end == start) && lists.any(|list| list.start == end));
    given
}

/// All fuses but those behind the last L.
fn not_given_behind(device: Device, random: &mut Random) -> Given {
    let mut given = Given::of(device, any_cuts(device, random));
    let start = given.count - end_after(0, given.count - 1, random);
    given.leave_out(start..given.count);
    assert_eq!(given.lists.last().map(|list| list.end), Some(start));
    given
}

/// All fuses but the last of some L field, which is left out where it gives no other.
fn one_state_missing(device: Device, random: &mut Random) -> Given {
    let mut given = Given::of(device, any_cuts(device, random));
    let end = random.pick(&given.lists.iter().map(|list| list.end).collect::<Vec<_>>());
    given.leave_out(end - 1..end);
    assert!(given.is_all_but(end - 1));
    given
}

/// A text of one of these kinds.
fn any_not_given(device: Device, random: &mut Random) -> Given {
    let kinds = [
        not_given_before,
        not_given_between,
        not_given_behind,
        one_state_missing,
    ];
    random.pick(&kinds)(device, random)
}

impl Given {
    fn of(device: Device, lists: Vec<Range<usize>>) -> Given {
        let count = fuse_count(device).unwrap() as usize;
        Given {
            device,
            count,
            lists,
        }
    }

    /// Takes fuses out of the L fields that give them.
    fn leave_out(&mut self, fuses: Range<usize>) {
        let mut lists = Vec::new();
        for list in &self.lists {
            let before = list.start..list.end.min(fuses.start);
            let behind = list.start.max(fuses.end)..list.end;
            lists.extend([before, behind].into_iter().filter(|part| !part.is_empty()));
        }
        self.lists = lists;
    }

    /// In half the cases takes out some more behind a fuse that stays.
    fn leave_out_more(&mut self, stays: usize, random: &mut Random) {
        if random.below(2) == 0 && stays + 1 < self.count {
            let start = from_to(stays + 1, self.count, random);
            let end = end_after(start, self.count - start, random);
            self.leave_out(start..end);
        }
    }

    /// The first fuse that no L field gives, found fuse by fuse.
    fn first_not_given(&self) -> Option<usize> {
        let mut given = vec![false; self.count];
        for list in &self.lists {
            given[list.clone()].fill(true);
        }
        given.iter().position(|given| !given)
    }

    /// The text with these L fields and no F.
    fn pieces(&self, random: &mut Random) -> Pieces {
        let mut bodies = vec![format!("QF{}", self.count).into_bytes()];
        for fuses in &self.lists {
            bodies.push(list(fuses.start, fuses.len(), random));
        }
        pieces_of(self.device, bodies, random)
    }

    /// The text, in which some fuse is not given, with one more fault or none; of the two, the one that comes first in
    /// the order 7, 8, 9, 13, 10, 11 is the answer.
    fn made(self, fault: Option<u32>, random: &mut Random) -> Made {
        let first = self.first_not_given().expect("some fuse is not given");
        let mut pieces = self.pieces(random);
        // Without the fault it is 13.
        if fault.is_some() {
            assert_eq!(reference(&pieces), refused(13, first));
        }
        let answer = match fault {
            Some(7) => refused(7, bad_form(&mut pieces, random)),
            Some(8) => refused(8, other_count(&mut pieces, random)),
            Some(9) => refused(9, self.misplaced_list(&mut pieces, random)),
            Some(10) => {
                wrong_checksum(&mut pieces, random);
                refused(13, first)
            }
            Some(11) => {
                wrong_sum(&mut pieces, random);
                refused(13, first)
            }
            _ => refused(13, first),
        };
        // With an F it is the fault alone.
        let number =
            reference(&with_start_state(&pieces, "F0", fault)).map_err(|refusal| refusal.number);
        assert_eq!(number, fault.map_or(Ok(0), Err));
        Made { pieces, answer }
    }

    /// Puts in an L field that starts too early or runs past the count; answers where it is.
    fn misplaced_list(&self, pieces: &mut Pieces, random: &mut Random) -> usize {
        let last = self.lists.last().expect("there is an L field");
        let first = self.first_not_given().expect("some fuse is not given");
        let misplaced = match random.below(3) {
            // The first fuse not given, behind an L field that is behind it; other fuses are still not given.
            0 if first < last.start && !self.is_all_but(first) => first..first + 1,
            1 => last.start..last.end,
            _ => self.count..self.count + 1 + random.below(40) as usize,
        };
        let place = pieces.fields.len();
        let body = list(misplaced.start, misplaced.len(), random);
        pieces.fields.push(Field::new(body));
        pieces.put_right_sum();
        pieces.offset(place)
    }

    /// True where this fuse alone is not given.
    fn is_all_but(&self, fuse: usize) -> bool {
        let given: usize = self.lists.iter().map(Range::len).sum();
        self.first_not_given() == Some(fuse) && given + 1 == self.count
    }
}

/// A text of L fields that give every fuse, with a C in half the cases.
fn accepted(device: Device, lists: Vec<Range<usize>>, random: &mut Random) -> Made {
    let given = Given::of(device, lists);
    assert_eq!(given.first_not_given(), None);
    let mut pieces = given.pieces(random);
    if random.below(2) == 0 {
        pieces.fields.push(Field::new("C0000"));
        pieces.put_right_checksum(random);
        pieces.put_right_sum();
    }
    Made {
        pieces,
        answer: Ok(0),
    }
}

/// A text without L in which F follows C.
fn start_state_behind_checksum(device: Device, random: &mut Random) -> Made {
    let count = fuse_count(device).unwrap();
    let start = random.pick(&["F0", "F1"]);
    let bodies = [&format!("QF{count}"), "C0000", start].map(|body| body.as_bytes().to_vec());
    let mut pieces = pieces_of(device, bodies.to_vec(), random);
    pieces.put_right_checksum(random);
    pieces.put_right_sum();
    let place = |letters: &str| pieces.fields.iter().position(|field| field.is(letters));
    assert!(place("C") < place("F"));
    Made {
        pieces,
        answer: Ok(0),
    }
}

/// The text with an F behind its QF; a fault stays, and a sum that was right is not given.
fn with_start_state(pieces: &Pieces, start: &str, fault: Option<u32>) -> Pieces {
    let mut pieces = pieces.clone();
    let count = pieces.fields.iter().position(|field| field.is("QF"));
    pieces
        .fields
        .insert(count.expect("there is a QF") + 1, Field::new(start));
    if ![Some(7), Some(11)].contains(&fault) {
        pieces.end = b"0000".to_vec();
    }
    pieces
}

/// Puts a fault into the form of a text; answers where it is.
fn bad_form(pieces: &mut Pieces, random: &mut Random) -> usize {
    match random.below(4) {
        // A field that is bad anywhere.
        0 => {
            let gap = pieces.gap(random);
            let field = random.pick(&["", "Z", "QX", "F2", "L0 2", "C000"]);
            pieces.fields.insert(gap, Field::new(field));
            pieces.put_right_sum();
            pieces.offset(gap)
        }
        // An F, which is bad behind an L.
        1 => {
            let place = pieces.fields.len();
            pieces.fields.push(Field::new(random.pick(&["F0", "F1"])));
            pieces.put_right_sum();
            pieces.offset(place)
        }
        // A byte too many, or some too few.
        2 => {
            pieces.end.push(random.pick(b"x0*"));
            pieces.bytes().len() - 1
        }
        _ => {
            pieces.end.truncate(random.below(4) as usize);
            pieces.bytes().len()
        }
    }
}

/// Makes the fuse count another; answers where it is.
fn other_count(pieces: &mut Pieces, random: &mut Random) -> usize {
    let right = fuse_count(pieces.device).unwrap();
    let blocks = random.pick(&BLOCK_COUNTS);
    let mut other = fuse_count(Device {
        blocks,
        ..pieces.device
    })
    .unwrap();
    if other == right {
        other = random.pick(&[0, 1, right - 1, right + 1, 9_999_999]);
    }
    let place = pieces.fields.iter().position(|field| field.is("QF"));
    let place = place.expect("there is a QF");
    pieces.fields[place].body = format!("QF{other}").into_bytes();
    pieces.put_right_sum();
    pieces.offset(place)
}

/// Puts in a C that is wrong whatever state the fuses not given are taken to have.
fn wrong_checksum(pieces: &mut Pieces, random: &mut Random) {
    let right = ["F0", "F1"].map(|start| {
        let image = image(&with_start_state(pieces, start, None)).unwrap();
        fuse_sum(pieces.device, &image).unwrap()
    });
    let mut wrong = random.next_u64() as u16;
    while right.contains(&wrong) {
        wrong = wrong.wrapping_add(1);
    }
    let body = [b"C", &hex(wrong, random)[..]].concat();
    pieces.fields.push(Field::new(body));
    pieces.put_right_sum();
}

/// Makes the transmission sum wrong, by too little for an F to make it right.
fn wrong_sum(pieces: &mut Pieces, random: &mut Random) {
    let right = low_16(&pieces.bytes()[..=pieces.offset(pieces.fields.len())]);
    let mut wrong = right.wrapping_add(1 + random.below(100) as u16);
    if wrong == 0 {
        wrong = 1;
    }
    pieces.end = hex(wrong, random);
}
