// The texts that the library's definitions are proved to answer, answered by the independent program.
// They are read out of the library's specification; each must be refused, or accepted, alike.

use xc9500_reference::*;

const CASES: &str = include_str!("../../crates/jedec/specs/Cases.antt");
const DEVICE: Device = Device {
    blocks: 2,
    class: SMALL,
};
/// The fuses of that device.
const FUSES: usize = 18144;
const IMAGE_BYTES: usize = 2268;

/// A list of texts: its name, the fuses of the part, and how many texts are accepted and refused, so that none is
/// passed over.
struct List {
    name: &'static str,
    fuses: usize,
    accepted: usize,
    refused: usize,
}

/// Every list of texts in the specification.
const LISTS: [List; 3] = [
    List {
        name: "accepted_texts",
        fuses: FUSES,
        accepted: 10,
        refused: 0,
    },
    List {
        name: "refused_texts",
        fuses: FUSES,
        accepted: 0,
        refused: 79,
    },
    List {
        name: "eight_fuse_texts",
        fuses: 8,
        accepted: 4,
        refused: 9,
    },
];

/// The bytes of a text as the specification writes it: characters between quotes, numbers, and the names of two;
/// `file` puts STX and ETX around its two.
fn bytes(written: &str) -> Vec<u8> {
    let mut bytes = Vec::new();
    if let Some(quoted) = written.strip_prefix("file ") {
        let parts: Vec<&str> = quoted.split('"').collect();
        bytes.push(2);
        bytes.extend(parts[1].bytes());
        bytes.push(3);
        bytes.extend(parts[3].bytes());
        return bytes;
    }
    // Every second part stands between quotes.
    for (number, part) in written.split('"').enumerate() {
        if number % 2 == 1 {
            bytes.extend(part.bytes());
            continue;
        }
        for word in part.split([' ', '∷', '+']).filter(|word| !word.is_empty()) {
            match word {
                "[]" | "chars" => {}
                "stx" => bytes.push(2),
                "etx" => bytes.push(3),
                number => bytes.push(number.parse().expect("a byte")),
            }
        }
    }
    bytes
}

/// What the specification says of a text.
fn expected(answer: &str) -> Answer<Vec<u8>> {
    let words: Vec<&str> = answer.split(' ').collect();
    match words[..] {
        ["accepted", "all_ones"] => Ok(vec![0xFF; IMAGE_BYTES]),
        ["accepted", "all_zeros"] => Ok(vec![0; IMAGE_BYTES]),
        ["accepted", "only_first"] => Ok(all_but(0, 0, 1)),
        ["accepted", "all_but_first"] => Ok(all_but(0xFF, 0, 0xFE)),
        ["accepted", "only_last"] => Ok(all_but(0, IMAGE_BYTES - 1, 0x80)),
        ["accepted", "eight_fuses"] => Ok(vec![165]),
        ["refused", number, value] => Err(Refusal {
            number: number.parse().expect("a number"),
            value: value.parse().expect("a value"),
        }),
        _ => panic!("what does {answer} mean?"),
    }
}

/// An image of one byte over and over, but for one.
fn all_but(byte: u8, index: usize, other: u8) -> Vec<u8> {
    let mut image = vec![byte; IMAGE_BYTES];
    image[index] = other;
    image
}

/// The cases of a list, each a text and an answer as the specification writes them.
fn cases_of(list: &List) -> Vec<(String, String)> {
    let start = format!("\n{} =\n", list.name);
    let (_, after) = CASES.split_once(&start).expect("the list is there");
    // Each of the lists ends with the first empty line.
    let (lines, _) = after.split_once("\n\n").expect("the list ends");
    let mut cases = Vec::new();
    // A case that is too long for one line goes on at the bracket of its answer.
    for line in lines.replace("\n    (", " (").lines() {
        let Some(case) = line.trim_start_matches([' ', '∷']).strip_prefix("is (") else {
            continue;
        };
        let (text, answer) = case.split_once(") (").expect("a text and an answer");
        let answer = answer.strip_suffix(')').expect("an answer");
        cases.push((text.to_string(), answer.to_string()));
    }
    cases
}

#[test]
fn each_text_is_answered_as_stated() {
    assert_eq!(fuse_count(DEVICE), Ok(FUSES as u32));
    let mut texts = 0;
    for list in LISTS {
        let (mut accepted, mut refused) = (0, 0);
        for (written, answer) in cases_of(&list) {
            let text = bytes(&written);
            let given = image_of_text(list.fuses, &text);
            assert_eq!(given, expected(&answer), "{}: {written}", list.name);
            if list.fuses == FUSES {
                let mut image = vec![0xA5; IMAGE_BYTES];
                let by_device = text_to_image(DEVICE, &text, &mut image).map(|()| image);
                assert_eq!(by_device, given, "{}: {written}", list.name);
            }
            match given {
                Ok(_) => accepted += 1,
                Err(_) => refused += 1,
            }
        }
        assert_eq!(
            (accepted, refused),
            (list.accepted, list.refused),
            "texts of {} accepted and refused: found in Cases.antt, and expected here",
            list.name
        );
        texts += accepted + refused;
    }
    let stated = CASES.matches("is (").count();
    assert_eq!(stated, texts, "`is (` in Cases.antt, and texts read");
}
