// The settled readings of the text rules, each example with its exact refusal and value.
// H, T, <2>, <3> and the blank mark in an example stand for bytes; plain spaces only part its pieces.

use xc9500_reference::*;

const DEVICE: Device = Device {
    blocks: 2,
    class: SMALL,
};
const COUNT: usize = 18144;

/// The bytes that an example stands for.
fn bytes(example: &str) -> Vec<u8> {
    example
        .replace(' ', "")
        .replace('H', "<2>*QF18144*")
        .replace('T', "<3>0000")
        .replace("<2>", "\x02")
        .replace("<3>", "\x03")
        .replace('␣', " ")
        .into_bytes()
}

/// The answer for a text; a refusal must leave the image as it was.
fn read_bytes(text: &[u8]) -> Answer<Vec<u8>> {
    let mut image = vec![0xA5; COUNT / 8];
    let answer = text_to_image(DEVICE, text, &mut image);
    if answer.is_err() {
        assert_eq!(image, vec![0xA5; COUNT / 8]);
    }
    answer.map(|()| image)
}

fn read(example: &str) -> Answer<Vec<u8>> {
    read_bytes(&bytes(example))
}

fn assert_refused(example: &str, number: u32, value: u64) {
    assert_eq!(
        read(example).err(),
        Some(Refusal { number, value }),
        "{example:?}"
    );
}

fn assert_image(example: &str, image: &[u8]) {
    assert_eq!(read(example).as_deref(), Ok(image), "{example:?}");
}

fn zeros() -> Vec<u8> {
    vec![0; COUNT / 8]
}

fn ones() -> Vec<u8> {
    vec![0xFF; COUNT / 8]
}

/// Zeros but for the given fuses.
fn with_ones(fuses: &[usize]) -> Vec<u8> {
    let mut image = zeros();
    for fuse in fuses {
        image[fuse / 8] |= 1 << (fuse % 8);
    }
    image
}

/// The text with its transmission sum, in upper case, after a final ETX.
fn with_sum(mut text: Vec<u8>) -> Vec<u8> {
    assert_eq!(text.last(), Some(&3));
    let total: u64 = text.iter().map(|byte| u64::from(*byte)).sum();
    text.extend(format!("{:04X}", total & 0xFFFF).bytes());
    text
}

#[test]
fn notation() {
    assert_eq!(bytes("H"), b"\x02*QF18144*");
    assert_eq!(bytes("H").len(), 10);
    assert_eq!(bytes("T"), b"\x030000");
    assert_eq!(bytes("H L0␣1 * T"), b"\x02*QF18144*L0 1*\x030000");
    assert_image("H F0* T", &zeros());
}

#[test]
fn a_field_is_judged_at_its_star() {
    assert_refused("H F1 T", 7, 17);
    assert_refused("H ZZ", 7, 12);
    assert_refused("<2>T", 7, 6);
    assert_refused("<2><3>*T", 7, 1);
    assert_refused("H Nx<3>0000* T", 7, 10);
    // The same with STX, and without any later star.
    assert_refused("<2><2>*T", 7, 1);
    assert_refused("<2>x<2>x*T", 7, 1);
    assert_refused("H Nx<2>* T", 7, 10);
    assert_refused("H Nx<3>0000 T", 7, 22);
    assert_refused("H <2> T", 7, 16);
    assert_refused("H F<3>1* T", 7, 10);
}

#[test]
fn etx_ends_the_fields_and_stx_starts_a_bad_one() {
    assert_refused("<2>* T", 8, 2);
    assert_refused("H <2>* T", 7, 10);
    assert_refused("<2>* ␣\n T", 8, 4);
}

#[test]
fn empty_fields_and_empty_design_text() {
    assert_refused("H * T", 7, 10);
    assert_refused("H ␣* T", 7, 11);
    assert_image("<2>*QF18144*F0*T", &zeros());
    assert_image("<2>design␣text*QF18144*F0*T", &zeros());
}

#[test]
fn the_design_text_is_no_field() {
    assert_refused("<2>QF18144*T", 8, 9);
    assert_refused("␣ H T", 7, 0);
    assert_refused("", 7, 0);
    assert_refused("*QF18144*T", 7, 0);
    assert_refused("<3>0000", 7, 0);
    assert_refused("<2>", 7, 1);
}

#[test]
fn the_earliest_7_wins() {
    assert_refused("<2>*F0*QF1", 7, 2);
    assert_refused("<2>*F0*QF18144*T", 7, 2);
    assert_refused("<2>*L0␣1*QF18144*T", 7, 2);
    assert_refused("<2>*C0000*QF18144*T", 7, 2);
    assert_refused("<2>*F0*T", 7, 2);
    assert_refused("<2>*L0␣1*T", 7, 2);
    assert_refused("<2>*C0000*T", 7, 2);
    assert_refused("<2>*Nx* ␣F0*T", 7, 6);
    assert_refused("H ZZ* YY* T", 7, 10);
    assert_refused("H N* YY* <3>zz", 7, 12);
}

#[test]
fn order_and_repetition() {
    assert_refused("H L0␣1* F1* T", 7, 15);
    assert_refused("H L0␣1* N* F0* T", 7, 17);
    assert_refused("H C0001* L0␣1* T", 7, 16);
    assert_refused("H QF18144* T", 7, 10);
    assert_refused("H QF1* T", 7, 10);
    assert_refused("H F0* F0* T", 7, 13);
    assert_refused("H F0* F1* T", 7, 13);
    assert_refused("H C0000* C0000* T", 7, 16);
    assert_refused("H C0000* L0␣1* C0001* T", 7, 16);
    // F, L, C, F: the F stands after an L.
    assert_refused("H L0␣1* C0001* F0* T", 7, 21);
}

#[test]
fn f_after_c_is_accepted_and_c_is_compared_with_the_finished_image() {
    assert_image("H CD324*F1*T", &ones());
    assert_refused("H C0000*F1*T", 10, 10);
    assert_image("H CD324*N* F1*T", &ones());
    // F after C counts as the one F, and still lets no L follow.
    assert_refused("H F1* CD324* F1* T", 7, 19);
    assert_refused("H CD324* F1* L0␣1* T", 7, 19);
}

#[test]
fn where_blanks_may_stand() {
    assert_image("<2>*␣\t\r\nQF18144*F0*T", &zeros());
    assert_image("H ␣\t\r\nF1*T", &ones());
    assert_image("H F1*␣\t\r\nT", &ones());
    assert_image("H F0* T␣\t\r\n", &zeros());
    // No other byte is a blank.
    for odd in ["\x0B", "\x0C", "\x00", "\u{85}"] {
        assert_refused(&format!("<2>*{odd}QF18144*T"), 7, 2);
        assert_refused(&format!("H T{odd}"), 7, 15);
        assert_refused(&format!("H L0{odd}1*T"), 7, 10);
        assert_refused(&format!("H L0␣1{odd}1*T"), 7, 10);
    }
    assert_refused("<2>*QF␣18144*T", 7, 2);
    assert_refused("<2>*QF18144␣*T", 7, 2);
    assert_refused("<2>*Q␣F18144*T", 7, 2);
    assert_refused("H F␣1*T", 7, 10);
    assert_refused("H F1␣*T", 7, 10);
    assert_refused("H C␣0000*T", 7, 10);
    assert_refused("H C0000␣*T", 7, 10);
    assert_refused("H C00␣00*T", 7, 10);
    assert_refused("H C0000\n*T", 7, 10);
}

#[test]
fn form_of_l() {
    assert_image("H F0* L0␣1␣* T", &with_ones(&[0]));
    assert_image("H F0* L0\n1* T", &with_ones(&[0]));
    assert_image("H F0* L0\t1* T", &with_ones(&[0]));
    assert_image("H F0* L0\r1* T", &with_ones(&[0]));
    assert_image("H F0* L8␣␣\n1␣0\t1\r\n01␣* T", &with_ones(&[8, 10, 12]));
    assert_refused("H L␣0␣1* T", 7, 10);
    assert_refused("H L0␣* T", 7, 10);
    assert_refused("H L0* T", 7, 10);
    assert_refused("H L01* T", 7, 10);
    assert_refused("H L* T", 7, 10);
    assert_refused("H L␣1* T", 7, 10);
    assert_refused("H L9999999␣* T", 7, 10);
    assert_refused("H L18144␣␣* T", 7, 10);
    assert_refused("H L0␣2* T", 7, 10);
    assert_refused("H L0␣1x* T", 7, 10);
    assert_refused("H L-0␣1* T", 7, 10);
    assert_refused("H L0x␣1* T", 7, 10);
}

#[test]
fn numbers_have_1_to_7_digits() {
    assert_image("<2>*QF0018144*F0*T", &zeros());
    assert_refused("<2>*QF00018144*T", 7, 2);
    assert_refused("<2>*QF*T", 7, 2);
    assert_refused("<2>*QF0*T", 8, 2);
    assert_refused("<2>*QF9999999*T", 8, 2);
    assert_refused("<2>*QF1x*T", 7, 2);
    assert_refused("<2>*QF+18144*T", 7, 2);
    assert_image("H F0* L0000003␣1* T", &with_ones(&[3]));
    assert_refused("H L00000003␣1* T", 7, 10);
    assert_refused("H F* T", 7, 10);
    assert_refused("H F2* T", 7, 10);
    assert_refused("H F00* T", 7, 10);
    assert_refused("H C000* T", 7, 10);
    assert_refused("H C00000* T", 7, 10);
    assert_refused("H C000G* T", 7, 10);
    assert_refused("H C* T", 7, 10);
}

#[test]
fn skipped_fields() {
    for letters in ["N", "J", "X", "QP", "QV"] {
        assert_image(&format!("H {letters}* F0* T"), &zeros());
        assert_image(&format!("H {letters}* F0* {letters}* T"), &zeros());
        assert_image(
            &format!("<2>*{letters}any*QF18144*{letters}*F1*{letters}␣\n*CD324*{letters}1* T"),
            &ones(),
        );
        assert_refused(&format!("H {}* T", letters.to_lowercase()), 7, 10);
    }
    // Any byte but the star, STX and ETX.
    let mut comment = bytes("H F0* N");
    comment.extend((0..=255).filter(|byte| ![b'*', 2, 3].contains(byte)));
    comment.extend(bytes("* T"));
    assert_eq!(read_bytes(&comment), Ok(zeros()));
    let mut design = vec![2];
    design.extend((0..=255).filter(|byte| ![b'*', 2, 3].contains(byte)));
    design.extend(bytes("*QF18144*F0*T"));
    assert_eq!(read_bytes(&design), Ok(zeros()));
}

#[test]
fn other_letters_are_bad() {
    for first in 0..=255u8 {
        let known = b"NJX".contains(&first);
        let no_field = first == b'*' || first == 3 || [b' ', b'\t', b'\r', b'\n'].contains(&first);
        if known || no_field {
            continue;
        }
        let mut text = bytes("H");
        text.push(first);
        text.extend(bytes("* T"));
        let bad = Err(Refusal {
            number: 7,
            value: 10,
        });
        assert_eq!(read_bytes(&text), bad, "field starting {first}");
    }
    for field in ["V1␣0", "G0", "E0", "QX", "Q", "QN", "QJ"] {
        assert_refused(&format!("H {field}* T"), 7, 10);
    }
    assert_refused("<2>*qf18144*T", 7, 2);
    assert_refused("<2>*Qf18144*T", 7, 2);
    assert_refused("H f1*T", 7, 10);
    assert_refused("H l0␣1*T", 7, 10);
    assert_refused("H c0000*T", 7, 10);
}

#[test]
fn hex_in_either_case() {
    assert_image("H F1* Cd324* T", &ones());
    assert_image("H F1* CD324* <3>03dD", &ones());
    // The sum over this text, once in each case.
    assert_image("<2>*QF18144*F1*CD324*<3>03dd", &ones());
    assert_image("<2>*QF18144*F1*CD324*<3>03DD", &ones());
}

#[test]
fn after_etx() {
    assert_refused("H<3>00\n", 7, 13);
    assert_refused("H<3>00", 7, 13);
    assert_refused("H<3>", 7, 11);
    assert_refused("H<3>␣0000", 7, 11);
    assert_refused("H<3>000G", 7, 14);
    assert_refused("H<3>000*", 7, 14);
    assert_refused("H T 0", 7, 15);
    assert_refused("H T ␣\n x ␣ y", 7, 17);
    assert_refused("H T <3>", 7, 15);
    assert_refused("H T *", 7, 15);
    assert_image("H F0* T ␣\t\r\n␣", &zeros());
    assert_refused("H ", 7, 10);
    assert_refused("H ␣␣", 7, 12);
}

#[test]
fn the_size_limit() {
    let padded = |length: usize| {
        let mut text = bytes("H F0* N");
        let end = bytes("* T");
        text.resize(length - end.len(), b'x');
        text.extend(end);
        assert_eq!(text.len(), length);
        text
    };
    assert_eq!(read_bytes(&padded(1_048_576)), Ok(zeros()));
    let too_long = Err(Refusal {
        number: 7,
        value: 1_048_576,
    });
    assert_eq!(read_bytes(&padded(1_048_577)), too_long);
    // Before the test for STX, after refusals 1 and 2.
    let mut no_stx = padded(1_048_577);
    no_stx[0] = b' ';
    assert_eq!(read_bytes(&no_stx), too_long);
    let unknown = Device {
        blocks: 3,
        class: SMALL,
    };
    assert_eq!(
        text_to_image(unknown, &no_stx, &mut [0; 5]),
        Err(Refusal {
            number: 1,
            value: 0
        })
    );
    assert_eq!(
        text_to_image(DEVICE, &no_stx, &mut [0; 5]),
        Err(Refusal {
            number: 2,
            value: 0
        })
    );
}

#[test]
fn any_7_beats_the_others() {
    assert_refused("<2>*QF1*T x", 7, 11);
    assert_refused("<2>*QF1*", 7, 6);
    assert_refused("<2>*QF1*ZZ*T", 7, 6);
    assert_refused("<2>*<3>000", 7, 6);
    assert_refused("H L18144␣1*<3>", 7, 20);
    assert_refused("H F1*C0000*<3>000", 7, 23);
    assert_refused("H F1*CD324*<3>03DCx", 7, 24);
}

#[test]
fn refusal_8() {
    assert_refused("<2>*QF18143*T", 8, 2);
    assert_refused("<2>design*␣\nNx*␣QF41472*T", 8, 14);
    assert_refused("<2>*Nx*QP*T", 8, 8);
    // Before 9, 13, 10 and 11.
    assert_refused("<2>*QF18143*L18144␣1*C1234*<3>1234", 8, 2);
    assert_refused("<2>*N*<3>1234", 8, 4);
}

#[test]
fn refusal_9() {
    assert_refused("H L0␣11* L1␣1* T", 9, 16);
    // Wholly below the one before it.
    assert_refused("H L4␣11* L0␣1* T", 9, 16);
    assert_refused("H L4␣11* L4␣11* T", 9, 16);
    assert_image("H F0* L0␣11* L2␣1* T", &with_ones(&[0, 1, 2]));
    assert_image("H F0* L0␣11* L7␣1* T", &with_ones(&[0, 1, 7]));
    assert_image("H F0* L0␣11* N* L2␣1* T", &with_ones(&[0, 1, 2]));
    assert_image("H F0* L18143␣1* T", &with_ones(&[18143]));
    assert_refused("H L18143␣11* T", 9, 10);
    assert_refused("H L18144␣1* T", 9, 10);
    assert_refused("H L9999999␣1* T", 9, 10);
    // The first of several, before 13, 10 and 11.
    assert_refused("H L4␣1* L0␣1* L18144␣1* C1234* <3>1234", 9, 15);
    assert_refused("H L18144␣1* L0␣1* T", 9, 10);
    // Each against the one right before it.
    assert_refused("H L8␣1* L9␣1* L9␣1* T", 9, 20);
}

/// An L field that gives so many fuses at 1.
fn list(first: usize, length: usize) -> String {
    format!("L{first}␣{}*", "1".repeat(length))
}

#[test]
fn refusal_13() {
    assert_refused("H L0␣11* L3␣1* T", 13, 2);
    assert_refused("H L0␣11* L3␣1* L2␣1* T", 9, 21);
    // Neither F nor L.
    assert_refused("H T", 13, 0);
    assert_refused("H C0000* T", 13, 0);
    assert_refused("H N* T", 13, 0);
    // Before the first L.
    assert_refused("H L1␣1* T", 13, 0);
    assert_refused("H L18143␣1* T", 13, 0);
    // Behind the last.
    assert_refused("H L0␣1* T", 13, 1);
    assert_refused("H L0␣11* L2␣1* N* L3␣1* T", 13, 4);
    // The first of several.
    assert_refused("H L0␣11* L2␣1* L7␣1* L9␣1* T", 13, 3);
    assert_refused("H L1␣1* L3␣1* T", 13, 0);
    // A blank gives no fuse.
    assert_refused("H L0␣␣1␣\n1␣\t* T", 13, 2);
    // An F in the design text or in a comment is none.
    assert_refused("<2>F0*QF18144*T", 13, 0);
    assert_refused("H NF0* T", 13, 0);
    // With F nothing is missing.
    assert_image("H F1* L0␣11* L3␣1* T", &ones());
    assert_image("H F0* L1␣1* T", &with_ones(&[1]));
}

#[test]
fn an_f_behind_c_is_an_f() {
    assert_image("H C0000* F0* T", &zeros());
    assert_image("H CD324* F1* T", &ones());
    assert_refused("H CD324* F0* T", 10, 10);
    assert_refused("H CD324* F1* <3>0001", 11, 19);
    // Behind an L it is a bad field.
    assert_refused("H L0␣1* C0001* F0* T", 7, 21);
}

#[test]
fn every_fuse_given_by_l() {
    // By one L, by two that touch, and by one L for each fuse.
    assert_image(&format!("H {} T", list(0, COUNT)), &ones());
    for cut in [1, 2, 7776, COUNT - 1] {
        let (first, second) = (list(0, cut), list(cut, COUNT - cut));
        assert_image(&format!("H {first} {second} T"), &ones());
    }
    let each: Vec<String> = (0..COUNT).map(|fuse| list(fuse, 1)).collect();
    assert_image(&format!("H {} T", each.concat()), &ones());
    assert_image(&format!("H {} CD324* T", each.join("␣N*\n")), &ones());

    // One state less: before the first L, behind the last, and between two.
    assert_refused(&format!("H {} T", list(1, COUNT - 1)), 13, 0);
    assert_refused(&format!("H {} T", list(0, COUNT - 1)), 13, COUNT as u64 - 1);
    for fuse in [1, 2, 7776, COUNT - 2] {
        let (before, behind) = (list(0, fuse), list(fuse + 1, COUNT - fuse - 1));
        assert_refused(&format!("H {before} {behind} T"), 13, fuse as u64);
    }
    for fuse in [0, 1, 2, 7776, COUNT - 2, COUNT - 1] {
        let mut all_but_one = each.clone();
        all_but_one.remove(fuse);
        let text = format!("H {} T", all_but_one.concat());
        assert_refused(&text, 13, fuse as u64);
        assert_image(&text.replace('H', "H F1*"), &ones());
    }
    // As many states as fuses, but one fuse twice.
    let (first, second) = (list(0, 8), list(7, COUNT - 8));
    assert_refused(&format!("H {first} {second} T"), 9, 22);
}

#[test]
fn the_order_is_7_8_9_13_10_11() {
    // Each of these has fuse 0 or fuse 1 not given.
    assert_refused("H L1␣1* <3>000", 7, 19);
    assert_refused("H L1␣1* T x", 7, 20);
    assert_refused("H L1␣1* Z* T", 7, 15);
    assert_refused("H L1␣1* F0* T", 7, 15);
    assert_refused("H C0000* L1␣1* T", 7, 16);
    assert_refused("<2>*QF18145* L1␣1* T", 8, 2);
    assert_refused("<2>*QF18145* T", 8, 2);
    assert_refused("<2>*T", 8, 2);
    assert_refused("H L1␣1* L1␣1* T", 9, 15);
    assert_refused("H L18143␣11* T", 9, 10);
    assert_refused("H L1␣1* C1234* T", 13, 0);
    assert_refused("H L0␣1* C0000* T", 13, 1);
    assert_refused("H L0␣1* <3>1234", 13, 1);
    assert_refused("H L0␣1* C1234* <3>1234", 13, 1);
    // All of them, and one less each time.
    assert_refused("<2>*QF18145* L5␣11* L0␣1* C1234* Z* <3>1234", 7, 27);
    assert_refused("<2>*QF18145* L5␣11* L0␣1* C1234* <3>1234", 8, 2);
    assert_refused("H L5␣11* L0␣1* C1234* <3>1234", 9, 16);
    assert_refused("H L5␣11* L7␣1* C1234* <3>1234", 13, 0);
    let all = list(0, COUNT);
    let end = (10 + all.chars().count()) as u64;
    assert_refused(&format!("H {all} C1234* <3>1234"), 10, end);
    assert_refused(&format!("H {all} CD324* <3>1234"), 11, end + 6);
    assert_image(&format!("H {all} CD324* <3>0000"), &ones());
}

#[test]
fn refusals_10_and_11() {
    assert_refused("H F1*C0000*T", 10, 13);
    assert_image("H F0*C0000*T", &zeros());
    assert_image("H F0*L8␣11*C0003*T", &with_ones(&[8, 9]));
    assert_refused("H F0*L8␣11*C0300*T", 10, 19);
    // 10 before 11.
    assert_refused("H F0*C0001*<3>1234", 10, 13);
    assert_refused("H F0*C0000*<3>1234", 11, 19);
    assert_refused("H F0*<3>0001", 11, 13);
    assert_image("H F0*<3>0000", &zeros());
}

#[test]
fn the_transmission_sum_takes_all_eight_bits() {
    let mut text = vec![2];
    text.extend([0xFF, 0x80, 0xC3, 0xA5]);
    text.extend(b"*QF18144*F0*N\xFF\xFE\x81*\x03");
    let good = with_sum(text.clone());
    assert_eq!(read_bytes(&good), Ok(zeros()));
    let etx = text.len() - 1;
    let mut seven_bits: u64 = 0;
    for byte in &text {
        seven_bits += u64::from(byte & 0x7F);
    }
    text.extend(format!("{seven_bits:04X}").bytes());
    assert_eq!(
        read_bytes(&text),
        Err(Refusal {
            number: 11,
            value: etx as u64
        })
    );
    // Long enough that the sum passes 65536.
    let mut long = bytes("H F0* N");
    long.resize(2000, 0xFF);
    long.extend(b"*\x03");
    let long = with_sum(long);
    assert_eq!(read_bytes(&long), Ok(zeros()));
}

#[test]
fn later_l_over_start_state() {
    // Fuses of the start state stay where no L names them.
    let mut expected = ones();
    expected[0] = 0b1111_1010;
    assert_image("H F1* L0␣0* L2␣0* T", &expected);
    assert_image("H F0* L0␣1* T", &with_ones(&[0]));
}

#[test]
fn bench_program_readings() {
    let cases: [(&str, &str); 15] = [
        (
            "<2>*QF0041472*F1*T",
            "blocks 4\nfuses 41472\nzero 0\nsum 2BC0\n",
        ),
        (
            "<2>*N*␣QF41472*F0*T",
            "blocks 4\nfuses 41472\nzero 41472\nsum 0000\n",
        ),
        (
            "H F0* L8␣0001011* T",
            "blocks 2\nfuses 18144\nzero 18141\nsum 0068\n",
        ),
        ("<2>*QF69984*T", "refused 8 at 2\n"),
        ("<2>QF41472*T", "refused 8 at 9\n"),
        ("<2>*T", "refused 8 at 2\n"),
        ("<2>*QF18144*QF41472*T", "refused 7 at 10\n"),
        ("<2>*QF41472*L41471␣11*T", "refused 9 at 10\n"),
        ("<2>*QF41472*F0*C0001*T", "refused 10 at 13\n"),
        ("<2>*QF41472*F0*<3>0001", "refused 11 at 13\n"),
        // The fuse of 13 is printed as the offsets are.
        ("H L0␣11* L3␣1* T", "refused 13 at 2\n"),
        ("H L0␣11* L3␣1* L2␣1* T", "refused 9 at 21\n"),
        ("<2>*QF41472*T", "refused 13 at 0\n"),
        ("<2>*QF41472*L0␣1*C0001*<3>0001", "refused 13 at 1\n"),
        (
            "<2>*QF41472*C2BC0*F1*T",
            "blocks 4\nfuses 41472\nzero 0\nsum 2BC0\n",
        ),
    ];
    for (example, output) in cases {
        assert_eq!(
            String::from_utf8(bench(&bytes(example))).unwrap(),
            output,
            "{example:?}"
        );
    }
    // The limit of the input comes before all else.
    let padded = |length: usize| {
        let mut text = bytes("H F0* T");
        text.resize(length, b'\n');
        text
    };
    assert_eq!(
        bench(&padded(65_536)),
        b"blocks 2\nfuses 18144\nzero 18144\nsum 0000\n"
    );
    assert_eq!(bench(&padded(65_537)), b"refused 7 at 65536\n");
    assert_eq!(bench(&vec![b'x'; 1_048_577]), b"refused 7 at 65536\n");
    assert_eq!(bench(b"x"), b"refused 7 at 0\n");
}
