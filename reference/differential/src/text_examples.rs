// Texts of two blocks with the answers that documents 01 and 02 and the settled readings give for them.
// In an example <2> is STX, <3> ETX, ␣ a space; H is <2>*QF18144*, T is <3>0000; spaces part pieces.

use xc9500_reference::{Answer, Refusal};

/// What a text is answered: a refusal with its value, or an image.
#[derive(Clone, Copy)]
pub enum Expected {
    Refused(u32, u64),
    /// All fuses at 1.
    Ones,
    /// All fuses at 0 but these.
    ZerosBut(&'static [usize]),
}

impl Expected {
    /// The answer, and the image after the call; it was `before`.
    pub fn outcome(self, before: &[u8]) -> (Answer<u64>, Vec<u8>) {
        match self {
            Expected::Refused(number, value) => (Err(Refusal { number, value }), before.to_vec()),
            Expected::Ones => (Ok(0), vec![0xFF; before.len()]),
            Expected::ZerosBut(fuses) => {
                let mut image = vec![0; before.len()];
                for fuse in fuses {
                    image[fuse / 8] |= 1 << (fuse % 8);
                }
                (Ok(0), image)
            }
        }
    }
}

/// The bytes that an example stands for.
pub fn bytes(example: &str) -> Vec<u8> {
    example
        .replace(' ', "")
        .replace('H', "<2>*QF18144*")
        .replace('T', "<3>0000")
        .replace("<2>", "\x02")
        .replace("<3>", "\x03")
        .replace('␣', " ")
        .into_bytes()
}

use Expected::{Ones, Refused, ZerosBut};

pub const EXAMPLES: &[(&str, Expected)] = &[
    // Document 01's bench cases.
    ("<2>*QF18144*F1*CD324*<3>03DD", Ones),
    ("<2>*QF18144*F1*CD324*<3>0000", Ones),
    ("<2>*QF18144*F1*CD324*<3>03DC", Refused(11, 19)),
    ("<2>*QF18144*F1*CD325*<3>0000", Refused(10, 13)),
    ("", Refused(7, 0)),
    // A field is judged at its star.
    ("H F1 T", Refused(7, 17)),
    ("H ZZ", Refused(7, 12)),
    ("<2>T", Refused(7, 6)),
    ("<2><3>*T", Refused(7, 1)),
    ("H Nx<3>0000* T", Refused(7, 10)),
    ("<2>x<2>x*T", Refused(7, 1)),
    ("H Nx<2>* T", Refused(7, 10)),
    ("H Nx<3>0000 T", Refused(7, 22)),
    // Where a field could start.
    ("<2>* T", Refused(8, 2)),
    ("H <2>* T", Refused(7, 10)),
    ("H * T", Refused(7, 10)),
    ("H ␣* T", Refused(7, 11)),
    ("H F0* T", ZerosBut(&[])),
    // The design text is no field, and nothing precedes STX.
    ("<2>QF18144*T", Refused(8, 9)),
    ("␣ H T", Refused(7, 0)),
    ("<2>", Refused(7, 1)),
    // The earliest 7, order and repetition.
    ("<2>*F0*QF1", Refused(7, 2)),
    ("<2>*F0*QF18144*T", Refused(7, 2)),
    ("<2>*L0␣1*QF18144*T", Refused(7, 2)),
    ("<2>*C0000*QF18144*T", Refused(7, 2)),
    ("<2>*C0000*T", Refused(7, 2)),
    ("H L0␣1* F1* T", Refused(7, 15)),
    ("H C0001* L0␣1* T", Refused(7, 16)),
    ("H QF18144* T", Refused(7, 10)),
    ("H F0* F0* T", Refused(7, 13)),
    ("H C0000* C0000* T", Refused(7, 16)),
    ("H CD324*F1*T", Ones),
    ("H C0000*F1*T", Refused(10, 10)),
    ("H CD324* F1* L0␣1* T", Refused(7, 19)),
    // Blanks.
    ("<2>*␣\t\r\nQF18144*␣\t\r\nF1*␣\t\r\nT␣\t\r\n", Ones),
    ("<2>*\x0BQF18144*T", Refused(7, 2)),
    ("<2>*QF␣18144*T", Refused(7, 2)),
    ("<2>*QF18144␣*T", Refused(7, 2)),
    ("H F1␣*T", Refused(7, 10)),
    ("H C0000␣*T", Refused(7, 10)),
    // Lists.
    ("H F0* L0␣1␣* T", ZerosBut(&[0])),
    ("H F0* L0\n1* T", ZerosBut(&[0])),
    ("H F0* L8␣␣\n1␣0\t1\r\n01␣* T", ZerosBut(&[8, 10, 12])),
    ("H L␣0␣1* T", Refused(7, 10)),
    ("H L0␣* T", Refused(7, 10)),
    ("H L9999999␣* T", Refused(7, 10)),
    ("H L18144␣␣* T", Refused(7, 10)),
    ("H L01* T", Refused(7, 10)),
    // Numbers.
    ("<2>*QF0018144*F0*T", ZerosBut(&[])),
    ("<2>*QF00018144*T", Refused(7, 2)),
    ("<2>*QF0*T", Refused(8, 2)),
    ("<2>*QF*T", Refused(7, 2)),
    ("H F0* L0000003␣1* T", ZerosBut(&[3])),
    ("H L00000003␣1* T", Refused(7, 10)),
    // Skipped fields, letters, hex.
    ("<2>*N*J*QF18144*X*F0*X*QPany*QV␣\n*T", ZerosBut(&[])),
    ("H n* T", Refused(7, 10)),
    ("H V1␣0* T", Refused(7, 10)),
    ("H G0* T", Refused(7, 10)),
    ("H E0* T", Refused(7, 10)),
    ("H Q* T", Refused(7, 10)),
    ("H QX* T", Refused(7, 10)),
    ("<2>*qf18144*T", Refused(7, 2)),
    ("H F1* Cd324* <3>03dD", Refused(11, 19)),
    ("H F1* CD324* <3>03dD", Ones),
    // After ETX.
    ("H<3>00\n", Refused(7, 13)),
    ("H<3>00", Refused(7, 13)),
    ("H<3>␣0000", Refused(7, 11)),
    ("H T 0", Refused(7, 15)),
    ("H T ␣\n x ␣ y", Refused(7, 17)),
    ("H ␣␣", Refused(7, 12)),
    // Any 7 beats the others.
    ("<2>*QF1*T x", Refused(7, 11)),
    ("<2>*QF1*ZZ*T", Refused(7, 6)),
    ("H F1*CD324*<3>03DCx", Refused(7, 24)),
    // Refusals 8 to 11.
    ("<2>*QF18143*T", Refused(8, 2)),
    ("<2>*Nx*QP*T", Refused(8, 8)),
    ("<2>*QF18143*L18144␣1*C1234*<3>1234", Refused(8, 2)),
    ("H L0␣11* L1␣1* T", Refused(9, 16)),
    ("H L4␣11* L0␣1* T", Refused(9, 16)),
    ("H F0* L0␣11* L2␣1* T", ZerosBut(&[0, 1, 2])),
    ("H F0* L0␣11* L7␣1* T", ZerosBut(&[0, 1, 7])),
    ("H F0* L18143␣1* T", ZerosBut(&[18143])),
    ("H L18143␣11* T", Refused(9, 10)),
    ("H L18144␣1* T", Refused(9, 10)),
    ("H F1*C0000*T", Refused(10, 13)),
    ("H F0*C0000*T", ZerosBut(&[])),
    ("H F0*C0001*<3>1234", Refused(10, 13)),
    ("H F0*C0000*<3>1234", Refused(11, 19)),
    ("H F0*<3>0001", Refused(11, 13)),
    // Without F: not given before the first L, between two, behind the last, or none at all.
    ("H L0␣11* L3␣1* T", Refused(13, 2)),
    ("H L0␣11* L3␣1* L2␣1* T", Refused(9, 21)),
    ("H L18143␣1* T", Refused(13, 0)),
    ("H L0␣1* T", Refused(13, 1)),
    ("H T", Refused(13, 0)),
    ("H NF0* T", Refused(13, 0)),
    ("<2>F0*QF18144*T", Refused(13, 0)),
    ("H F1* L0␣11* L3␣1* T", Ones),
    ("H C0000*F0*T", ZerosBut(&[])),
    ("H L0␣1*C0001*F0*T", Refused(7, 21)),
    // 7, 8 and 9 come before 13; 10 and 11 after it.
    ("H L1␣1*<3>000", Refused(7, 19)),
    ("<2>*QF18145*L1␣1*T", Refused(8, 2)),
    ("H L1␣1*L1␣1*T", Refused(9, 15)),
    ("H L0␣1*C1234*T", Refused(13, 1)),
    ("H L0␣1*<3>1234", Refused(13, 1)),
    ("H C0000*T", Refused(13, 0)),
    ("H <3>0001", Refused(13, 0)),
];
