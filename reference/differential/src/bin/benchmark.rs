// The benchmark: each operation by the library, the plain reference and the optimised Rust.
// Same input, processor time, the median of repeated runs; an operation is one line of rows().

use std::cell::RefCell;
use std::hint::black_box;
use std::rc::Rc;
use xc9500_differential::comparison::Function;
#[cfg(feature = "differences")]
use xc9500_differential::differing::Differences;
use xc9500_differential::locating::word_of_located;
#[cfg(feature = "differences")]
use xc9500_differential::optimised_differences;
use xc9500_differential::{library, optimised, optimised_text};
use xc9500_reference as reference;
use xc9500_reference::random::Random;
use xc9500_reference::{Answer, Device, LARGE};

/// Timed runs of each program; odd, so that there is a middle one.
const RUNS: usize = 31;

/// The least processor time of a run; a short pass is repeated to fill it.
const RUN_NANOSECONDS: u64 = 10_000_000;

/// One program's pass over a row's input; it answers a sum of all that it gave.
type Pass = Box<dyn FnMut() -> u64>;

/// Reading or setting; the last number is the pattern, which reading takes no notice of.
type Edit = fn(Device, &mut [u8], u32, u32) -> Answer<u64>;

/// One operation on one part.
struct Row {
    operation: &'static str,
    device: Device,
    /// The calls in a pass, and what the table calls one of them.
    calls: u64,
    call: &'static str,
    library: Pass,
    reference: Pass,
    optimised: Pass,
}

/// The rows of the table.
fn rows() -> Vec<Row> {
    let of_two_and_sixteen = |row: fn(Device) -> Row| {
        [2, 16].map(|blocks| {
            row(Device {
                blocks,
                class: LARGE,
            })
        })
    };
    let mut rows = Vec::new();
    rows.extend(of_two_and_sixteen(fuse_to_address));
    rows.extend(of_two_and_sixteen(locate_literals));
    rows.extend(of_two_and_sixteen(locate_wire_ands));
    rows.extend(of_two_and_sixteen(locate_fields));
    rows.extend(of_two_and_sixteen(fuse_sum));
    rows.extend(of_two_and_sixteen(zero_count));
    rows.extend(of_two_and_sixteen(image_to_readout));
    rows.extend(of_two_and_sixteen(readout_to_image));
    rows.extend(of_two_and_sixteen(read_literals_in_image));
    rows.extend(of_two_and_sixteen(set_literals_in_image));
    rows.extend(of_two_and_sixteen(read_usercode_in_image));
    rows.extend(of_two_and_sixteen(set_usercode_in_image));
    rows.extend(of_two_and_sixteen(read_literals_in_readout));
    rows.extend(of_two_and_sixteen(set_literals_in_readout));
    rows.extend(of_two_and_sixteen(read_usercode_in_readout));
    rows.extend(of_two_and_sixteen(set_usercode_in_readout));
    rows.extend(of_two_and_sixteen(image_to_text));
    rows.extend(of_two_and_sixteen(text_to_image));
    rows.extend(of_two_and_sixteen(text_without_start_state_to_image));
    #[cfg(feature = "differences")]
    for row in [no_differences, fifty_differences, all_differences] {
        rows.extend(of_two_and_sixteen(row));
    }
    rows
}

/// The conversion of every fuse, in order.
fn fuse_to_address(device: Device) -> Row {
    let fuses = reference::fuse_count(device).expect("the device is known");
    Row {
        operation: "fuse to address",
        device,
        calls: u64::from(fuses),
        call: "fuse",
        library: each(fuses, move |fuse| {
            library::xc9500_address_of_fuse(black_box(device), fuse)
        }),
        reference: each(fuses, move |fuse| {
            reference::address_of_fuse(black_box(device), fuse).map(place)
        }),
        optimised: each(fuses, move |fuse| {
            optimised::address_of_fuse(black_box(device), fuse).map(place)
        }),
    }
}

fn locate_literals(device: Device) -> Row {
    locating("locate literal", device, literal_bits(device))
}

fn locate_wire_ands(device: Device) -> Row {
    locating("locate wire-AND", device, wire_and_bits(device))
}

fn locate_fields(device: Device) -> Row {
    locating("locate field", device, field_bits(device))
}

/// The row of finding the fuse, address and bit of one bit of a setting.
fn locating(operation: &'static str, device: Device, asked: Asked) -> Row {
    let asked: Rc<[(u32, u32)]> = asked.into();
    Row {
        operation,
        device,
        calls: asked.len() as u64,
        call: "bit",
        library: each_asked(&asked, move |setting, bit| {
            library::xc9500_setting_fuse(black_box(device), setting, bit)
        }),
        reference: each_asked(&asked, move |setting, bit| {
            reference::locate_bit(black_box(device), setting, bit).map(word_of_located)
        }),
        optimised: each_asked(&asked, move |setting, bit| {
            optimised::locate_bit(black_box(device), setting, bit)
        }),
    }
}

fn fuse_sum(device: Device) -> Row {
    whole_part(
        "fuse sum",
        device,
        random_image(device),
        0,
        |device, image, _| library::xc9500_fuse_sum(device, image),
        |device, image, _| reference::fuse_sum(device, image).map(u64::from),
        |device, image, _| optimised::fuse_sum(device, image).map(u64::from),
    )
}

fn zero_count(device: Device) -> Row {
    whole_part(
        "zero count",
        device,
        random_image(device),
        0,
        |device, image, _| library::xc9500_zero_count(device, image),
        |device, image, _| reference::zero_count(device, image).map(u64::from),
        |device, image, _| optimised::zero_count(device, image).map(u64::from),
    )
}

fn image_to_readout(device: Device) -> Row {
    whole_part(
        "image to readout",
        device,
        random_image(device),
        reference::readout_bytes(device).expect("the device is known"),
        library::xc9500_image_to_readout,
        |device, image, readout| reference::image_to_readout(device, image, readout).map(|()| 0),
        |device, image, readout| optimised::image_to_readout(device, image, readout).map(|()| 0),
    )
}

fn readout_to_image(device: Device) -> Row {
    whole_part(
        "readout to image",
        device,
        random_readout(device),
        random_image(device).len(),
        library::xc9500_readout_to_image,
        |device, readout, image| reference::readout_to_image(device, readout, image).map(|()| 0),
        |device, readout, image| optimised::readout_to_image(device, readout, image).map(|()| 0),
    )
}

fn image_to_text(device: Device) -> Row {
    whole_part(
        "image to text",
        device,
        random_image(device),
        reference::text_bytes(device).expect("the device is known"),
        library::xc9500_image_to_text,
        |device, image, text| reference::image_to_text(device, image, text).map(|n| n as u64),
        |device, image, text| optimised_text::image_to_text(device, image, text).map(|n| n as u64),
    )
}

fn text_to_image(device: Device) -> Row {
    reading("text to image", device, random_text(device))
}

/// A text without F, so that each fuse must be given by the L fields.
fn text_without_start_state_to_image(device: Device) -> Row {
    let mut text = random_text(device);
    // The F field becomes a comment, and the transmission sum is not given.
    let start_state = text.windows(4).position(|bytes| bytes == b"\nF0*");
    text[start_state.expect("a written text has F0") + 1] = b'N';
    let sum = text.len() - 4;
    text[sum..].fill(b'0');
    reading("text to image, no F", device, text)
}

fn reading(operation: &'static str, device: Device, text: Vec<u8>) -> Row {
    whole_part(
        operation,
        device,
        text,
        random_image(device).len(),
        library::xc9500_text_to_image,
        |device, text, image| reference::text_to_image(device, text, image).map(|()| 0),
        |device, text, image| optimised_text::text_to_image(device, text, image).map(|()| 0),
    )
}

#[cfg(feature = "differences")]
fn no_differences(device: Device) -> Row {
    differences("differences, none", device, random_image(device))
}

/// Fifty fuses, each in another place.
#[cfg(feature = "differences")]
fn fifty_differences(device: Device) -> Row {
    let mut new = random_image(device);
    let mut fuses: Vec<usize> = (0..8 * new.len()).collect();
    let mut random = Random::new(0x9500_1005);
    for _ in 0..50 {
        let fuse = fuses.swap_remove(random.below(fuses.len() as u64) as usize);
        new[fuse / 8] ^= 1 << (fuse % 8);
    }
    differences("differences, 50", device, new)
}

#[cfg(feature = "differences")]
fn all_differences(device: Device) -> Row {
    let new = random_image(device).iter().map(|byte| !byte).collect();
    differences("differences, all", device, new)
}

/// The row of the list of what differs between the random image and a new one, with room for exactly that.
#[cfg(feature = "differences")]
fn differences(operation: &'static str, device: Device, new: Vec<u8>) -> Row {
    let old = random_image(device);
    let [library, reference, optimised]: [Differences; 3] = [
        library::xc9500_differences,
        |device, old, new, text| reference::differences(device, old, new, text).map(|n| n as u64),
        |device, old, new, text| {
            optimised_differences::differences(device, old, new, text).map(|n| n as u64)
        },
    ];
    let needed = match reference(device, &old, &new, &mut []) {
        Err(refusal) => refusal.value as usize,
        Ok(_) => unreachable!("every list needs room"),
    };
    // To add up the text would be timed too, so it is compared here, once.
    let [by_library, by_reference, by_optimised] =
        [library, reference, optimised].map(|function| {
            let mut text = vec![0x5A; needed];
            (function(device, &old, &new, &mut text), text)
        });
    assert!(
        by_library == by_reference && by_optimised == by_reference,
        "{operation}: the programs disagree"
    );

    // All three have the same images and room, so that where these lie favours none.
    let images: Rc<(Vec<u8>, Vec<u8>)> = Rc::new((old, new));
    let text = Rc::new(RefCell::new(by_reference.1));
    let pass = |function: Differences| -> Pass {
        let (images, text) = (images.clone(), text.clone());
        Box::new(move || {
            let (old, new) = &*images;
            let mut text = text.borrow_mut();
            as_number(function(
                black_box(device),
                black_box(old),
                black_box(new),
                black_box(&mut text),
            ))
        })
    };
    Row {
        operation,
        device,
        calls: 1,
        call: "part",
        library: pass(library),
        reference: pass(reference),
        optimised: pass(optimised),
    }
}

fn random_image(device: Device) -> Vec<u8> {
    let length = reference::image_bytes(device).expect("the device is known");
    Random::new(0x9500_1000).bytes(length)
}

/// The readout of that image.
fn random_readout(device: Device) -> Vec<u8> {
    let mut readout = vec![0; reference::readout_bytes(device).expect("the device is known")];
    reference::image_to_readout(device, &random_image(device), &mut readout)
        .expect("the lengths are right");
    readout
}

/// The text of that image.
fn random_text(device: Device) -> Vec<u8> {
    let mut text = vec![0; reference::text_bytes(device).expect("the device is known")];
    reference::image_to_text(device, &random_image(device), &mut text)
        .expect("the lengths are right");
    text
}

const READ_IN_IMAGE: [Edit; 3] = [
    |device, image, setting, _| library::xc9500_read_in_image(device, image, setting),
    |device, image, setting, _| reference::read_in_image(device, image, setting).map(u64::from),
    |device, image, setting, _| optimised::read_in_image(device, image, setting).map(u64::from),
];

const SET_IN_IMAGE: [Edit; 3] = [
    library::xc9500_set_in_image,
    |device, image, setting, pattern| {
        reference::set_in_image(device, image, setting, pattern).map(|()| 0)
    },
    |device, image, setting, pattern| {
        optimised::set_in_image(device, image, setting, pattern).map(|()| 0)
    },
];

const READ_IN_READOUT: [Edit; 3] = [
    |device, readout, setting, _| library::xc9500_read_in_readout(device, readout, setting),
    |device, readout, setting, _| {
        reference::read_in_readout(device, readout, setting).map(u64::from)
    },
    |device, readout, setting, _| {
        optimised::read_in_readout(device, readout, setting).map(u64::from)
    },
];

const SET_IN_READOUT: [Edit; 3] = [
    library::xc9500_set_in_readout,
    |device, readout, setting, pattern| {
        reference::set_in_readout(device, readout, setting, pattern).map(|()| 0)
    },
    |device, readout, setting, pattern| {
        optimised::set_in_readout(device, readout, setting, pattern).map(|()| 0)
    },
];

fn read_literals_in_image(device: Device) -> Row {
    let image = random_image(device);
    edits(
        "read literal, image",
        device,
        image,
        literals,
        READ_IN_IMAGE,
    )
}

fn set_literals_in_image(device: Device) -> Row {
    let image = random_image(device);
    edits("set literal, image", device, image, literals, SET_IN_IMAGE)
}

fn read_usercode_in_image(device: Device) -> Row {
    let image = random_image(device);
    edits(
        "read USERCODE, image",
        device,
        image,
        usercodes,
        READ_IN_IMAGE,
    )
}

fn set_usercode_in_image(device: Device) -> Row {
    let image = random_image(device);
    edits(
        "set USERCODE, image",
        device,
        image,
        usercodes,
        SET_IN_IMAGE,
    )
}

fn read_literals_in_readout(device: Device) -> Row {
    let readout = random_readout(device);
    edits(
        "read literal, readout",
        device,
        readout,
        literals,
        READ_IN_READOUT,
    )
}

fn set_literals_in_readout(device: Device) -> Row {
    let readout = random_readout(device);
    edits(
        "set literal, readout",
        device,
        readout,
        literals,
        SET_IN_READOUT,
    )
}

fn read_usercode_in_readout(device: Device) -> Row {
    let readout = random_readout(device);
    edits(
        "read USERCODE, readout",
        device,
        readout,
        usercodes,
        READ_IN_READOUT,
    )
}

fn set_usercode_in_readout(device: Device) -> Row {
    let readout = random_readout(device);
    edits(
        "set USERCODE, readout",
        device,
        readout,
        usercodes,
        SET_IN_READOUT,
    )
}

/// Calls of a pass over settings: many, so that the loop around them is well predicted.
const EDITS: usize = 4096;

/// A setting and a pattern, or a setting and one of its bits, for each call of a pass.
type Asked = Vec<(u32, u32)>;

/// The literals of a block, and the fields of its macrocells.
const LITERALS: u32 = 18 * 5 * 72;
const FIELDS: u32 = 18 * 27;

/// Random literals of the last block with random states.
fn literals(device: Device) -> Asked {
    let first = LITERALS * (device.blocks - 1);
    let mut random = Random::new(0x9500_1001);
    let mut literal = || {
        let setting = first + random.below(u64::from(LITERALS)) as u32;
        (setting, random.below(2) as u32)
    };
    (0..EDITS).map(|_| literal()).collect()
}

/// The same literals; each has one bit.
fn literal_bits(device: Device) -> Asked {
    let one_bit = |(literal, _)| (literal, 0);
    literals(device).into_iter().map(one_bit).collect()
}

/// Random wire-ANDs of the whole part; each has one bit.
fn wire_and_bits(device: Device) -> Asked {
    let blocks = device.blocks;
    let count = 36 * 18 * blocks * blocks;
    let mut random = Random::new(0x9500_1003);
    let mut wire_and = || LITERALS * blocks + random.below(u64::from(count)) as u32;
    (0..EDITS).map(|_| (wire_and(), 0)).collect()
}

/// Random fields of the last block's macrocells, with a random bit of each.
fn field_bits(device: Device) -> Asked {
    let blocks = device.blocks;
    let first = (LITERALS + 36 * 18 * blocks) * blocks + FIELDS * (blocks - 1);
    let mut random = Random::new(0x9500_1004);
    let mut field = || {
        let setting = first + random.below(u64::from(FIELDS)) as u32;
        let width = reference::setting_width(device, setting).expect("the setting is there");
        (setting, random.below(u64::from(width)) as u32)
    };
    (0..EDITS).map(|_| field()).collect()
}

/// The last setting with random numbers.
fn usercodes(device: Device) -> Asked {
    let usercode = reference::setting_count(device).expect("the device is known") - 1;
    let mut random = Random::new(0x9500_1002);
    let mut usercode = || (usercode, random.next_u64() as u32);
    (0..EDITS).map(|_| usercode()).collect()
}

/// The row of reading or setting, a pass of which is many calls on one image or readout.
fn edits(
    operation: &'static str,
    device: Device,
    bytes: Vec<u8>,
    asked: fn(Device) -> Asked,
    [library, reference, optimised]: [Edit; 3],
) -> Row {
    // The bytes are compared here, once; a pass sums the answers.
    let asked: Rc<[(u32, u32)]> = asked(device).into();
    let [by_library, by_reference, by_optimised] = [library, reference, optimised].map(|edit| {
        let mut bytes = bytes.clone();
        for (setting, pattern) in asked.iter() {
            edit(device, &mut bytes, *setting, *pattern).expect("the setting is there");
        }
        bytes
    });
    assert!(
        by_library == by_reference && by_optimised == by_reference,
        "{operation}: the programs disagree"
    );

    let bytes = Rc::new(RefCell::new(bytes));
    let pass = |edit: Edit| -> Pass {
        let (bytes, asked) = (bytes.clone(), asked.clone());
        Box::new(move || {
            let mut bytes = bytes.borrow_mut();
            let mut sum: u64 = 0;
            for (setting, pattern) in asked.iter() {
                let answer = edit(
                    black_box(device),
                    black_box(&mut bytes),
                    black_box(*setting),
                    black_box(*pattern),
                );
                sum = sum.wrapping_mul(3).wrapping_add(as_number(answer));
            }
            sum
        })
    };
    Row {
        operation,
        device,
        calls: EDITS as u64,
        call: "setting",
        library: pass(library),
        reference: pass(reference),
        optimised: pass(optimised),
    }
}

/// The row of an operation of which a pass is one call; the target is empty where it has none.
fn whole_part(
    operation: &'static str,
    device: Device,
    source: Vec<u8>,
    target_bytes: usize,
    library: Function,
    reference: Function,
    optimised: Function,
) -> Row {
    // To add up the target would be timed too, so it is compared here, once.
    let [by_library, by_reference, by_optimised] =
        [library, reference, optimised].map(|function| {
            let mut target = vec![0x5A; target_bytes];
            (function(device, &source, &mut target), target)
        });
    assert!(
        by_library == by_reference && by_optimised == by_reference,
        "{operation}: the programs disagree"
    );

    // All three have the same source and target, so that where these lie favours none.
    let source: Rc<[u8]> = source.into();
    let target = Rc::new(RefCell::new(by_reference.1));
    let pass = |function: Function| -> Pass {
        let (source, target) = (source.clone(), target.clone());
        Box::new(move || {
            let mut target = target.borrow_mut();
            as_number(function(
                black_box(device),
                black_box(&source),
                black_box(&mut target),
            ))
        })
    };
    Row {
        operation,
        device,
        calls: 1,
        call: "part",
        library: pass(library),
        reference: pass(reference),
        optimised: pass(optimised),
    }
}

/// An address and bit as the C interface gives them.
fn place((address, bit): (u32, u32)) -> u64 {
    u64::from(address) * 8 + u64::from(bit)
}

/// A pass of calls with each number below a count, none of which the compiler may foresee.
fn each(count: u32, call: impl Fn(u32) -> Answer<u64> + 'static) -> Pass {
    Box::new(move || {
        let mut sum: u64 = 0;
        for number in 0..count {
            sum = sum
                .wrapping_mul(3)
                .wrapping_add(as_number(call(black_box(number))));
        }
        sum
    })
}

/// The same with each setting and bit asked for.
fn each_asked(asked: &Rc<[(u32, u32)]>, call: impl Fn(u32, u32) -> Answer<u64> + 'static) -> Pass {
    let asked = asked.clone();
    Box::new(move || {
        let mut sum: u64 = 0;
        for (setting, bit) in asked.iter() {
            let answer = call(black_box(*setting), black_box(*bit));
            sum = sum.wrapping_mul(3).wrapping_add(as_number(answer));
        }
        sum
    })
}

/// An answer as one number.
fn as_number(answer: Answer<u64>) -> u64 {
    match answer {
        Ok(result) => result,
        Err(refusal) => refusal.value << 8 | u64::from(refusal.number),
    }
}

/// The processor time that this process has used, in nanoseconds.
fn processor_time() -> u64 {
    #[repr(C)]
    struct Time {
        seconds: i64,
        nanoseconds: i64,
    }
    extern "C" {
        fn clock_gettime(clock: i32, time: *mut Time) -> i32;
    }
    const CLOCK_PROCESS_CPUTIME_ID: i32 = 2;
    let mut time = Time {
        seconds: 0,
        nanoseconds: 0,
    };
    // Safe: the structure is the one that the function fills on 64-bit Linux.
    let status = unsafe { clock_gettime(CLOCK_PROCESS_CPUTIME_ID, &mut time) };
    assert_eq!(status, 0, "the process has no clock");
    time.seconds as u64 * 1_000_000_000 + time.nanoseconds as u64
}

/// The processor time of a number of passes.
fn time_of(pass: &mut Pass, passes: u64) -> u64 {
    let start = processor_time();
    for _ in 0..passes {
        black_box(pass());
    }
    processor_time() - start
}

/// How many passes fill a run.
fn passes_of_run(pass: &mut Pass) -> u64 {
    let mut passes = 1;
    while time_of(pass, passes) < RUN_NANOSECONDS {
        passes *= 2;
    }
    passes
}

/// The median time of a call in nanoseconds: library, reference, optimised.
fn measure(row: Row) -> [f64; 3] {
    let mut programs = [row.library, row.reference, row.optimised];

    // The first pass warms up, and shows that all three do the same work.
    let sums = programs.each_mut().map(|pass| pass());
    assert!(
        sums.iter().all(|sum| *sum == sums[0]),
        "{}: the programs disagree",
        row.operation
    );

    // The runs take turns, so that a change of the processor's speed meets all three.
    let passes = programs.each_mut().map(passes_of_run);
    let mut times = [const { Vec::new() }; 3];
    for _ in 0..RUNS {
        for program in 0..3 {
            let time = time_of(&mut programs[program], passes[program]);
            times[program].push(time as f64 / (passes[program] * row.calls) as f64);
        }
    }
    times.map(|mut times| {
        times.sort_by(f64::total_cmp);
        times[RUNS / 2]
    })
}

/// A time in the unit that suits it.
fn shown(nanoseconds: f64) -> String {
    if nanoseconds < 1000.0 {
        format!("{nanoseconds:.2} ns")
    } else {
        format!("{:.2} us", nanoseconds / 1000.0)
    }
}

/// Prints the lines with their cells in columns, numbers to the right.
fn print_table(lines: &[[String; 8]]) {
    for line in lines {
        let mut text = String::new();
        for (column, cell) in line.iter().enumerate() {
            let width = lines.iter().map(|line| line[column].len()).max();
            let width = width.unwrap_or(0);
            if column == 0 {
                text += &format!("{cell:<width$}");
            } else {
                text += &format!("  {cell:>width$}");
            }
        }
        println!("{text}");
    }
}

fn processor_name() -> String {
    let about = std::fs::read_to_string("/proc/cpuinfo").unwrap_or_default();
    let line = about.lines().find(|line| line.starts_with("model name"));
    match line.and_then(|line| line.split_once(':')) {
        Some((_, name)) => name.trim().to_string(),
        None => "unknown".to_string(),
    }
}

fn main() {
    println!("processor: {}", processor_name());
    println!("processor time of a call, median of {RUNS} runs");
    println!();
    let mut lines = vec![[
        "operation",
        "blocks",
        "a call is",
        "library",
        "reference",
        "optimised",
        "library/optimised",
        "reference/optimised",
    ]
    .map(String::from)];
    for row in rows() {
        let (operation, blocks, call) = (row.operation, row.device.blocks, row.call);
        let [library, reference, optimised] = measure(row);
        lines.push([
            operation.to_string(),
            blocks.to_string(),
            call.to_string(),
            shown(library),
            shown(reference),
            shown(optimised),
            format!("{:.2}", library / optimised),
            format!("{:.2}", reference / optimised),
        ]);
    }
    print_table(&lines);
}
