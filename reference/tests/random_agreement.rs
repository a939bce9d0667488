// Seeded agreements between image and readout, and between setting in one and in the other.
// After each setting, every other bit must be as before.

use xc9500_reference::random::Random;
use xc9500_reference::*;

fn fuse(image: &[u8], fuse: u32) -> bool {
    image[fuse as usize / 8] >> (fuse % 8) & 1 == 1
}

fn readout_of(device: Device, image: &[u8]) -> Vec<u8> {
    let mut readout = vec![0xEE; readout_bytes(device).unwrap()];
    assert_eq!(image_to_readout(device, image, &mut readout), Ok(()));
    readout
}

/// The valid addresses in ascending order with their widths, from the reverse conversion alone.
fn address_widths(device: Device) -> Vec<(u32, u32)> {
    let mut widths = Vec::new();
    for address in 0..1 << 17 {
        let width = (0..8)
            .filter(|bit| fuse_of_address(device, address, *bit).is_ok())
            .count();
        if width > 0 {
            widths.push((address, width as u32));
        }
    }
    widths
}

#[test]
fn readout_bits_are_the_fuses_at_their_addresses() {
    let mut random = Random::new(31);
    for blocks in BLOCK_COUNTS {
        let device = Device {
            blocks,
            class: SMALL,
        };
        let image = random.bytes(image_bytes(device).unwrap());
        let readout = readout_of(device, &image);
        let widths = address_widths(device);
        assert_eq!(widths.len(), readout.len());
        for (byte, (address, width)) in readout.iter().zip(widths) {
            for bit in 0..8 {
                let expected =
                    bit < width && fuse(&image, fuse_of_address(device, address, bit).unwrap());
                assert_eq!(byte >> bit & 1 == 1, expected);
            }
        }
    }
}

#[test]
fn image_to_readout_and_back() {
    let mut random = Random::new(32);
    for device in all_devices() {
        let length = image_bytes(device).unwrap();
        for image in [vec![0; length], vec![0xFF; length], random.bytes(length)] {
            let readout = readout_of(device, &image);
            let mut back = vec![0x5A; length];
            assert_eq!(readout_to_image(device, &readout, &mut back), Ok(()));
            assert!(back == image);
            let ones: u32 = readout.iter().map(|byte| byte.count_ones()).sum();
            assert_eq!(
                zero_count(device, &image),
                Ok(fuse_count(device).unwrap() - ones)
            );
            let sum = image
                .iter()
                .fold(0u16, |sum, byte| sum.wrapping_add(u16::from(*byte)));
            assert_eq!(fuse_sum(device, &image), Ok(sum));
        }
    }
}

#[test]
fn readout_to_image_and_back() {
    let mut random = Random::new(33);
    for device in all_devices() {
        let widths = address_widths(device);
        for _ in 0..3 {
            let readout: Vec<u8> = widths
                .iter()
                .map(|(_, width)| random.below(1 << width) as u8)
                .collect();
            let mut image = vec![0x5A; image_bytes(device).unwrap()];
            assert_eq!(readout_to_image(device, &readout, &mut image), Ok(()));
            assert!(readout_of(device, &image) == readout);
        }
    }
}

#[test]
fn a_bit_above_the_width_is_refused_6_at_the_lowest_index() {
    let mut random = Random::new(34);
    for device in all_devices() {
        let widths = address_widths(device);
        let narrow: Vec<usize> = (0..widths.len()).filter(|i| widths[*i].1 < 8).collect();
        let length = image_bytes(device).unwrap();
        let readout = readout_of(device, &random.bytes(length));
        for _ in 0..40 {
            let mut damaged = readout.clone();
            let mut lowest = usize::MAX;
            for _ in 0..1 + random.below(3) {
                let index = random.pick(&narrow);
                let above = 8 - widths[index].1;
                damaged[index] |= 1 << (widths[index].1 + random.below(u64::from(above)) as u32);
                lowest = lowest.min(index);
            }
            let mut image = vec![0x5A; length];
            assert_eq!(
                readout_to_image(device, &damaged, &mut image),
                Err(Refusal {
                    number: 6,
                    value: lowest as u64
                })
            );
            assert!(image == vec![0x5A; length]);
        }
    }
}

/// Settings to try: random ones, and each of the global fields.
fn some_settings(device: Device, random: &mut Random, how_many: u64) -> Vec<u32> {
    let count = setting_count(device).unwrap();
    let rare = 18 * 27 * device.blocks + 6 * device.blocks + 16;
    let mut settings: Vec<u32> = (count - 16..count).collect();
    for _ in 0..how_many {
        settings.push(random.below(u64::from(count)) as u32);
        settings.push(count - 1 - random.below(u64::from(rare)) as u32);
    }
    settings
}

fn random_pattern(device: Device, setting: u32, random: &mut Random) -> u32 {
    let width = setting_width(device, setting).unwrap();
    random.below(1 << width) as u32
}

#[test]
fn setting_in_image_and_in_readout_agree() {
    let mut random = Random::new(35);
    for device in all_devices() {
        let count = fuse_count(device).unwrap();
        let mut image = random.bytes(image_bytes(device).unwrap());
        let mut readout = readout_of(device, &image);
        for setting in some_settings(device, &mut random, 40) {
            let pattern = random_pattern(device, setting, &mut random);
            let fuses = fuses_of_setting(device, setting).unwrap();
            let before = image.clone();

            assert_eq!(set_in_image(device, &mut image, setting, pattern), Ok(()));
            assert_eq!(
                set_in_readout(device, &mut readout, setting, pattern),
                Ok(())
            );
            assert!(readout_of(device, &image) == readout);
            assert_eq!(read_in_image(device, &image, setting), Ok(pattern));
            assert_eq!(read_in_readout(device, &readout, setting), Ok(pattern));
            for (bit, number) in fuses.iter().enumerate() {
                assert_eq!(fuse(&image, *number), pattern >> bit & 1 == 1);
            }
            for number in 0..count {
                if fuse(&image, number) != fuse(&before, number) {
                    assert!(fuses.contains(&number));
                }
            }
        }
    }
}

#[test]
fn setting_by_value_is_setting_by_its_pattern() {
    let mut random = Random::new(36);
    for device in all_devices() {
        let mut image = random.bytes(image_bytes(device).unwrap());
        let mut readout = readout_of(device, &image);
        for number in some_settings(device, &mut random, 40) {
            let setting = setting_of_number(device, number).unwrap();
            let pattern = random_pattern(device, number, &mut random);
            let value = value_of_pattern(device, number, pattern).unwrap();
            let mut expected = image.clone();
            set_in_image(device, &mut expected, number, pattern).unwrap();

            assert_eq!(
                set_value_in_image(device, &mut image, setting, value),
                Ok(())
            );
            assert_eq!(
                set_value_in_readout(device, &mut readout, setting, value),
                Ok(())
            );
            assert!(image == expected);
            assert!(readout == readout_of(device, &image));
            assert_eq!(read_value_in_image(device, &image, setting), Ok(value));
            assert_eq!(read_value_in_readout(device, &readout, setting), Ok(value));
        }
    }
}

#[test]
fn only_the_bytes_of_the_setting_are_tested_for_6() {
    let mut random = Random::new(37);
    for device in all_devices() {
        let widths = address_widths(device);
        let length = image_bytes(device).unwrap();
        // Every byte has all bits above its width, but for those of the setting.
        let clean = readout_of(device, &random.bytes(length));
        let mut all_above = clean.clone();
        for (byte, (_, width)) in all_above.iter_mut().zip(&widths) {
            *byte |= (0xFF00u16 >> (8 - width)) as u8;
        }
        for setting in some_settings(device, &mut random, 40) {
            let pattern = random_pattern(device, setting, &mut random);
            let mut holding: Vec<usize> = fuses_of_setting(device, setting)
                .unwrap()
                .iter()
                .map(|fuse| {
                    let (address, _) = address_of_fuse(device, *fuse).unwrap();
                    widths
                        .binary_search_by_key(&address, |(address, _)| *address)
                        .unwrap()
                })
                .collect();
            holding.sort();
            let mut readout = all_above.clone();
            for index in &holding {
                readout[*index] = clean[*index];
            }
            let before = readout.clone();
            assert_eq!(
                read_in_readout(device, &readout, setting),
                read_in_readout(device, &clean, setting)
            );
            assert_eq!(
                set_in_readout(device, &mut readout, setting, pattern),
                Ok(())
            );
            assert_eq!(read_in_readout(device, &readout, setting), Ok(pattern));
            for index in 0..readout.len() {
                if !holding.contains(&index) {
                    assert_eq!(readout[index], before[index]);
                }
            }

            // A bit above the width in a byte of the setting; 8-bit bytes can have none.
            let narrow: Vec<usize> = holding
                .iter()
                .copied()
                .filter(|index| widths[*index].1 < 8)
                .collect();
            if let Some(lowest) = narrow.first() {
                let refused = Refusal {
                    number: 6,
                    value: *lowest as u64,
                };
                let mut damaged = all_above.clone();
                assert_eq!(read_in_readout(device, &damaged, setting), Err(refused));
                assert_eq!(
                    set_in_readout(device, &mut damaged, setting, pattern),
                    Err(refused)
                );
                let named = setting_of_number(device, setting).unwrap();
                let value = value_of_pattern(device, setting, pattern).unwrap();
                assert_eq!(read_value_in_readout(device, &damaged, named), Err(refused));
                assert_eq!(
                    set_value_in_readout(device, &mut damaged, named, value),
                    Err(refused)
                );
                // 5 comes before 6.
                let too_high = 1 << setting_width(device, setting).unwrap();
                assert_eq!(
                    set_in_readout(device, &mut damaged, setting, too_high),
                    Err(Refusal {
                        number: 5,
                        value: 0
                    })
                );
                assert_eq!(
                    set_value_in_readout(device, &mut damaged, named, Value::Usercode(0)),
                    Err(Refusal {
                        number: 5,
                        value: 0
                    })
                );
                assert!(damaged == all_above);
            }
        }
    }
}
