use crate::generator::Generator;
use second::packing::{get_bit, pack, unpack};
use second::schemes::SIX;

#[test]
fn the_example_of_the_rules() {
    let bytes = [0x01, 0x80, 0x00, 0x30, 0x00, 0x10, 0x00];
    assert_eq!(pack(&[1, 2, 3, 4], 14), bytes);
    assert_eq!(unpack(&bytes, 14), [1, 2, 3, 4]);
}

#[test]
fn lowest_bit_first() {
    assert_eq!(pack(&[1, 0, 0, 0, 0, 0, 0, 0], 1), [0x01]);
    assert_eq!(pack(&[0, 0, 0, 0, 0, 0, 0, 1], 1), [0x80]);
    assert_eq!(pack(&[1, 2, 3, 0], 2), [0x39]);
    assert_eq!(pack(&[0x123, 0xABC], 12), [0x23, 0xC1, 0xAB]);
    assert_eq!(pack(&[0x0403_0201], 32), [1, 2, 3, 4]);
    assert_eq!(unpack(&[0xFF; 4], 32), [u32::MAX]);
    assert!(get_bit(&[0, 2], 9));
    assert!(!get_bit(&[0, 2], 8));
}

#[test]
fn nothing_packs_to_nothing() {
    for width in 1..=32 {
        assert!(pack(&[], width).is_empty());
        assert!(unpack(&[], width).is_empty());
    }
}

#[test]
fn numbers_survive_at_every_width() {
    let mut generator = Generator::new(1);
    for width in 1..=32 {
        for _ in 0..20 {
            let numbers: Vec<u32> = (0..24)
                .map(|_| generator.below(1 << width) as u32)
                .collect();
            let bytes = pack(&numbers, width);
            assert_eq!(bytes.len(), 3 * width);
            assert_eq!(unpack(&bytes, width), numbers);
        }
    }
}

#[test]
fn bytes_survive_at_every_width() {
    let mut generator = Generator::new(2);
    for width in 1..=32 {
        for _ in 0..20 {
            let bytes = generator.bytes(5 * width);
            let numbers = unpack(&bytes, width);
            assert_eq!(numbers.len(), 40);
            assert_eq!(pack(&numbers, width), bytes);
        }
    }
}

#[test]
fn each_single_bit_lands_in_its_place() {
    for width in 1..=32 {
        for place in 0..8 * width {
            let mut numbers = vec![0; 8];
            numbers[place / width] = 1 << (place % width);
            let mut bytes = vec![0; width];
            bytes[place / 8] = 1 << (place % 8);
            assert_eq!(pack(&numbers, width), bytes);
            assert_eq!(unpack(&bytes, width), numbers);
        }
    }
}

#[test]
fn every_packed_part_has_its_length() {
    for s in &SIX {
        let largest = vec![(s.q - 1) as u32; s.packed_count()];
        let bytes = pack(&largest, s.width);
        assert_eq!(bytes.len(), s.packed_bytes());
        assert_eq!(unpack(&bytes, s.width), largest);
    }
}
