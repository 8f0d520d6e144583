//! 01, "Bytes on the wire": numbers in index order, lowest bit first.

/// The numbers, `width` bits each, as bytes.
pub fn pack(numbers: &[u32], width: usize) -> Vec<u8> {
    assert!((1..=32).contains(&width));
    let bits = numbers.len() * width;
    assert!(bits.is_multiple_of(8), "the total fills whole bytes");
    let mut bytes = vec![0u8; bits / 8];
    for (index, &number) in numbers.iter().enumerate() {
        assert!(u64::from(number) < 1 << width, "the number fits its width");
        for bit in 0..width {
            if number >> bit & 1 == 1 {
                set_bit(&mut bytes, index * width + bit);
            }
        }
    }
    bytes
}

/// The bytes as numbers of `width` bits each.
pub fn unpack(bytes: &[u8], width: usize) -> Vec<u32> {
    assert!((1..=32).contains(&width));
    let bits = bytes.len() * 8;
    assert!(bits.is_multiple_of(width), "the bytes hold whole numbers");
    let mut numbers = vec![0u32; bits / width];
    for (index, number) in numbers.iter_mut().enumerate() {
        for bit in 0..width {
            if get_bit(bytes, index * width + bit) {
                *number |= 1 << bit;
            }
        }
    }
    numbers
}

/// Bit `place` of the bytes, lowest bit of the first byte first.
pub fn get_bit(bytes: &[u8], place: usize) -> bool {
    bytes[place / 8] >> (place % 8) & 1 == 1
}

fn set_bit(bytes: &mut [u8], place: usize) {
    bytes[place / 8] |= 1 << (place % 8);
}
