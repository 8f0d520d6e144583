//! The bytes of whole messages: what lies where.

use crate::generator::Generator;
use crate::inputs::{numbers, Inputs};
use second::packing::{get_bit, pack, unpack};
use second::polynomial::{product, sum};
use second::schemes::SIX;
use second::signed::remainder;
use second::transform::{inverse, transform};

fn signed(values: &[i32]) -> Vec<i128> {
    values.iter().map(|&x| i128::from(x)).collect()
}

fn wide(values: &[u32]) -> Vec<i128> {
    values.iter().map(|&x| i128::from(x)).collect()
}

fn narrow(values: &[i128]) -> Vec<u32> {
    values.iter().map(|&x| x as u32).collect()
}

#[test]
fn the_seed_is_carried_unread() {
    for s in &SIX {
        let mut inputs = Inputs::sparse(s);
        let without = inputs.opening();
        inputs.seed = (1..=s.seed_bytes() as u8).collect();
        let opening = inputs.opening();
        let place = if s.number == 1 { 1792 } else { 0 };
        let mut expected = without.clone();
        expected[place..place + s.seed_bytes()].copy_from_slice(&inputs.seed);
        assert_eq!(opening, expected);
        assert_eq!(
            inputs.reply_and_key(&opening),
            inputs.reply_and_key(&without)
        );
    }
}

#[test]
fn a_zero_secret_sends_the_noise() {
    for s in &SIX {
        let mut inputs = Inputs::zero(s);
        let count = s.packed_count();
        inputs.a = vec![1; s.public_count()];
        inputs.e[0] = -1;
        inputs.e[count - 1] = s.largest_noise as i32;
        inputs.e1 = inputs.e.clone();
        let noise: Vec<i128> = inputs.e.iter().map(|&x| remainder(x.into(), s.q)).collect();
        let sent = if s.number == 1 {
            transform(&noise)
        } else {
            noise
        };
        let packed = pack(&narrow(&sent), s.width);
        let opening = inputs.opening();
        let start = if s.number > 1 { 16 } else { 0 };
        assert_eq!(opening[start..start + s.packed_bytes()], packed);
        let (reply, _) = inputs.reply_and_key(&opening);
        assert_eq!(reply[..s.packed_bytes()], packed);
    }
}

#[test]
fn newhope_multiplies_transformed_numbers() {
    // The transform of as + e is that of s times the lent a, entry by entry,
    // and that of e.
    let mut generator = Generator::new(30);
    let inputs = Inputs::random(&SIX[1], &mut generator);
    let (s, e) = (transform(&signed(&inputs.s)), transform(&signed(&inputs.e)));
    let b: Vec<i128> = (0..1024)
        .map(|i| remainder(i128::from(inputs.a[i]) * s[i] + e[i], 12289))
        .collect();
    let opening = inputs.opening();
    assert_eq!(opening[..1792], pack(&narrow(&b), 14));
    assert_eq!(opening[1792..], inputs.seed);
    // And untransformed it is the product of polynomials and e.
    let a = inverse(&wide(&inputs.a));
    let a_s = product(&a, &signed(&inputs.s), 12289);
    assert_eq!(inverse(&b), sum(&a_s, &signed(&inputs.e), 12289));
}

#[test]
fn hints_and_key_of_zero_secrets() {
    for s in &SIX {
        let inputs = Inputs::sparse(s);
        let (reply, key) = inputs.reply_and_key(&inputs.opening());
        assert_eq!(reply[s.packed_bytes()..], vec![0; s.hint_bytes()]);
        // In NewHope every group is near, which gives 1.
        let byte = if s.number == 1 { 0xFF } else { 0 };
        assert_eq!(key, vec![byte; s.key_bytes]);
        assert_eq!(inputs.peer(&reply), key);
    }
}

#[test]
fn bcns_coins_hints_and_keys_stand_at_their_bits() {
    // At v = 0 coin 2 gives hint 1, each other coin hint 0; all bits are 0.
    let s = &SIX[0];
    let mut inputs = Inputs::sparse(s);
    let mut generator = Generator::new(31);
    inputs.coins = generator.bytes(256);
    let (reply, key) = inputs.reply_and_key(&inputs.opening());
    for entry in 0..1024 {
        let low = get_bit(&inputs.coins, 2 * entry);
        let high = get_bit(&inputs.coins, 2 * entry + 1);
        assert_eq!(get_bit(&reply[4096..], entry), high && !low);
    }
    assert_eq!(key, [0; 128]);
}

#[test]
fn bcns_entries_of_the_mixed_value() {
    // With s' = 1 the mixed value is what the opening holds.
    let s = &SIX[0];
    let mut inputs = Inputs::sparse(s);
    inputs.s1[0] = 1;
    let mut v = vec![0; 1024];
    v[5] = 1073741824;
    v[6] = 2147483648;
    v[1023] = 4294967294;
    let (reply, key) = inputs.reply_and_key(&pack(&v, 32));
    let hints: Vec<usize> = (0..1024).filter(|&i| get_bit(&reply[4096..], i)).collect();
    let bits: Vec<usize> = (0..1024).filter(|&i| get_bit(&key, i)).collect();
    // z is 2^31 (hint 1, bit 1), 2^32 (hint 0, bit 1), 2q - 2 (hint 1, bit 0).
    assert_eq!(hints, [5, 1023]);
    assert_eq!(bits, [5, 6]);
}

#[test]
fn newhope_groups_hints_and_keys() {
    // With s' = 1 the mixed value is what the opening holds, transformed.
    let s = &SIX[1];
    let mut inputs = Inputs::sparse(s);
    inputs.s1[0] = 1;
    let mut v = vec![0; 1024];
    for j in 0..4 {
        v[3 + 256 * j] = 6144;
        v[100 + 256 * j] = 1536;
    }
    let mut opening = pack(&narrow(&transform(&v)), 14);
    opening.extend([9; 32]);
    let (reply, key) = inputs.reply_and_key(&opening);
    let hints = unpack(&reply[1792..], 2);
    let marked: Vec<usize> = (0..1024).filter(|&i| hints[i] != 0).collect();
    assert_eq!(marked, [100 + 256 * 3]);
    assert_eq!(hints[100 + 256 * 3], 1);
    let far: Vec<usize> = (0..256).filter(|&i| !get_bit(&key, i)).collect();
    assert_eq!(far, [3]);
}

#[test]
fn frodo_entries_hints_and_keys() {
    // S' has a 1 at (row, row), so row r of V is row r of B.
    for s in &SIX[2..] {
        let mut inputs = Inputs::sparse(s);
        for row in 0..8 {
            inputs.s1[row * s.n + row] = 1;
        }
        let mut generator = Generator::new(32);
        let b = numbers(&mut generator, 8 * s.n, s.q);
        let opening = [vec![1; 16], pack(&b, s.width)].concat();
        let (reply, key) = inputs.reply_and_key(&opening);
        let interval = s.q / (1 << s.key_width());
        let keys = unpack(&key, s.key_width());
        for entry in 0..64 {
            let v = i128::from(b[entry]);
            let hint = v * 2 / interval % 2;
            let rounded = (2 * v + interval) / (2 * interval);
            let hints = &reply[s.packed_bytes()..];
            assert_eq!(i128::from(get_bit(hints, entry)), hint);
            assert_eq!(i128::from(keys[entry]), rounded % (1 << s.key_width()));
        }
    }
}
