//! Numbers of w bits as bytes and back, through a 64-bit accumulator.

/// What a number is kept in.
pub trait Word: Copy {
    fn wide(self) -> u64;
    fn low(x: u64) -> Self;
}

impl Word for u16 {
    fn wide(self) -> u64 {
        self.into()
    }
    fn low(x: u64) -> u16 {
        x as u16
    }
}

impl Word for u32 {
    fn wide(self) -> u64 {
        self.into()
    }
    fn low(x: u64) -> u32 {
        x as u32
    }
}

pub fn pack<T: Word>(w: u32, xs: &[T], out: &mut [u8]) {
    let (mut held, mut bits, mut j) = (0u64, 0, 0);
    for &x in xs {
        held |= x.wide() << bits;
        bits += w;
        if bits >= 32 {
            out[j..j + 4].copy_from_slice(&(held as u32).to_le_bytes());
            held >>= 32;
            bits -= 32;
            j += 4;
        }
    }
    let rest = out.len() - j;
    out[j..].copy_from_slice(&held.to_le_bytes()[..rest]);
}

pub fn unpack<T: Word>(w: u32, bytes: &[u8], out: &mut [T]) {
    let mask = (1u64 << w) - 1;
    let (mut held, mut bits, mut i) = (0u64, 0, 0);
    for x in out {
        if bits < w {
            let mut four = [0; 4];
            let some = 4.min(bytes.len() - i);
            four[..some].copy_from_slice(&bytes[i..i + some]);
            held |= u64::from(u32::from_le_bytes(four)) << bits;
            bits += 32;
            i += some;
        }
        *x = T::low(held & mask);
        held >>= w;
        bits -= w;
    }
}
