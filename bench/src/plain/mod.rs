//! Plain code of the published methods, to measure the proved code against.
//! Both are built for release, and both by LLVM. The plain code makes no tests
//! of its inputs and zeroes no output.

pub mod bcns;
pub mod frodo;
pub mod keccak;
pub mod matrix;
pub mod newhope;
pub mod packing;
pub mod polynomial;
pub mod products;
pub mod sampling;
pub mod transform;

/// Both ends of one exchange, over what is lent to them.
pub trait Calls {
    fn offer(&self, message: &mut [u8]);
    fn reply(&self, opening: &[u8], message: &mut [u8], key: &mut [u8]);
    fn finish(&self, reply: &[u8], key: &mut [u8]);
}
