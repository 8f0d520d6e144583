//! The archive's functions. What a kernel asks of its inputs is tested where
//! debug assertions are on, as in the tests; where time is measured it is not.

mod raw {
    extern "C" {
        pub fn polynomial_mix(a: *const u32, an: usize, s: *const i32, sn: usize, e: *const i32, en: usize, out: *mut u32, on: usize);
        pub fn polynomial_multiply(u: *const u32, un: usize, s: *const i32, sn: usize, out: *mut u32, on: usize);
        pub fn transform_forward(g: *mut [u32; 1024]);
        pub fn transform_inverse(g: *mut [u32; 1024]);
        pub fn transform_product(a: *mut [u32; 1024], b: *mut [u32; 1024]);
        pub fn matrix_right(q: u32, n: usize, x: *const u32, xn: usize, s: *const i32, sn: usize, e: *const i32, en: usize, out: *mut u32, on: usize);
        pub fn matrix_left(q: u32, n: usize, s: *const i32, sn: usize, y: *const u32, yn: usize, e: *const i32, en: usize, out: *mut u32, on: usize);
        pub fn matrix_multiply(q: u32, n: usize, u: *const u32, un: usize, s: *const i32, sn: usize, out: *mut u32, on: usize);
        pub fn numbers_fold(x: u64) -> u64;
        pub fn packing_pack(w: u32, xs: *const u32, xn: usize, out: *mut u8, on: usize);
        pub fn packing_unpack(w: u32, bytes: *const u8, bn: usize, out: *mut u32, on: usize);
    }
}

fn below(q: u32, xs: &[u32]) -> bool {
    xs.iter().all(|&x| x < q)
}

fn within(bound: u32, xs: &[i32]) -> bool {
    xs.iter().all(|&x| x.unsigned_abs() <= bound)
}

/// The remainder by 2^32 - 1.
pub fn fold(x: u64) -> u64 {
    unsafe { raw::numbers_fold(x) }
}

/// a s + e modulo X^n + 1 and BCNS's q, where n is how many entries `out` has.
pub fn polynomial_mix(a: &[u32], s: &[i32], e: &[i32], out: &mut [u32]) {
    let n = out.len();
    debug_assert!(1 <= n && n <= 1024 && a.len() == n && s.len() == n && e.len() == n);
    debug_assert!(below(u32::MAX, a) && within(51, s));
    unsafe { raw::polynomial_mix(a.as_ptr(), n, s.as_ptr(), n, e.as_ptr(), n, out.as_mut_ptr(), n) }
}

/// u s modulo X^n + 1 and BCNS's q.
pub fn polynomial_multiply(u: &[u32], s: &[i32], out: &mut [u32]) {
    let n = out.len();
    debug_assert!(1 <= n && n <= 1024 && u.len() == n && s.len() == n);
    debug_assert!(below(u32::MAX, u) && within(51, s));
    unsafe { raw::polynomial_multiply(u.as_ptr(), n, s.as_ptr(), n, out.as_mut_ptr(), n) }
}

pub fn transform_forward(g: &mut [u32; 1024]) {
    debug_assert!(below(12289, g));
    unsafe { raw::transform_forward(g) }
}

pub fn transform_inverse(g: &mut [u32; 1024]) {
    debug_assert!(below(12289, g));
    unsafe { raw::transform_inverse(g) }
}

/// The product in `a`; `b` becomes its transform.
pub fn transform_product(a: &mut [u32; 1024], b: &mut [u32; 1024]) {
    debug_assert!(below(12289, a) && below(12289, b));
    unsafe { raw::transform_product(a, b) }
}

fn fits(q: u32, n: usize, rows: usize, numbers: &[u32], s: &[i32]) -> bool {
    1 <= q && q <= 32768 && 65536 % q == 0 && 1 <= n && n <= 864 && 1 <= rows && rows <= 864 && numbers.len() == rows * n && s.len() == 8 * n && below(q, numbers) && within(6, s)
}

/// X s + e, X of n rows of n numbers, s of n rows of 8.
pub fn matrix_right(q: u32, n: usize, x: &[u32], s: &[i32], e: &[i32], out: &mut [u32]) {
    debug_assert!(fits(q, n, n, x, s) && e.len() == 8 * n && out.len() == 8 * n);
    unsafe { raw::matrix_right(q, n, x.as_ptr(), x.len(), s.as_ptr(), s.len(), e.as_ptr(), e.len(), out.as_mut_ptr(), out.len()) }
}

/// s Y + e, s of 8 rows of n, Y of n rows of n numbers.
pub fn matrix_left(q: u32, n: usize, s: &[i32], y: &[u32], e: &[i32], out: &mut [u32]) {
    debug_assert!(fits(q, n, n, y, s) && e.len() == 8 * n && out.len() == 8 * n);
    unsafe { raw::matrix_left(q, n, s.as_ptr(), s.len(), y.as_ptr(), y.len(), e.as_ptr(), e.len(), out.as_mut_ptr(), out.len()) }
}

/// U s, U of 8 rows of n numbers.
pub fn matrix_multiply(q: u32, n: usize, u: &[u32], s: &[i32], out: &mut [u32]) {
    debug_assert!(fits(q, n, 8, u, s) && out.len() == 64);
    unsafe { raw::matrix_multiply(q, n, u.as_ptr(), u.len(), s.as_ptr(), s.len(), out.as_mut_ptr(), out.len()) }
}

pub fn pack(w: u32, xs: &[u32], out: &mut [u8]) {
    debug_assert!((1..=32).contains(&w) && xs.iter().all(|&x| u64::from(x) >> w == 0));
    debug_assert!(w as usize * xs.len() == 8 * out.len());
    unsafe { raw::packing_pack(w, xs.as_ptr(), xs.len(), out.as_mut_ptr(), out.len()) }
}

pub fn unpack(w: u32, bytes: &[u8], out: &mut [u32]) {
    debug_assert!((1..=32).contains(&w) && 8 * bytes.len() == w as usize * out.len());
    unsafe { raw::packing_unpack(w, bytes.as_ptr(), bytes.len(), out.as_mut_ptr(), out.len()) }
}
