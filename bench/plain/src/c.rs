//! The C version, where the kit's clang was found.

use crate::doubles::{Doubles, DoublesAnswer, UnitsAnswer};

pub struct Version {
    pub compiler: &'static str,
    /// The sheet program.
    pub program: &'static str,
    pub exp_record: fn(i64, i64, i64, i64, i64, &mut [u8]) -> i64,
    pub exp_register_record: fn(i64, i64, i64, i64, i64, &mut [u8]) -> i64,
    pub log_record: fn(i64, i64, i64, &mut [u8]) -> i64,
    pub log_doubles: fn(i64, i64, i64) -> DoublesAnswer,
    pub read_doubles: fn(Doubles) -> UnitsAnswer,
}

#[cfg(not(plain_c))]
pub const VERSION: Option<Version> = None;

#[cfg(plain_c)]
pub const VERSION: Option<Version> = Some(Version {
    compiler: env!("PLAIN_C_COMPILER"),
    program: env!("PLAIN_C_PROGRAM"),
    exp_record: |n, ex, ey, sx, sy, out| {
        // SAFETY: the pointer and the length are those of one exclusive slice.
        unsafe { plain_exp(n, ex, ey, sx, sy, out.as_mut_ptr(), out.len()) }
    },
    exp_register_record: |n, ex, ey, sx, sy, out| {
        // SAFETY: as above.
        unsafe { plain_exp_register(n, ex, ey, sx, sy, out.as_mut_ptr(), out.len()) }
    },
    // SAFETY: as above.
    log_record: |n, x, y, out| unsafe { plain_log(n, x, y, out.as_mut_ptr(), out.len()) },
    // SAFETY: both take numbers alone.
    log_doubles: |n, x, y| unsafe { plain_log_doubles(n, x, y) },
    read_doubles: |doubles| unsafe { plain_read_doubles(doubles) },
});

#[cfg(plain_c)]
extern "C" {
    fn plain_exp(n: i64, ex: i64, ey: i64, sx: i64, sy: i64, out: *mut u8, len: usize) -> i64;
    fn plain_exp_register(
        n: i64,
        ex: i64,
        ey: i64,
        sx: i64,
        sy: i64,
        out: *mut u8,
        len: usize,
    ) -> i64;
    fn plain_log(n: i64, x: i64, y: i64, out: *mut u8, len: usize) -> i64;
    fn plain_log_doubles(n: i64, x: i64, y: i64) -> DoublesAnswer;
    fn plain_read_doubles(doubles: Doubles) -> UnitsAnswer;
}
