//! What each call takes of the stack at most, in KiB, as the header's table has it.
//! `examples/c/depths` writes both.
#![allow(dead_code, non_upper_case_globals)]

pub const wim_offer: usize = 102;
pub const wim_reply: usize = 125;
pub const wim_finish: usize = 104;
pub const wim_open: usize = 133;
pub const wim_answer: usize = 187;
pub const wim_noise: usize = 3;
pub const wim_expand: usize = 1;
pub const wim_grow: usize = 7;
pub const wim_shake128: usize = 3;
pub const wim_sha3_256: usize = 2;
pub const wim_product: usize = 2;
pub const wim_bench: usize = 159;
pub const wim_session_offer: usize = 102;
pub const wim_session_reply: usize = 125;
pub const wim_session_finish: usize = 105;
pub const wim_session_open: usize = 133;
pub const wim_session_answer: usize = 187;
pub const wim_session_close: usize = 1;
pub const wim_rack_offer: usize = 102;
pub const wim_rack_reply: usize = 125;
pub const wim_rack_finish: usize = 105;
pub const wim_rack_close: usize = 1;
pub const wim_rack_clear: usize = 1;
pub const wim_settings_write: usize = 1;
pub const wim_settings_read: usize = 1;
pub const wim_rows_offer_begin: usize = 28;
pub const wim_rows_offer_part: usize = 21;
pub const wim_rows_offer_end: usize = 41;
pub const wim_rows_reply_begin: usize = 86;
pub const wim_rows_reply_part: usize = 21;
pub const wim_rows_reply_end: usize = 43;
