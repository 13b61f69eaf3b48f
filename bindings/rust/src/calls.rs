//! The functions of `libcoupling.a`, as `include/coupling.h` declares them.

#[link(name = "coupling", kind = "static")]
extern "C" {
    pub fn coupling_multiply(method: u32, a: *const u8, a_len: usize, b: *const u8, b_len: usize, out: *mut u8, out_len: usize) -> u32;
    pub fn coupling_train(method: u32, count: u32, sheets: *const u8, sheets_len: usize, out: *mut u8, out_len: usize) -> u32;

    pub fn coupling_read(
        sheet: *const u8, sheet_len: usize,
        lowers: *mut u32, lowers_len: usize, uppers: *mut u32, uppers_len: usize,
    ) -> u32;

    pub fn coupling_read_with(
        amounts: *const u8, amounts_len: usize, sheet: *const u8, sheet_len: usize,
        lowers: *mut u32, lowers_len: usize, uppers: *mut u32, uppers_len: usize,
    ) -> u32;

    pub fn coupling_write(
        rows: usize, columns: usize,
        lowers: *const u32, lowers_len: usize, uppers: *const u32, uppers_len: usize,
        out: *mut u8, out_len: usize,
    ) -> u32;

    pub fn coupling_product(
        method: u32, a_rows: usize, a_columns: usize, b_rows: usize, b_columns: usize,
        a_lowers: *const u32, a_lowers_len: usize, a_uppers: *const u32, a_uppers_len: usize,
        b_lowers: *const u32, b_lowers_len: usize, b_uppers: *const u32, b_uppers_len: usize,
        a_mids: *mut u32, a_mids_len: usize, a_rads: *mut u32, a_rads_len: usize,
        b_mids: *mut u32, b_mids_len: usize, b_rads: *mut u32, b_rads_len: usize,
        lowers: *mut u32, lowers_len: usize, uppers: *mut u32, uppers_len: usize,
    ) -> u32;

    pub fn coupling_running_start(value: *mut u32, value_len: usize) -> u32;

    pub fn coupling_running_take(
        value: *mut u32, value_len: usize,
        a_lower: u32, a_upper: u32, a_class: u32, b_lower: u32, b_upper: u32, b_class: u32,
    ) -> u32;

    pub fn coupling_running_amounts(value: *mut u32, value_len: usize, amounts: *const u8, amounts_len: usize) -> u32;

    pub fn coupling_add_down(a: u32, b: u32) -> u32;
    pub fn coupling_add_up(a: u32, b: u32) -> u32;
    pub fn coupling_add_near(a: u32, b: u32) -> u32;
    pub fn coupling_sub_down(a: u32, b: u32) -> u32;
    pub fn coupling_sub_up(a: u32, b: u32) -> u32;
    pub fn coupling_sub_near(a: u32, b: u32) -> u32;
    pub fn coupling_mul_down(a: u32, b: u32) -> u32;
    pub fn coupling_mul_up(a: u32, b: u32) -> u32;
    pub fn coupling_mul_near(a: u32, b: u32) -> u32;
    pub fn coupling_midpoint_down(a: u32, b: u32) -> u32;
    pub fn coupling_midpoint_up(a: u32, b: u32) -> u32;
    pub fn coupling_midpoint_near(a: u32, b: u32) -> u32;

    pub fn coupling_to_midrad(lower: u32, upper: u32, mid: *mut u32, rad: *mut u32) -> u32;
    pub fn coupling_to_bounds(mid: u32, rad: u32, lower: *mut u32, upper: *mut u32) -> u32;
}
