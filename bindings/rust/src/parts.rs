//! What only the comparison with the Rust asks: C functions of libparts.a. include/parts.h says what each one does.
//!
//! Lists cross as in `sys`.

unsafe extern "C" {
    /// The amounts one after another as voluntary bets, by value inside.
    pub fn peatcloak_run_bets(
        floats: *mut f32,
        floats_len: usize,
        numbers: *mut u32,
        numbers_len: usize,
        amounts: *const f32,
        amounts_len: usize,
    ) -> u32;

    /// The larger; the other where one is a NaN.
    pub safe fn peatcloak_max(a: f32, b: f32) -> f32;
    /// The smaller; the other where one is a NaN.
    pub safe fn peatcloak_min(a: f32, b: f32) -> f32;
    /// EPSILON times 1000 of it.
    pub safe fn peatcloak_tol(x: f32) -> f32;
    /// Without its sign.
    pub safe fn peatcloak_abs(x: f32) -> f32;
    /// 1 where its sign bit is set and it is no NaN.
    pub safe fn peatcloak_is_sign_negative(x: f32) -> u32;
    /// 1 where it is a NaN.
    pub safe fn peatcloak_is_nan(x: f32) -> u32;
    /// 1 where it is at most EPSILON away from 0.
    pub safe fn peatcloak_is_near_zero(x: f32) -> u32;
}
