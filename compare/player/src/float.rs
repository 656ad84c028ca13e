//! An f32 as whole numbers.

/// A finite number as m * 2^e, with m below 2^24 in size and e from -149; m is
/// at least 2^23 in size unless e is -149.
pub fn parts(x: f32) -> (i128, i32) {
    let bits = x.to_bits();
    let (field, fraction) = ((bits >> 23 & 0xFF) as i32, i128::from(bits & 0x7F_FFFF));
    let size = fraction + if field == 0 { 0 } else { 1 << 23 };
    let signed = if x.is_sign_negative() { -size } else { size };
    (signed, field.max(1) - 150)
}
