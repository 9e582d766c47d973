//! Numeric instructions, by the bytes of their i32 forms and the number of bits. Values have no bits beyond these.

fn signed(value: u64, bits: u32) -> i64 {
    (value << (64 - bits)) as i64 >> (64 - bits)
}

fn cut(value: u64, bits: u32) -> u64 {
    value & (u64::MAX >> (64 - bits))
}

/// A value of some bits with its sign in more.
pub fn extend(value: u64, from: u32, to: u32) -> u64 {
    cut(signed(value, from) as u64, to)
}

pub fn unary(byte: u8, bits: u32, value: u64) -> u64 {
    u64::from(match byte {
        0x67 => (value << (64 - bits)).leading_zeros().min(bits),
        0x68 => value.trailing_zeros().min(bits),
        _ => value.count_ones(),
    })
}

pub fn compare(byte: u8, bits: u32, first: u64, second: u64) -> bool {
    let (left, right) = (signed(first, bits), signed(second, bits));
    match byte {
        0x46 => first == second,
        0x47 => first != second,
        0x48 => left < right,
        0x49 => first < second,
        0x4a => left > right,
        0x4b => first > second,
        0x4c => left <= right,
        0x4d => first <= second,
        0x4e => left >= right,
        _ => first >= second,
    }
}

fn divided(byte: u8, bits: u32, first: u64, second: u64) -> Result<u64, &'static str> {
    if second == 0 {
        return Err("divide-by-zero");
    }
    let (left, right) = (signed(first, bits), signed(second, bits));
    if byte == 0x6d && right == -1 && left == signed(1 << (bits - 1), bits) {
        return Err("overflow");
    }
    Ok(match byte {
        0x6d => left.wrapping_div(right) as u64,
        0x6e => first / second,
        0x6f => left.wrapping_rem(right) as u64,
        _ => first % second,
    })
}

fn rotated(bits: u32, value: u64, by: u32) -> u64 {
    let by = by % bits;
    if by == 0 {
        return value;
    }
    value << by | value >> (bits - by)
}

pub fn binary(byte: u8, bits: u32, first: u64, second: u64) -> Result<u64, &'static str> {
    let by = (second % u64::from(bits)) as u32;
    let value = match byte {
        0x6a => first.wrapping_add(second),
        0x6b => first.wrapping_sub(second),
        0x6c => first.wrapping_mul(second),
        0x6d..=0x70 => divided(byte, bits, first, second)?,
        0x71 => first & second,
        0x72 => first | second,
        0x73 => first ^ second,
        0x74 => first << by,
        0x75 => (signed(first, bits) >> by) as u64,
        0x76 => first >> by,
        0x77 => rotated(bits, first, by),
        _ => rotated(bits, first, bits - by),
    };
    Ok(cut(value, bits))
}
