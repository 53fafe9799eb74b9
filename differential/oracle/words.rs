//! Numbers as words of the lists: eight hex digits of f32 bits.

/// The word of an input: its bits as they are.
pub fn input(number: f32) -> String {
    format!("{:08X}", number.to_bits())
}

/// The word of an answer. Answers compare as numbers, so every zero is written 00000000 and
/// every NaN 7FC00000.
pub fn answer(number: f32) -> String {
    if number.is_nan() {
        "7FC00000".into()
    } else if number == 0.0 {
        "00000000".into()
    } else {
        input(number)
    }
}

/// Whether two answers are the same number: zeros alike, NaNs alike.
pub fn same(a: f32, b: f32) -> bool {
    a == b || (a.is_nan() && b.is_nan())
}

/// One case of a list: inputs, ` > `, answers.
pub fn case(inputs: &[f32], answers: &[f32]) -> String {
    let inputs: Vec<String> = inputs.iter().map(|x| input(*x)).collect();
    let answers: Vec<String> = answers.iter().map(|x| answer(*x)).collect();
    format!("{} > {}", inputs.join(" "), answers.join(" "))
}

/// Bytes in hex, without spaces.
pub fn hex(bytes: &[u8]) -> String {
    bytes.iter().map(|byte| format!("{byte:02X}")).collect()
}
