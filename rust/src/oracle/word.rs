//! From a word to rolls and back, over a width `l` of at most 64 bits: what one word gives, when it is accepted, and
//! which words give wanted rolls. The letters are the paper's: bounds b1..bk with product b, remainder r, threshold t.

/// The width of the product.
pub const L: u32 = 64;

/// 2^l.
pub fn power(l: u32) -> u128 {
    1 << l
}

/// b1 times .. times bk. From 2^128 on the answer is 2^128 - 1, which is above every limit as well.
pub fn product(bounds: &[u64]) -> u128 {
    bounds.iter().fold(1, |b: u128, &bound| b.saturating_mul(bound.into()))
}

/// The rolls of a word and the last r: bound times r equals 2^l times the roll plus the new r.
pub fn rolls(l: u32, bounds: &[u64], word: u64) -> (Vec<u64>, u64) {
    let mut r = word;
    let mut rolls = Vec::new();
    for &bound in bounds {
        let product = u128::from(bound) * u128::from(r);
        rolls.push((product / power(l)) as u64);
        r = (product % power(l)) as u64;
    }
    (rolls, r)
}

/// t = 2^l mod b, for bounds of which none is 0.
pub fn threshold(l: u32, bounds: &[u64]) -> u128 {
    power(l) % product(bounds)
}

/// Whether a word is accepted: the last r is at least t.
pub fn accepted(l: u32, bounds: &[u64], word: u64) -> bool {
    let (_, last_r) = rolls(l, bounds, word);
    u128::from(last_r) >= threshold(l, bounds)
}

/// The rolls, each below its bound, as a mixed-radix number a, first roll most significant.
pub fn value(bounds: &[u64], rolls: &[u64]) -> u128 {
    bounds.iter().zip(rolls).fold(0, |a, (&bound, &roll)| a * u128::from(bound) + u128::from(roll))
}

/// The first and the last word that give these rolls, accepted, where b is at most 2^l and each roll below its bound.
pub fn run_of_words(l: u32, bounds: &[u64], rolls: &[u64]) -> (u64, u64) {
    let (a, b, t) = (value(bounds, rolls), product(bounds), threshold(l, bounds));
    let first = (power(l) * a + t).div_ceil(b);
    let length = power(l) / b;
    (first as u64, (first + length - 1) as u64)
}
