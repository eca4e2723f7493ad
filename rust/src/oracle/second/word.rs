//! From a word to rolls and back, over a width `l` of at most 64 bits, without an r that is carried from bound to bound
//! and without a threshold.
//!
//! Bounds with product b have b series of rolls. In their order, the first roll most significant, they part the 2^l
//! words into b stretches, as even as whole numbers allow: word w is in stretch b w / 2^l, rounded down. Some stretches
//! have one word more than others, and the first word of each of these is rejected.

/// How many words each series of rolls is given by: 2^l divided by each bound in turn, rounded down. It is 0 exactly
/// where the product of the bounds is above 2^l, or a bound is 0 and there is no series of rolls at all.
pub fn share(l: u32, bounds: &[u64]) -> u128 {
    bounds.iter().fold(1 << l, |share: u128, &bound| share.checked_div(bound.into()).unwrap_or(0))
}

/// The rolls of a word, accepted or not, for bounds that leave a share: the digits of its stretch, from the last back.
pub fn rolls_of(l: u32, bounds: &[u64], word: u64) -> Vec<u64> {
    let b: u128 = bounds.iter().map(|&bound| u128::from(bound)).product();
    // At the most 2^64 times 2^64 - 1, and the stretch is below b.
    let mut stretch = ((b * u128::from(word)) >> l) as u64;
    let mut rolls = vec![0; bounds.len()];
    for (roll, bound) in rolls.iter_mut().zip(bounds).rev() {
        *roll = stretch % bound;
        stretch /= bound;
    }
    rolls
}

/// Whether a word is accepted: it is among the last words of its stretch, as many as the share. So the word one share
/// further on is in another stretch, or past all words.
pub fn accepted(l: u32, bounds: &[u64], word: u64) -> bool {
    let further_on = u128::from(word) + share(l, bounds);
    further_on >= 1 << l || rolls_of(l, bounds, further_on as u64) != rolls_of(l, bounds, word)
}

/// The first and the last word that give these rolls, accepted. A list of rolls is less than another where the first
/// roll that differs is, and so the rolls of a higher word are never less.
pub fn run_behind(l: u32, bounds: &[u64], rolls: &[u64]) -> (u64, u64) {
    let is_past = |word| rolls_of(l, bounds, word).as_slice() > rolls;
    let gives_them = |word| rolls_of(l, bounds, word) == rolls && accepted(l, bounds, word);
    let first = least_word(l, |word| gives_them(word) || is_past(word));
    let after = least_word(l, is_past);
    (first as u64, (after - 1) as u64)
}

/// The least word that passes a test which every higher word passes too; 2^l where no word does.
fn least_word(l: u32, test: impl Fn(u64) -> bool) -> u128 {
    let (mut low, mut high) = (0, 1 << l);
    while low < high {
        let middle: u128 = (low + high) / 2;
        if test(middle as u64) {
            high = middle;
        } else {
            low = middle + 1;
        }
    }
    low
}
