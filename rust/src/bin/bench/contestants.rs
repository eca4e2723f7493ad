//! What the library is measured against: Rust written for speed, over the same words. Each works in one pass, so where
//! the words run out it answers `None` and leaves its list half done, which the library never does.

/// The place after the last word used, or `None` where the words ran out.
pub type Next = Option<usize>;

/// Rolls S dice with m, m - 1, .. sides from one word: the rolls and the last r.
fn roll<const S: usize>(m: usize, word: u64) -> ([usize; S], u64) {
    let mut r = word;
    let rolls = std::array::from_fn(|i| {
        let x = (m - i) as u128 * u128::from(r);
        r = x as u64;
        (x >> 64) as usize
    });
    (rolls, r)
}

/// 2^64 mod b.
fn threshold(b: u64) -> u64 {
    b.wrapping_neg() % b
}

// ---- One pass, a remainder for each batch, the batch size a variable ----

/// The shuffle with one loop for all batch sizes, from this word on.
pub fn variable_sizes(words: &[u64], start: usize, records: &mut [u32]) -> Next {
    let mut next = start;
    let mut m = records.len();
    while m > 1 {
        let size = match m {
            2..=6 => m - 1,
            7..=512 => 6,
            513..=2048 => 5,
            _ => 4,
        };
        let t = threshold((m + 1 - size..=m).map(|bound| bound as u64).product());
        let mut rolls = [0; 6];
        loop {
            let mut r = *words.get(next)?;
            next += 1;
            for (i, roll) in rolls[..size].iter_mut().enumerate() {
                let x = (m - i) as u128 * u128::from(r);
                r = x as u64;
                *roll = (x >> 64) as usize;
            }
            if r >= t {
                break;
            }
        }
        for (i, &roll) in rolls[..size].iter().enumerate() {
            records.swap(roll, m - 1 - i);
        }
        m -= size;
    }
    Some(next)
}

// ---- One pass, a loop for each constant batch size ----

/// When the threshold of a batch is computed.
#[derive(Clone, Copy, PartialEq, Eq)]
enum Remainder {
    /// For each batch.
    Always,
    /// Only where the last r is below the product of the bounds, for no threshold reaches that.
    Rarely,
}

/// The shuffle with a remainder for each batch, from this word on.
pub fn constant_sizes(words: &[u64], start: usize, records: &mut [u32]) -> Next {
    phases(words, start, records, Remainder::Always)
}

/// The shuffle with a remainder only where the last r is below the product.
pub fn rare_remainders(words: &[u64], records: &mut [u32]) -> Next {
    phases(words, 0, records, Remainder::Rarely)
}

#[inline(always)]
fn phases(words: &[u64], start: usize, records: &mut [u32], remainder: Remainder) -> Next {
    let mut next = start;
    let mut m = records.len();
    while m > 2048 {
        next = batch::<4>(words, next, records, m, remainder)?;
        m -= 4;
    }
    while m > 512 {
        next = batch::<5>(words, next, records, m, remainder)?;
        m -= 5;
    }
    while m > 6 {
        next = batch::<6>(words, next, records, m, remainder)?;
        m -= 6;
    }
    match m {
        6 => batch::<5>(words, next, records, m, remainder),
        5 => batch::<4>(words, next, records, m, remainder),
        4 => batch::<3>(words, next, records, m, remainder),
        3 => batch::<2>(words, next, records, m, remainder),
        2 => batch::<1>(words, next, records, m, remainder),
        _ => Some(next),
    }
}

#[inline(always)]
fn batch<const S: usize>(words: &[u64], start: usize, records: &mut [u32], m: usize, remainder: Remainder) -> Next {
    let b = (0..S).map(|i| (m - i) as u64).product();
    let mut next = start;
    loop {
        let (rolls, r) = roll::<S>(m, *words.get(next)?);
        next += 1;
        if (remainder == Remainder::Rarely && r >= b) || r >= threshold(b) {
            for (i, &roll) in rolls.iter().enumerate() {
                records.swap(roll, m - 1 - i);
            }
            return Some(next);
        }
    }
}

// ---- A word for each record ----

/// The shuffle without batches, which on equal words gives other records.
pub fn unbatched(words: &[u64], records: &mut [u32]) -> Next {
    let mut next = 0;
    for m in (2..=records.len()).rev() {
        let b = m as u64;
        loop {
            let ([roll], r) = roll::<1>(m, *words.get(next)?);
            next += 1;
            if r >= b || r >= threshold(b) {
                records.swap(roll, m - 1);
                break;
            }
        }
    }
    Some(next)
}

// ---- A list of bounds, cut into batches ----

/// A roll for each bound, with a remainder for each batch.
pub fn list(words: &[u64], bounds: &[u64], rolls: &mut [u64]) -> Next {
    batches(words, bounds.len(), |i| bounds[i], |i, roll| rolls[i] = roll)
}

/// Rolls bounds that a function gives, in batches of up to 16 with a product of up to 2^56, and tells each roll.
#[inline(always)]
fn batches(words: &[u64], count: usize, bound: impl Fn(usize) -> u64, mut tell: impl FnMut(usize, u64)) -> Next {
    let mut next = 0;
    let mut at = 0;
    while at < count {
        let mut b = bound(at);
        let mut size = 1;
        while size < 16 && at + size < count {
            match b.checked_mul(bound(at + size)) {
                Some(product) if product <= 1 << 56 => b = product,
                _ => break,
            }
            size += 1;
        }
        let t = threshold(b);
        let mut rolls = [0; 16];
        loop {
            let mut r = *words.get(next)?;
            next += 1;
            for (i, roll) in (at..).zip(&mut rolls[..size]) {
                let x = u128::from(bound(i)) * u128::from(r);
                r = x as u64;
                *roll = (x >> 64) as u64;
            }
            if r >= t {
                break;
            }
        }
        for (i, &roll) in (at..).zip(&rolls[..size]) {
            tell(i, roll);
        }
        at += size;
    }
    Some(next)
}

// ---- The sample ----

/// The reservoir, then the shuffle of its slots with one loop for all batch sizes.
pub fn sample_by_variable_sizes(words: &[u64], records: &[u32], k: usize, slots: &mut [u32]) -> Next {
    let next = reservoir(words, records, k, slots)?;
    variable_sizes(words, next, &mut slots[..k])
}

/// The reservoir, then the shuffle of its slots with a loop for each constant batch size.
pub fn sample_by_constant_sizes(words: &[u64], records: &[u32], k: usize, slots: &mut [u32]) -> Next {
    let next = reservoir(words, records, k, slots)?;
    constant_sizes(words, next, &mut slots[..k])
}

/// The reservoir with a remainder for each batch.
fn reservoir(words: &[u64], records: &[u32], k: usize, slots: &mut [u32]) -> Next {
    slots[..k].copy_from_slice(&records[..k]);
    let later = &records[k..];
    let bound = |i| (k + i) as u64 + 1;
    let tell = |i: usize, j| {
        if j < k as u64 {
            slots[j as usize] = later[i];
        }
    };
    batches(words, later.len(), bound, tell)
}
