//! The benchmark: the library beside Rust written for speed, on equal words, in one run, and beside the library of an
//! earlier commit where its shared object is named. Each line has the least time of many rounds, and the ratio of the
//! library's time to it. The rounds go through all of a table's contestants in turn, so that whatever else the machine
//! does meets each of them.

mod before;
mod contestants;

use before::Before;
use contestants::Next;
use std::env;
use std::hint::black_box;
use std::time::{Duration, Instant};

const ROUNDS: usize = 400;

const LIBRARY: &str = "the library";
const BEFORE: &str = "the library before";
const ALWAYS: &str = "one pass, a remainder for each batch";
const VARIABLE: &str = "one pass, a remainder for each batch, variable size";
const CONSTANT: &str = "one pass, a remainder for each batch, constant sizes";
const RARELY: &str = "one pass, a remainder where r is below b, constant sizes";
const UNBATCHED: &str = "one pass, not batched";

/// A name and what is timed under it.
type Contestant<'a> = (&'a str, Box<dyn FnMut() + 'a>);

/// A name and a call under it, on a lent list.
type Named<'a, T> = (&'a str, Box<dyn Fn(&mut [T]) -> Next + 'a>);

fn main() {
    let before = env::args().nth(1).map(|path| Before::load(&path));
    let before = before.as_ref();
    println!("least time of {ROUNDS} rounds; ratio: the time of the table's first line to the line's own\n");
    lists(4_096, 8, before);
    shuffles(512, 64, before);
    shuffles(16_384, 2, before);
    samples(64, 16_384, 2, before);
    samples(8_192, 16_384, 2, before);
    ways_back(16_384, 2);
}

/// Words as the paper's fastest generator gives them.
fn words(count: usize) -> Vec<u64> {
    let mut state: u128 = 0x9e37_79b9_7f4a_7c15_f39c_c060_5ced_c835;
    let mut next = || {
        state = state.wrapping_mul(0xda94_2042_e4dd_58b5);
        (state >> 64) as u64
    };
    (0..count).map(|_| next()).collect()
}

fn lists(count: usize, calls: u32, before: Option<&Before>) {
    // Bounds of 14 bits, their top bit and thirteen random ones: every batch has four.
    let mut words = words(2 * count);
    let bounds: Vec<u64> = words.split_off(count).iter().map(|word| 1 << 13 | word >> 51).collect();
    let (words, bounds) = (&words[..], &bounds[..]);
    let mut all: Vec<Named<u64>> =
        vec![(LIBRARY, Box::new(move |rolls| used(hildrasp::roll_list(words, 0, bounds, rolls))))];
    if let Some(before) = before {
        all.push((BEFORE, Box::new(move |rolls| before.roll_list(words, bounds, rolls))));
    }
    all.push((ALWAYS, Box::new(move |rolls| contestants::list(words, bounds, rolls))));
    race(&format!("a list of {count} bounds of 14 bits"), calls, agreeing(&vec![0; count], all));
}

fn shuffles(n: usize, calls: u32, before: Option<&Before>) {
    // More words than the unbatched shuffle needs, with rejected ones.
    let words = words(2 * n);
    let words = &words[..];
    let mut all: Vec<Named<u32>> = vec![(LIBRARY, Box::new(move |records| used(hildrasp::shuffle(words, 0, records))))];
    if let Some(before) = before {
        all.push((BEFORE, Box::new(move |records| before.shuffle(words, records))));
    }
    all.push((VARIABLE, Box::new(move |records| contestants::variable_sizes(words, 0, records))));
    all.push((CONSTANT, Box::new(move |records| contestants::constant_sizes(words, 0, records))));
    all.push((RARELY, Box::new(move |records| contestants::rare_remainders(words, records))));
    // The unbatched shuffle gives other records, and agrees with itself alone.
    let other: Vec<Named<u32>> = vec![(UNBATCHED, Box::new(move |records| contestants::unbatched(words, records)))];
    let records: Vec<u32> = (0..n as u32).collect();
    let mut all = agreeing(&records, all);
    all.extend(agreeing(&records, other));
    race(&format!("shuffle of {n} records"), calls, all);
}

fn samples(k: usize, n: usize, calls: u32, before: Option<&Before>) {
    let words = words(n);
    let records: Vec<u32> = (0..n as u32).collect();
    let (words, records) = (&words[..], &records[..]);
    let mut all: Vec<Named<u32>> =
        vec![(LIBRARY, Box::new(move |slots| used(hildrasp::sample(words, 0, records, k, slots))))];
    if let Some(before) = before {
        all.push((BEFORE, Box::new(move |slots| before.sample(words, records, k, slots))));
    }
    all.push((VARIABLE, Box::new(move |slots| contestants::sample_by_variable_sizes(words, records, k, slots))));
    all.push((CONSTANT, Box::new(move |slots| contestants::sample_by_constant_sizes(words, records, k, slots))));
    race(&format!("sample of {k} from {n} records"), calls, agreeing(&vec![0; k], all));
}

fn ways_back(n: usize, calls: u32) {
    let words = words(n);
    let mut order: Vec<u32> = (0..n as u32).collect();
    hildrasp::shuffle(&words, 0, &mut order).expect("the words suffice");
    let way_back = |rolls: &mut [u64]| hildrasp::rolls_behind(&order, rolls).is_ok();
    let shuffle = |records: &mut [u32]| hildrasp::shuffle(&words, 0, records).is_ok();
    let mut rolls = vec![0; n - 1];
    assert!(way_back(&mut rolls), "a shuffle of 0, 1, .. is an order");
    race(
        &format!("rolls behind an order of {n}"),
        calls,
        vec![(LIBRARY, timed(&rolls, way_back)), ("the library's shuffle", timed(&order, shuffle))],
    );
}

/// The place after the last word that the library used.
fn used(answer: Result<hildrasp::Used, hildrasp::Refusal>) -> Next {
    answer.ok().map(|used| used.next)
}

/// The contestants, each on a list of its own, once it is seen that all succeed and give equal results.
fn agreeing<'a, T: Clone + PartialEq + 'a>(list: &[T], all: Vec<Named<'a, T>>) -> Vec<Contestant<'a>> {
    let result = |call: &dyn Fn(&mut [T]) -> Next| {
        let mut list = list.to_vec();
        (call(&mut list), list)
    };
    let wanted = result(&all[0].1);
    assert!(wanted.0.is_some(), "the words suffice");
    for (name, call) in &all {
        assert!(result(call) == wanted, "{name}: equal words give equal results");
    }
    all.into_iter().map(|(name, call)| (name, timed(list, call))).collect()
}

/// A call on a list of its own, over and over.
fn timed<'a, T: Clone + 'a, A: 'a>(list: &[T], call: impl Fn(&mut [T]) -> A + 'a) -> Box<dyn FnMut() + 'a> {
    let mut list = list.to_vec();
    Box::new(move || {
        black_box(call(black_box(&mut list)));
    })
}

/// Times all contestants in turn, round after round, and prints the least time of each for one call.
fn race(title: &str, calls: u32, mut contestants: Vec<Contestant>) {
    let mut least = vec![Duration::MAX; contestants.len()];
    for _ in 0..ROUNDS {
        for ((_, run), least) in contestants.iter_mut().zip(&mut least) {
            let begun = Instant::now();
            for _ in 0..calls {
                run();
            }
            *least = begun.elapsed().min(*least);
        }
    }
    println!("{title}");
    for ((name, _), time) in contestants.iter().zip(&least) {
        let micros = time.as_secs_f64() * 1e6 / f64::from(calls);
        let ratio = least[0].as_secs_f64() / time.as_secs_f64();
        println!("  {name:<58}{micros:>9.2} us   ratio {ratio:.2}");
    }
    println!();
}
