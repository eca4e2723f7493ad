//! What the tests share: a generator with fixed seeds, inputs close to the edges of the rules, lists to lend, and the
//! comparison of the library's whole answer with the oracle's.

use hildrasp::oracle::{self, plan::Plan, word};
use hildrasp::raw::{self, Answer, Batch, Behind, Drawn, Numbers, Written};
use hildrasp::Reason;
use std::env;
use std::fmt::{self, Debug};
use std::path::Path;
use std::process::Command;

/// The environment variable that names the emulator, where one runs these tests.
const EMULATOR: &str = "CARGO_TARGET_X86_64_UNKNOWN_LINUX_GNU_RUNNER";

/// The environment variable that asks for all cases, the random ones this many times over.
const CASES: &str = "HILDRASP_CASES";

/// One in how many of a test's cases is run. An emulator is many times slower: there it is one in ten of a thousand or
/// more, unless all are asked for.
fn one_in(all: usize) -> usize {
    let too_many = all >= 1000 && env::var_os(EMULATOR).is_some() && env::var_os(CASES).is_none();
    if too_many {
        10
    } else {
        1
    }
}

/// How many random cases to run.
pub fn cases(all: usize) -> usize {
    match env::var(CASES) {
        Ok(times) => all * times.parse::<usize>().expect("HILDRASP_CASES is a whole number"),
        Err(_) => all / one_in(all),
    }
}

/// The cases of a long exhaustive test to run.
pub fn thinned<T>(all: Vec<T>) -> impl Iterator<Item = T> {
    let step = one_in(all.len());
    all.into_iter().step_by(step)
}

/// A program built for x86-64: run as it is, or, where these tests themselves are run by an emulator, by the same one.
pub fn built_program(path: &Path) -> Command {
    match env::var_os(EMULATOR) {
        Some(emulator) => {
            let mut command = Command::new(emulator);
            command.arg(path);
            command
        }
        None => Command::new(path),
    }
}

/// Every choice of some of the numbers, none and all included, each in the order given.
pub fn choices(numbers: &[u64]) -> Vec<Vec<u64>> {
    let chosen = |set: usize| numbers.iter().enumerate().filter(move |(i, _)| set >> i & 1 == 1).map(|(_, &no)| no);
    (0..1 << numbers.len()).map(|set| chosen(set).collect()).collect()
}

/// The records 0, 1, .., n - 1, each at its own place.
pub fn in_place(n: usize) -> Vec<u32> {
    (0..n as u32).collect()
}

/// For a product of b: the words around each edge between two series of rolls.
pub fn words_around_every_edge(b: u128) -> impl Iterator<Item = u64> {
    let edges = (0..b).map(move |a| (a << 64).div_ceil(b) as u64);
    edges.flat_map(|edge| [edge.wrapping_sub(1), edge, edge.wrapping_add(1)])
}

/// A list in a message: long ones by their first places.
pub fn brief<T: Debug>(list: &[T]) -> String {
    const SHOWN: usize = 60;
    match list.len() {
        0..=SHOWN => format!("{list:?}"),
        longer => format!("{:?} and {} more", &list[..SHOWN], longer - SHOWN),
    }
}

// ---- Random inputs ----

/// A small generator (splitmix64): the same seed gives the same cases everywhere.
pub struct Generator(u64);

impl Generator {
    pub fn new(seed: u64) -> Generator {
        Generator(seed)
    }

    /// Any word.
    pub fn word(&mut self) -> u64 {
        self.0 = self.0.wrapping_add(0x9e37_79b9_7f4a_7c15);
        let z = (self.0 ^ (self.0 >> 30)).wrapping_mul(0xbf58_476d_1ce4_e5b9);
        let z = (z ^ (z >> 27)).wrapping_mul(0x94d0_49bb_1331_11eb);
        z ^ (z >> 31)
    }

    /// A number below `end`.
    pub fn below(&mut self, end: usize) -> usize {
        (self.word() % end as u64) as usize
    }

    /// A number from `low` to `high`.
    pub fn between(&mut self, low: usize, high: usize) -> usize {
        low + self.below(high - low + 1)
    }

    /// True once in `n` times.
    pub fn once_in(&mut self, n: usize) -> bool {
        self.below(n) == 0
    }

    /// One of several.
    pub fn one_of<T: Copy>(&mut self, several: &[T]) -> T {
        several[self.below(several.len())]
    }

    /// A bound of 1 to 64 bits.
    pub fn bound(&mut self) -> u64 {
        (self.word() >> self.below(64)).max(1)
    }

    /// Any records, some of them equal.
    pub fn records(&mut self, count: usize) -> Vec<u32> {
        (0..count).map(|_| (self.word() >> self.below(64)) as u32).collect()
    }

    /// An order of 0, 1, .., n - 1.
    pub fn order(&mut self, n: usize) -> Vec<u32> {
        let mut order = in_place(n);
        for m in (2..=n).rev() {
            order.swap(m - 1, self.below(m));
        }
        order
    }

    /// A start place for a list of `length` words: most within it, some at its end, some above.
    pub fn start(&mut self, length: usize) -> usize {
        match self.below(16) {
            0 => length + 1,
            1 => usize::MAX - self.below(2),
            2 => length,
            3..=6 => self.below(length + 1),
            _ => 0,
        }
    }

    /// Bounds whose product is close to `limit`, below it, at it or above it.
    pub fn bounds_close_to(&mut self, limit: u128) -> Vec<u64> {
        let mut bounds = Vec::new();
        let mut rest = limit;
        for _ in 0..self.below(16) {
            let bound = self.one_of(&[1, 2, 3, 4, 5, 16, 257, 641, 65_537, 1 << 20, 1 << 32]);
            if rest / u128::from(bound) == 0 {
                break;
            }
            bounds.push(bound);
            rest /= u128::from(bound);
        }
        let last = rest + self.one_of(&[0, 0, 1, 2]) - self.one_of(&[0, 0, 1]);
        let place = self.below(bounds.len() + 1);
        bounds.insert(place, last.clamp(1, u64::MAX.into()) as u64);
        bounds
    }

    /// Two bounds whose product is far above 2^64 and has the low half `low`: some odd number, and its inverse with wrap
    /// at 64 bits times `low`. Each of Newton's five steps doubles the low bits of the inverse that are right, 3 at first.
    pub fn bounds_with_low_half(&mut self, low: u64) -> [u64; 2] {
        let odd = self.word() | 1;
        let inverse = (0..5).fold(odd, |x: u64, _| x.wrapping_mul(2_u64.wrapping_sub(odd.wrapping_mul(x))));
        let bounds = [odd, inverse.wrapping_mul(low)];
        let product = u128::from(bounds[0]) * u128::from(bounds[1]);
        assert!(product >> 80 > 0 && product as u64 == low, "bounds {bounds:?}");
        bounds
    }

    /// Bounds that are powers of two, with product 2^`bits`, or less where one of them would pass 2^63.
    pub fn powers_of_two(&mut self, bits: u32) -> Vec<u64> {
        let mut bounds = vec![1_u64; self.between(2, 16)];
        for _ in 0..bits {
            let place = self.below(bounds.len());
            bounds[place] = bounds[place].saturating_mul(2).min(1 << 63);
        }
        bounds
    }

    /// Bounds for one batch: most are allowed, many have a product close to a limit, some are to be refused.
    pub fn bounds(&mut self) -> Vec<u64> {
        match self.below(8) {
            0 => (0..self.between(1, 16)).map(|_| self.between(1, 10) as u64).collect(),
            1 => {
                let bits = self.one_of(&[55, 56, 57, 63, 64, 64, 65]);
                self.powers_of_two(bits)
            }
            2 => self.bounds_close_to(1 << 56),
            3 => {
                let often_rejecting = (1 << 63) + u128::from(self.word() >> 2);
                self.bounds_close_to(often_rejecting)
            }
            4 => self.bounds_close_to(1 << 63),
            5 => self.bounds_close_to(1 << 64),
            6 => (0..self.below(4)).map(|_| self.bound()).collect(),
            _ => (0..self.below(19)).map(|_| self.below(6) as u64).collect(),
        }
    }

    /// A word for a batch with product b: any, a small one, or one at the edge of acceptance. At the edge between two
    /// series of rolls stands the word 2^64 a / b, rounded up, and it or the one after it is the first accepted.
    pub fn word_for(&mut self, b: u128) -> u64 {
        let b = b.clamp(1, 1 << 64);
        match self.below(8) {
            0 => self.word(),
            1 => self.below(3) as u64,
            2 => u64::MAX - self.below(3) as u64,
            _ => {
                let a = u128::from(self.word()) % b;
                let edge = (a << 64).div_ceil(b) as u64;
                edge.wrapping_add(self.one_of(&[0, 0, 0, 1, u64::MAX]))
            }
        }
    }

    /// Words for a plan, none of whose bounds is 0: for each batch words at its edges up to the first accepted one.
    pub fn words_for_plan(&mut self, plan: &Plan) -> Vec<u64> {
        let mut words = Vec::new();
        for bounds in plan {
            loop {
                let word = self.word_for(word::product(bounds));
                words.push(word);
                if word::accepted(word::L, bounds, word) {
                    break;
                }
            }
        }
        words
    }
}

// ---- Lent lists ----

/// A number that stands at a place of a list to lend before it is lent.
pub trait Mark: Copy {
    fn mark(place: usize) -> Self;
}

impl Mark for u64 {
    fn mark(place: usize) -> u64 {
        0xa5a5_0000 + place as u64
    }
}

impl Mark for u32 {
    fn mark(place: usize) -> u32 {
        0xa5a5_0000 + place as u32
    }
}

impl Mark for u8 {
    /// No byte is 0, and any 255 on end are different.
    fn mark(place: usize) -> u8 {
        1 + (place % 255) as u8
    }
}

/// A list to lend, with its marks, between two guards that belong to nobody.
#[derive(Clone, PartialEq, Eq)]
pub struct Lent<T> {
    all: Vec<T>,
}

impl<T: Debug> Debug for Lent<T> {
    fn fmt(&self, f: &mut fmt::Formatter<'_>) -> fmt::Result {
        write!(f, "{}", brief(&self.all))
    }
}

const GUARD: usize = 20;

impl<T: Mark> Lent<T> {
    pub fn with_room(room: usize) -> Lent<T> {
        Lent { all: (0..room + 2 * GUARD).map(T::mark).collect() }
    }
}

impl<T> Lent<T> {
    pub fn lend(&mut self) -> &mut [T] {
        let end = self.all.len() - GUARD;
        &mut self.all[GUARD..end]
    }
}

impl<T: Mark> Lent<T> {
    /// The list that has these values in front and is else as it was.
    pub fn holding(room: usize, values: &[T]) -> Lent<T> {
        let mut lent = Lent::with_room(room);
        lent.lend()[..values.len()].copy_from_slice(values);
        lent
    }
}

// ---- The library beside the oracle ----

/// Rolls one batch by the library, and by the oracle with the same answer.
pub fn roll_batch(words: &[u64], start: usize, bounds: &[u64]) -> Batch {
    let answer = raw::roll_batch(words, start, bounds);
    let wanted = oracle::roll_batch(words, start, bounds);
    assert_eq!(answer, wanted, "words {}, start {start}, bounds {bounds:?}", brief(words));
    answer
}

/// Calls the library with one list lent, and the oracle with another like it: answer and list are the same.
fn lend_to_both<T: Copy + Debug + PartialEq, A: Debug + PartialEq>(
    lent: Lent<T>,
    library: impl Fn(&mut [T]) -> A,
    oracle: impl Fn(&mut [T]) -> A,
    case: impl Fn() -> String,
) -> (A, Lent<T>) {
    let (mut by_library, mut by_oracle) = (lent.clone(), lent);
    let answer = library(by_library.lend());
    assert_eq!(answer, oracle(by_oracle.lend()), "{}", case());
    assert_eq!(by_library, by_oracle, "{}", case());
    (answer, by_library)
}

/// Rolls a list of bounds by the library and by the oracle.
pub fn roll_list(words: &[u64], start: usize, bounds: &[u64], room: usize) -> (Answer, Lent<u64>) {
    lend_to_both(
        Lent::with_room(room),
        |lent| raw::roll_list(words, start, bounds, lent),
        |lent| oracle::roll_list(words, start, bounds, lent),
        || format!("words {}, start {start}, bounds {}, room {room}", brief(words), brief(bounds)),
    )
}

/// Shuffles records by the library and by the oracle.
pub fn shuffle(words: &[u64], start: usize, records: &[u32]) -> (Answer, Lent<u32>) {
    lend_to_both(
        Lent::holding(records.len(), records),
        |lent| raw::shuffle(words, start, lent),
        |lent| oracle::shuffle(words, start, lent),
        || format!("words {}, start {start}, {} records {}", brief(words), records.len(), brief(records)),
    )
}

/// Samples k records by the library and by the oracle.
pub fn sample(words: &[u64], start: usize, records: &[u32], k: usize, room: usize) -> (Answer, Lent<u32>) {
    lend_to_both(
        Lent::with_room(room),
        |lent| raw::sample(words, start, records, k, lent),
        |lent| oracle::sample(words, start, records, k, lent),
        || format!("words {}, start {start}, {k} of {} records, room {room}", brief(words), records.len()),
    )
}

/// Names the rolls behind an order by the library and by the oracle.
pub fn rolls_behind(order: &[u32], room: usize) -> (Answer, Lent<u64>) {
    lend_to_both(
        Lent::with_room(room),
        |lent| raw::rolls_behind(order, lent),
        |lent| oracle::rolls_behind(order, lent),
        || format!("order {}, room {room}", brief(order)),
    )
}

/// Names the words behind rolls by the library, and by the oracle with the same answer.
pub fn words_behind(bounds: &[u64], rolls: &[u64]) -> Behind {
    let answer = raw::words_behind(bounds, rolls);
    assert_eq!(answer, oracle::words_behind(bounds, rolls), "bounds {bounds:?}, rolls {rolls:?}");
    answer
}

/// Runs a sheet by the library and by the oracle.
pub fn run_sheet(sheet: &[u8], room: usize) -> (Drawn, Lent<u32>) {
    lend_to_both(
        Lent::with_room(room),
        |lent| raw::run_sheet(sheet, lent),
        |lent| oracle::run_sheet(sheet, lent),
        || format!("{} bytes {}, room {room}", sheet.len(), brief(sheet)),
    )
}

/// Writes a sheet by the library and by the oracle.
pub fn write_sheet(words: &[u64], records: &[u32], k: usize, w: usize, room: usize) -> (Written, Lent<u8>) {
    lend_to_both(
        Lent::with_room(room),
        |lent| raw::write_sheet(words, records, k, w, lent),
        |lent| oracle::write_sheet(words, records, k, w, lent),
        || format!("words {}, records {}, k {k}, w {w}, room {room}", brief(words), brief(records)),
    )
}

/// Reads a sheet by the library, and by the oracle with the same answer, words and records.
pub fn read_sheet(sheet: &[u8], [word_room, record_room]: [usize; 2]) -> (Drawn, Lent<u64>, Lent<u32>) {
    let read_by = |reader: fn(&[u8], &mut [u64], &mut [u32]) -> Drawn| {
        let (mut words, mut records) = (Lent::with_room(word_room), Lent::with_room(record_room));
        (reader(sheet, words.lend(), records.lend()), words, records)
    };
    let read = read_by(raw::read_sheet);
    let wanted = read_by(oracle::read_sheet);
    assert_eq!(read, wanted, "{} bytes {}, room {word_room} and {record_room}", sheet.len(), brief(sheet));
    read
}

/// Tells why the record at a place was drawn or not by the library, and by the oracle with the same answer.
pub fn why(sheet: &[u8], place: usize) -> raw::Reason {
    let answer = raw::why(sheet, place);
    assert_eq!(answer, oracle::why(sheet, place), "{} bytes {}, place {place}", sheet.len(), brief(sheet));
    answer
}

// ---- Answers written out ----

/// A batch that gave these rolls.
pub fn rolled(next: usize, rejected: usize, rolls: &[u64]) -> Batch {
    let mut sixteen = [0; 16];
    sixteen[..rolls.len()].copy_from_slice(rolls);
    Batch { no: 0, next, rejected, count: rolls.len(), rolls: sixteen }
}

/// A batch that was refused: its number, the start place as given, zeros elsewhere.
pub fn batch_refused(no: u64, start: usize) -> Batch {
    Batch { no, next: start, rejected: 0, count: 0, rolls: [0; 16] }
}

/// A call with a lent list that was not refused.
pub fn done(next: usize, rejected: usize) -> Answer {
    Answer { no: 0, next, rejected, batch: 0 }
}

/// A call with a lent list that was refused.
pub fn refused(no: u64, start: usize, batch: usize) -> Answer {
    Answer { no, next: start, rejected: 0, batch }
}

/// A run of words.
pub fn behind(first: u64, last: u64) -> Behind {
    Behind { no: 0, next: 0, rejected: 0, first, last }
}

/// A way back that was refused.
pub fn behind_refused(no: u64) -> Behind {
    Behind { no, next: 0, rejected: 0, first: 0, last: 0 }
}

/// A sheet that was read.
pub fn sheet_read(numbers: Numbers) -> Drawn {
    Drawn { no: 0, next: 0, rejected: 0, batch: 0, numbers }
}

/// A sheet that was written.
pub fn sheet_written(length: usize) -> Written {
    Written { no: 0, next: 0, rejected: 0, length }
}

/// A sheet that was not written.
pub fn write_refused(no: u64) -> Written {
    Written { no, next: 0, rejected: 0, length: 0 }
}

/// A sheet that was refused.
pub fn sheet_refused(no: u64, batch: usize) -> Drawn {
    Drawn { no, next: 0, rejected: 0, batch, numbers: Numbers::default() }
}

/// A reason in a draw that used these words; fields that do not apply are 0.
pub fn explained(next: usize, rejected: usize, reason: Reason) -> raw::Reason {
    let (number, [slot, final_slot, by_place, by_step], roll) = match reason {
        Reason::Stayed { slot, final_slot } => (1, [slot, final_slot, 0, 0], 0),
        Reason::RolledIn { slot, final_slot } => (2, [slot, final_slot, 0, 0], 0),
        Reason::Taken { slot, by_place, by_step } => (3, [slot, 0, by_place, by_step], 0),
        Reason::PassedOver { roll } => (4, [0; 4], roll),
    };
    raw::Reason { no: 0, next, rejected, batch: 0, reason: number, slot, final_slot, by_place, by_step, roll }
}

/// A reason that was not given.
pub fn why_refused(no: u64, batch: usize) -> raw::Reason {
    raw::Reason { no, next: 0, rejected: 0, batch, reason: 0, slot: 0, final_slot: 0, by_place: 0, by_step: 0, roll: 0 }
}
