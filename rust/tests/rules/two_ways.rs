//! The oracle's two ways held against each other, without the library: whole answers and whole lent lists, refusals
//! included.

use crate::sheets::{self, laid_out, numbers_beside, written};
use crate::support::{brief, cases, in_place, words_around_every_edge, Generator, Lent};
use hildrasp::oracle::plan::{self, Plan};
use hildrasp::oracle::{self, second, sheet, word};
use hildrasp::raw::{Answer, Batch, Behind, Drawn, Reason, Written};
use hildrasp::Numbers;
use std::collections::BTreeSet;
use std::fmt::Debug;

// ---- One way beside the other ----

/// Rolls one batch both ways.
fn roll_batch(words: &[u64], start: usize, bounds: &[u64]) -> Batch {
    let answer = oracle::roll_batch(words, start, bounds);
    let wanted = second::roll_batch(words, start, bounds);
    assert_eq!(answer, wanted, "words {}, start {start}, bounds {bounds:?}", brief(words));
    answer
}

/// Names the words behind rolls both ways.
fn words_behind(bounds: &[u64], rolls: &[u64]) -> Behind {
    let answer = oracle::words_behind(bounds, rolls);
    assert_eq!(answer, second::words_behind(bounds, rolls), "bounds {bounds:?}, rolls {rolls:?}");
    answer
}

/// Calls each way with a list lent, the one like the other: answer and list are the same.
fn lend_to_both<T: Copy + Debug + PartialEq, A: Debug + PartialEq>(
    lent: Lent<T>,
    first: impl Fn(&mut [T]) -> A,
    second: impl Fn(&mut [T]) -> A,
    case: impl Fn() -> String,
) -> A {
    let (mut by_first, mut by_second) = (lent.clone(), lent);
    let answer = first(by_first.lend());
    assert_eq!(answer, second(by_second.lend()), "{}", case());
    assert_eq!(by_first, by_second, "{}", case());
    answer
}

/// Rolls a list of bounds both ways.
fn roll_list(words: &[u64], start: usize, bounds: &[u64], room: usize) -> Answer {
    lend_to_both(
        Lent::with_room(room),
        |lent| oracle::roll_list(words, start, bounds, lent),
        |lent| second::roll_list(words, start, bounds, lent),
        || format!("words {}, start {start}, bounds {}, room {room}", brief(words), brief(bounds)),
    )
}

/// Shuffles records both ways.
fn shuffle(words: &[u64], start: usize, records: &[u32]) -> Answer {
    lend_to_both(
        Lent::holding(records.len(), records),
        |lent| oracle::shuffle(words, start, lent),
        |lent| second::shuffle(words, start, lent),
        || format!("words {}, start {start}, {} records {}", brief(words), records.len(), brief(records)),
    )
}

/// Samples k records both ways.
fn sample(words: &[u64], start: usize, records: &[u32], k: usize, room: usize) -> Answer {
    lend_to_both(
        Lent::with_room(room),
        |lent| oracle::sample(words, start, records, k, lent),
        |lent| second::sample(words, start, records, k, lent),
        || format!("words {}, start {start}, {k} of {} records, room {room}", brief(words), records.len()),
    )
}

/// Names the rolls behind an order both ways.
fn rolls_behind(order: &[u32], room: usize) -> Answer {
    lend_to_both(
        Lent::with_room(room),
        |lent| oracle::rolls_behind(order, lent),
        |lent| second::rolls_behind(order, lent),
        || format!("order {}, room {room}", brief(order)),
    )
}

/// Runs a sheet both ways.
fn run_sheet(sheet: &[u8], room: usize) -> Drawn {
    lend_to_both(
        Lent::with_room(room),
        |lent| oracle::run_sheet(sheet, lent),
        |lent| second::run_sheet(sheet, lent),
        || format!("{} bytes {}, room {room}", sheet.len(), brief(sheet)),
    )
}

/// Reads a sheet both ways.
fn read_sheet(sheet: &[u8], [word_room, record_room]: [usize; 2]) -> Drawn {
    let read_by = |reader: fn(&[u8], &mut [u64], &mut [u32]) -> Drawn| {
        let (mut words, mut records) = (Lent::with_room(word_room), Lent::with_room(record_room));
        (reader(sheet, words.lend(), records.lend()), words, records)
    };
    let read = read_by(oracle::read_sheet);
    let wanted = read_by(second::read_sheet);
    assert_eq!(read, wanted, "{} bytes {}, room {word_room} and {record_room}", sheet.len(), brief(sheet));
    read.0
}

/// Writes a sheet both ways.
fn write_sheet(words: &[u64], records: &[u32], k: usize, w: usize, room: usize) -> Written {
    lend_to_both(
        Lent::with_room(room),
        |lent| oracle::write_sheet(words, records, k, w, lent),
        |lent| second::write_sheet(words, records, k, w, lent),
        || format!("words {}, records {}, k {k}, w {w}, room {room}", brief(words), brief(records)),
    )
}

/// Tells why the record at a place was drawn or not both ways.
fn why(sheet: &[u8], place: usize) -> Reason {
    let answer = oracle::why(sheet, place);
    assert_eq!(answer, second::why(sheet, place), "{} bytes {}, place {place}", sheet.len(), brief(sheet));
    answer
}

/// Writes the program's text both ways.
fn prints(input: &[u8]) {
    assert_eq!(sheet::printed(input), second::sheet::printed(input), "{} bytes {}", input.len(), brief(input));
}

// ---- Small cases, all of them ----

/// Every list of these numbers, up to `longest` of them.
fn all_lists<T: Copy>(numbers: &[T], longest: usize) -> Vec<Vec<T>> {
    let mut lists = vec![vec![]];
    let mut from = 0;
    for _ in 0..longest {
        let longer = |list: &Vec<T>, number| [list.as_slice(), &[number]].concat();
        let next: Vec<Vec<T>> =
            lists[from..].iter().flat_map(|list| numbers.iter().map(move |&number| longer(list, number))).collect();
        from = lists.len();
        lists.extend(next);
    }
    lists
}

#[test]
fn at_small_widths_every_word_gives_the_same_rolls_and_every_series_of_rolls_has_the_same_run() {
    for l in 1..=6 {
        let sides: Vec<u64> = (1..=(1 << l) + 2).collect();
        for bounds in all_lists(&sides, 2).iter().chain(&all_lists(&[1, 2, 3, 5], 4)) {
            let allowed = word::product(bounds) <= word::power(l);
            assert_eq!(allowed, second::word::share(l, bounds) > 0, "width {l}, bounds {bounds:?}");
            for word in (0..1 << l).filter(|_| allowed) {
                let (rolls, _) = word::rolls(l, bounds, word);
                assert_eq!(rolls, second::word::rolls_of(l, bounds, word), "width {l}, bounds {bounds:?}, word {word}");
                let accepted = word::accepted(l, bounds, word);
                let wanted = second::word::accepted(l, bounds, word);
                assert_eq!(accepted, wanted, "width {l}, bounds {bounds:?}, word {word}");
                let run = word::run_of_words(l, bounds, &rolls);
                let wanted = second::word::run_behind(l, bounds, &rolls);
                assert_eq!(run, wanted, "width {l}, bounds {bounds:?}, rolls {rolls:?}");
            }
        }
    }
}

/// Bounds and words at the edges of the rules.
const EDGES: [u64; 10] = [0, 1, 2, 3, (1 << 32) - 1, 1 << 32, (1 << 32) + 1, 1 << 63, (1 << 63) + 1, u64::MAX];

#[test]
fn one_batch_is_rolled_the_same_both_ways_with_bounds_and_words_at_the_edges() {
    let ones = (0..20).map(|count| vec![1; count]);
    let with_a_product_of_2_to_the_64 = [vec![1 << 63, 2, 1, 1], vec![16; 16], vec![1 << 32, 1, 1 << 32, 1]];
    for bounds in all_lists(&EDGES, 3).into_iter().chain(ones).chain(with_a_product_of_2_to_the_64) {
        for start in (0..=EDGES.len() + 1).chain([usize::MAX]) {
            roll_batch(&EDGES, start, &bounds);
        }
    }
}

#[test]
fn the_words_behind_rolls_are_the_same_both_ways_with_bounds_at_the_edges() {
    // Each roll is its lowest, its highest or one too high; then one is left out, or one more is there.
    let all_choices = all_lists(&[0, 1, 2], 3);
    for bounds in all_lists(&EDGES, 3) {
        for choices in all_choices.iter().filter(|choices| choices.len() == bounds.len()) {
            let roll = |(&bound, &choice): (&u64, &usize)| [0, bound.saturating_sub(1), bound][choice];
            let rolls: Vec<u64> = bounds.iter().zip(choices).map(roll).collect();
            words_behind(&bounds, &rolls);
            words_behind(&bounds, &rolls[..rolls.len().saturating_sub(1)]);
            words_behind(&bounds, &[rolls.as_slice(), &[0]].concat());
        }
    }
}

#[test]
fn a_list_is_cut_the_same_both_ways_where_products_meet_2_to_the_56_and_where_bounds_meet_16() {
    let mut generator = Generator::new(91);
    let words = [0; 20].map(|_| generator.word());
    let around_2_to_the_56 =
        [0, 1, 2, 257, 1 << 28, (1 << 28) + 1, 280_379_743_338_241, (1 << 56) - 1, 1 << 56, (1 << 56) + 1, u64::MAX];
    for bounds in all_lists(&around_2_to_the_56, 4) {
        roll_list(&words, 0, &bounds, bounds.len());
    }
    for count in 0..50 {
        for side in [1, 2, 3, 10, 11, 12, 13] {
            for last in [1, 2, 1 << 55, 1 << 56, u64::MAX] {
                let bounds = [vec![side; count], vec![last]].concat();
                for start in 10..=20 {
                    roll_list(&words, start, &bounds, count + 1);
                }
            }
        }
    }
}

#[test]
fn every_shuffle_of_up_to_8_records_is_the_same_both_ways() {
    let mut generator = Generator::new(92);
    for n in 0..=8 {
        let records = generator.records(n);
        let b = plan::shuffle(n).first().map_or(1, |bounds| word::product(bounds));
        for word in words_around_every_edge(b) {
            shuffle(&[word, generator.word_for(2), generator.word_for(6)], 0, &records);
        }
    }
}

#[test]
fn every_sample_of_up_to_7_records_is_the_same_both_ways() {
    let mut generator = Generator::new(93);
    for n in 0..=7 {
        let records = generator.records(n);
        for k in 0..=n + 1 {
            let b = word::product(&(k as u64 + 1..=n as u64).collect::<Vec<u64>>());
            let of_the_shuffle = (2..=k as u128).product();
            for word in words_around_every_edge(b) {
                let words = [word, generator.word_for(b), generator.word_for(of_the_shuffle)];
                sample(&words, 0, &records, k, k);
            }
            // The highest word is accepted by the reservoir, where there is one.
            let of_the_reservoir = vec![u64::MAX; plan::reservoir(n, k).len()];
            for word in words_around_every_edge(of_the_shuffle) {
                let words = [&of_the_reservoir[..], &[word, generator.word_for(of_the_shuffle)]].concat();
                sample(&words, 0, &records, k, k);
            }
            sample(&[], 0, &records, k, k.saturating_sub(1));
            sample(&[], 1, &records, k, k);
        }
    }
}

#[test]
fn why_each_of_up_to_6_records_was_drawn_or_not_is_the_same_both_ways() {
    let mut generator = Generator::new(108);
    for (n, k) in (1..=6).flat_map(|n| (1..=n).map(move |k| (n, k))) {
        let b = word::product(&(k as u64 + 1..=n as u64).collect::<Vec<u64>>());
        for word in words_around_every_edge(b) {
            let words = [word, generator.word_for(b), generator.word_for((2..=k as u128).product())];
            let sheet = laid_out(&words, &generator.records(n), k as u32, 1, [0; 3], false);
            for place in 0..=n {
                why(&sheet, place);
            }
        }
    }
}

#[test]
fn the_rolls_behind_every_order_of_up_to_6_records_are_the_same_both_ways() {
    // A list of n numbers from 0 to n is an order, or is not.
    for n in 0..=6 {
        for list in all_lists(&in_place(n + 1), n).iter().filter(|list| list.len() == n) {
            for room in [n.saturating_sub(2), n.saturating_sub(1), n + 1] {
                rolls_behind(list, room);
            }
        }
    }
}

#[test]
fn a_sheet_with_its_areas_at_every_place_is_the_same_both_ways() {
    for length in [23, 24, 25, 36, 40, 44] {
        for (words, records) in (0..=2).flat_map(|words| (0..=3).map(move |records| (words, records))) {
            for (words_at, records_at) in (22..=46).flat_map(|at| (22..=46).map(move |other| (at, other))) {
                let numbers = Numbers { words, words_at, records, records_at, k: records, w: 1 };
                let sheet = written(length, numbers, &[7, 8], &[9, 10, 11]);
                run_sheet(&sheet, 3);
                read_sheet(&sheet, [2, 3]);
                why(&sheet, 1);
            }
        }
    }
}

#[test]
fn a_sheet_with_every_k_and_w_and_its_text_are_the_same_both_ways() {
    for (n, k, w) in (0..=4).flat_map(|n| (0..=6).flat_map(move |k| (0..=7).map(move |w| (n, k, w)))) {
        for words in [&[][..], &[0], &[0, 1], &[0, 1, 1]] {
            let sheet = laid_out(words, &in_place(n), k, w, [0; 3], false);
            prints(&sheet);
            for room in 0..=5 {
                run_sheet(&sheet, room);
                read_sheet(&sheet, [room, n]);
                read_sheet(&sheet, [words.len(), room]);
                why(&sheet, room);
            }
        }
    }
}

#[test]
fn a_sheet_is_written_the_same_both_ways_with_every_k_and_w_and_room() {
    let (words, records) = ([u64::MAX, 1 << 40, 3], [9, u32::MAX, 1 << 20, 0]);
    for (a, n) in (0..=3).flat_map(|a| (0..=4).map(move |n| (a, n))) {
        let (words, records) = (&words[..a], &records[..n]);
        for (k, w) in numbers_beside(n).into_iter().flat_map(|k| numbers_beside(n).into_iter().map(move |w| (k, w))) {
            for room in 0..70 {
                write_sheet(words, records, k, w, room);
            }
        }
    }
}

// ---- Random cases ----

/// Words made for a plan after some others, and the place where they start; then perhaps spoilt.
fn words_and_start(generator: &mut Generator, plan: &Plan) -> (Vec<u64>, usize) {
    let mut words: Vec<u64> = (0..generator.below(4)).map(|_| generator.word()).collect();
    let mut start = words.len();
    words.extend(generator.words_for_plan(plan));
    words.extend((0..generator.below(3)).map(|_| generator.word()));
    if generator.once_in(4) {
        words.truncate(generator.below(words.len() + 1));
    }
    if generator.once_in(8) {
        start = generator.start(words.len());
    }
    (words, start)
}

/// Room for this many, most often.
fn room_for(generator: &mut Generator, count: usize) -> usize {
    match generator.below(16) {
        0 => generator.below(count + 1),
        room => count + room % 3,
    }
}

/// Bounds of a list, none of them 0.
fn bounds_of_a_list(generator: &mut Generator, count: usize) -> Vec<u64> {
    let mut bounds = Vec::new();
    while bounds.len() < count {
        bounds.extend(generator.bounds().iter().map(|&bound| bound.max(1)));
    }
    bounds.truncate(count);
    bounds
}

fn random_list(generator: &mut Generator, count: usize) -> Answer {
    let mut bounds = bounds_of_a_list(generator, count);
    let (words, start) = words_and_start(generator, &plan::cut(&bounds));
    if count > 0 && generator.once_in(16) {
        bounds[generator.below(count)] = 0;
    }
    let room = room_for(generator, count);
    roll_list(&words, start, &bounds, room)
}

fn random_shuffle(generator: &mut Generator, n: usize) -> Answer {
    let records = generator.records(n);
    let (words, start) = words_and_start(generator, &plan::shuffle(n));
    shuffle(&words, start, &records)
}

fn random_sample(generator: &mut Generator, n: usize) -> Answer {
    let records = generator.records(n);
    let most = generator.one_of(&[1, 5, 64, n]).min(n);
    let mut k = generator.below(most + 1);
    let (words, start) = words_and_start(generator, &plan::sample(n, k));
    let room = room_for(generator, k);
    if generator.once_in(16) {
        k = generator.one_of(&[0, n + 1, usize::MAX]);
    }
    sample(&words, start, &records, k, room)
}

/// Runs random cases; they meet these numbers, 0 for success, and no others.
fn random_cases(seed: u64, default: usize, met: &[u64], case: impl Fn(&mut Generator) -> u64) {
    let mut generator = Generator::new(seed);
    let numbers: BTreeSet<u64> = (0..cases(default)).map(|_| case(&mut generator)).collect();
    assert_eq!(numbers, BTreeSet::from_iter(met.iter().copied()));
}

#[test]
fn random_batches_are_the_same_both_ways() {
    random_cases(94, 100_000, &[0, 2, 4, 5, 9, 10], |generator| {
        let bounds = generator.bounds();
        let b = word::product(&bounds);
        let words: Vec<u64> = (0..generator.below(9)).map(|_| generator.word_for(b)).collect();
        let start = generator.start(words.len());
        roll_batch(&words, start, &bounds).no
    });
}

#[test]
fn random_lists_are_the_same_both_ways() {
    random_cases(95, 20_000, &[0, 4, 6, 9, 10], |generator| {
        let count = generator.below(40);
        random_list(generator, count).no
    });
}

#[test]
fn random_words_behind_rolls_are_the_same_both_ways() {
    random_cases(96, 20_000, &[0, 2, 4, 5, 7], |generator| {
        let bounds = generator.bounds();
        let mut rolls: Vec<u64> = bounds.iter().map(|&bound| generator.word() % bound.max(1)).collect();
        match generator.below(16) {
            0 => rolls.push(generator.word()),
            1 => rolls.truncate(generator.below(rolls.len() + 1)),
            2 => rolls = bounds.clone(),
            _ => {}
        }
        words_behind(&bounds, &rolls).no
    });
}

#[test]
fn random_shuffles_are_the_same_both_ways() {
    random_cases(97, 30_000, &[0, 9, 10], |generator| {
        let n = generator.below(60);
        random_shuffle(generator, n).no
    });
}

#[test]
fn random_samples_are_the_same_both_ways() {
    random_cases(98, 30_000, &[0, 3, 6, 9, 10], |generator| {
        let n = generator.below(60);
        random_sample(generator, n).no
    });
}

#[test]
fn random_rolls_behind_orders_are_the_same_both_ways() {
    random_cases(99, 30_000, &[0, 6, 8], |generator| {
        let n = generator.below(60);
        let mut order = generator.order(n);
        if n > 0 && generator.once_in(8) {
            order[generator.below(n)] = generator.below(n + 2) as u32;
        }
        let room = room_for(generator, n.saturating_sub(1));
        rolls_behind(&order, room).no
    });
}

#[test]
fn random_sheets_and_their_text_are_the_same_both_ways() {
    random_cases(100, 5_000, &[0, 1, 3, 6, 10], |generator| {
        let sheet = if generator.once_in(2) { sheets::sound(generator) } else { sheets::damaged(generator) };
        prints(&sheet);
        let room = generator.one_of(&[0, 5, 20, 3000]);
        run_sheet(&sheet, room).no
    });
}

#[test]
fn random_sheets_are_read_the_same_both_ways() {
    random_cases(105, 100_000, &[0, 1, 3, 6], |generator| {
        let sheet = if generator.once_in(2) { sheets::sound(generator) } else { sheets::damaged(generator) };
        let words = generator.one_of(&[0, 5, 40, 1500]);
        let records = generator.one_of(&[0, 20, 100, 3000]);
        read_sheet(&sheet, [words, records]).no
    });
}

#[test]
fn random_sheets_are_written_the_same_both_ways() {
    random_cases(106, 100_000, &[0, 2, 3, 6], |generator| {
        let (words, records, k, w) = sheets::to_write(generator);
        let room = room_for(generator, 24 + 8 * words.len() + 4 * records.len());
        write_sheet(&words, &records, k, w, room).no
    });
}

/// Why a record of a few was drawn or not, on a sheet made to be drawn from and then perhaps spoilt.
fn random_why(generator: &mut Generator) -> Reason {
    let n = generator.between(1, 40);
    let (mut words, records, mut k, mut w) = sheets::n_to_draw_from(generator, n);
    if generator.once_in(8) {
        words.truncate(generator.below(words.len() + 1));
    }
    match generator.below(32) {
        0 => k = generator.one_of(&[0, n + 1]),
        1 => w = k + 1,
        _ => {}
    }
    let mut sheet = laid_out(&words, &records, k as u32, w as u32, [0; 3], generator.once_in(2));
    if generator.once_in(32) {
        sheet.pop();
    }
    let place = if generator.once_in(8) { generator.one_of(&numbers_beside(n)) } else { generator.below(n) };
    why(&sheet, place)
}

#[test]
fn why_a_record_was_drawn_or_not_in_random_draws_is_the_same_both_ways() {
    random_cases(109, 100_000, &[0, 1, 3, 7, 10], |generator| random_why(generator).no);
}

// ---- Long lists and draws ----

#[test]
fn long_lists_are_the_same_both_ways() {
    let mut generator = Generator::new(101);
    for (count, no) in [(2_000, 0), (4_095, 0), (4_096, 0), (4_097, 2)] {
        let bounds = bounds_of_a_list(&mut generator, count);
        let words = generator.words_for_plan(&plan::cut(&bounds));
        assert_eq!(roll_list(&words, 0, &bounds, count).no, no, "{count} bounds");
        for _ in 0..cases(10) {
            random_list(&mut generator, count);
        }
    }
}

#[test]
fn long_shuffles_are_the_same_both_ways() {
    let mut generator = Generator::new(102);
    let around_the_sizes = [512, 513, 514, 2_047, 2_048, 2_049, 2_050, 2_052, 2_053, 16_383, 16_384].map(|n| (n, 0));
    for (n, no) in around_the_sizes.into_iter().chain([(16_385, 2)]) {
        let words = generator.words_for_plan(&plan::shuffle(n));
        assert_eq!(shuffle(&words, 0, &generator.records(n)).no, no, "{n} records");
        for _ in 0..cases(4) {
            random_shuffle(&mut generator, n);
        }
    }
}

#[test]
fn long_samples_are_the_same_both_ways() {
    let mut generator = Generator::new(103);
    let of_16384 = [1, 14, 64, 1_000, 8_192, 16_383, 16_384].map(|k| (16_384, k, 0));
    for (n, k, no) in of_16384.into_iter().chain([(600, 5, 0), (4_200, 3, 0), (16_385, 7, 2), (16_385, 0, 2)]) {
        let words = generator.words_for_plan(&plan::sample(n, k));
        assert_eq!(sample(&words, 0, &generator.records(n), k, k).no, no, "{k} of {n} records");
        for _ in 0..cases(4) {
            random_sample(&mut generator, n);
        }
    }
}

#[test]
fn rolls_behind_long_orders_are_the_same_both_ways() {
    let mut generator = Generator::new(104);
    for (n, no) in [(512, 0), (2_049, 0), (16_383, 0), (16_384, 0), (16_385, 2)] {
        for order in [generator.order(n), in_place(n), in_place(n).into_iter().rev().collect()] {
            assert_eq!(rolls_behind(&order, n - 1).no, no, "{n} records");
        }
    }
}

#[test]
fn the_longest_sheets_are_written_and_read_the_same_both_ways() {
    let mut generator = Generator::new(107);
    let words: Vec<u64> = (0..70_000).map(|_| generator.word()).collect();
    let records = generator.records(70_000);
    for a in [0, 1, 2, 100, 4_094, 8_186, 8_187, 8_188, 8_189, 8_190, 8_192, 65_536] {
        for more in 0..4 {
            let n = 16_377_usize.saturating_sub(2 * a) + more;
            for room in [65_531, 65_532, 65_536, 70_000] {
                write_sheet(&words[..a], &records[..n], 1, 1, room);
            }
            let sheet = laid_out(&words[..a], &records[..n], 1, 1, [0; 3], false);
            read_sheet(&sheet, [a, n]);
        }
        assert_eq!(write_sheet(&words[..a], &records, 1, 1, 70_000).no, 2);
    }
}

#[test]
fn why_a_record_of_the_longest_sheets_was_drawn_or_not_is_the_same_both_ways() {
    let mut generator = Generator::new(110);
    for (n, k) in sheets::LONGEST_DRAWS {
        let words = sheets::words_that_roll(k, &sheets::rolls_for(&mut generator, n, k));
        let sheet = laid_out(&words, &generator.records(n), k as u32, 1, [0; 3], false);
        for place in [k - 1, k.min(n - 1), generator.below(n), n - 1] {
            assert_eq!(why(&sheet, place).no, 0, "{k} of {n} records, place {place}");
        }
        assert_eq!(why(&sheet, n).no, 7);
    }
}
