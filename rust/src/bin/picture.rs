//! Draws the 4-bit example of the rules as a picture: the sixteen words, the rolls that bounds 2 and 6 take from each,
//! which words are rejected, and the run of words behind each pair of rolls. Everything in it is asked of the oracle;
//! `make picture` writes it to `docs/four_bits.svg`.

use hildrasp::oracle::word::{accepted, product, rolls, run_of_words, threshold};

const WIDTH: u32 = 4;
const BOUNDS: [u64; 2] = [2, 6];

/// The width of one word's column, and the heights of the rows.
const COLUMN: u64 = 46;
const LEFT: u64 = 96;
const ROW: u64 = 34;

fn main() {
    let words = 1u64 << WIDTH;
    let (width, height) = (LEFT + words * COLUMN + 14, 8 * ROW);
    println!(
        r#"<svg xmlns="http://www.w3.org/2000/svg" viewBox="0 0 {width} {height}" font-family="sans-serif" font-size="14">"#
    );
    println!(r##"<rect width="{width}" height="{height}" fill="#fff"/>"##);
    let (b, t) = (product(&BOUNDS), threshold(WIDTH, &BOUNDS));
    let title = format!("Words of {WIDTH} bits, bounds 2 and 6: b = {b}, t = 2^{WIDTH} mod {b} = {t}");
    text(14, ROW - 10, "start", "#000", &title);
    for (row, name) in ["word", "rolls", "last r", "run"].iter().enumerate() {
        text(14, (row as u64 + 2) * ROW, "start", "#000", name);
    }
    for word in 0..words {
        column(word);
    }
    runs();
    text(
        14,
        7 * ROW + 10,
        "start",
        "#000",
        "Grey: rejected, the last r is below t. Each pair of rolls has one run of words, all of one length.",
    );
    println!("</svg>");
}

/// A word, its rolls and its last r; grey where it is rejected.
fn column(word: u64) {
    let (rolls, last_r) = rolls(WIDTH, &BOUNDS, word);
    let colour = if accepted(WIDTH, &BOUNDS, word) { "#000" } else { "#aaa" };
    let x = centre(word);
    text(x, 2 * ROW, "middle", colour, &word.to_string());
    text(x, 3 * ROW, "middle", colour, &format!("{}, {}", rolls[0], rolls[1]));
    text(x, 4 * ROW, "middle", colour, &last_r.to_string());
}

/// A bar from the first to the last word behind each pair of rolls, with the pair below it.
fn runs() {
    for first_roll in 0..BOUNDS[0] {
        for second_roll in 0..BOUNDS[1] {
            let (first, last) = run_of_words(WIDTH, &BOUNDS, &[first_roll, second_roll]);
            let (x, wide) = (centre(first) - COLUMN / 2 + 4, (last - first + 1) * COLUMN - 8);
            println!(r##"<rect x="{x}" y="{}" width="{wide}" height="14" rx="4" fill="#3a6ea5"/>"##, 5 * ROW - 12);
            text(x + wide / 2, 5 * ROW + 20, "middle", "#3a6ea5", &format!("{first_roll}, {second_roll}"));
        }
    }
}

/// The middle of a word's column.
fn centre(word: u64) -> u64 {
    LEFT + word * COLUMN + COLUMN / 2
}

fn text(x: u64, y: u64, anchor: &str, colour: &str, content: &str) {
    println!(r#"<text x="{x}" y="{y}" text-anchor="{anchor}" fill="{colour}">{content}</text>"#);
}
