//! What rolls do to records, why a record was drawn or not, and the rolls behind an order. No record is moved: each is
//! followed.

use crate::raw::Reason;
use std::collections::BTreeSet;

/// The shuffle from the last place on. A roll names the place whose record is taken for the last place of those left.
/// From then on the record of that last place stands where the other was taken: the one place is linked to the other. A
/// place that is linked to itself has the record that it had at first.
pub fn shuffled(records: &[u32], rolls: &[u64]) -> Vec<u32> {
    let mut links: Vec<usize> = (0..records.len()).collect();
    let mut from_the_last = Vec::new();
    // The first place has no roll: it takes the one record left, which stands there.
    for (last, &roll) in (0..records.len()).rev().zip(rolls.iter().chain(&[0])) {
        let taken = roll as usize;
        from_the_last.push(records[end_of_links(&links, taken)]);
        links[taken] = last;
    }
    from_the_last.reverse();
    from_the_last
}

fn end_of_links(links: &[usize], mut place: usize) -> usize {
    while links[place] != place {
        place = links[place];
    }
    place
}

/// The reservoir by each record's slot: of the first k their own place, of the others their roll where it is below k. A
/// record keeps its slot unless a later roll is that slot.
pub fn reservoir(records: &[u32], k: usize, rolls: &[u64]) -> Vec<u32> {
    let mut kept = Vec::new();
    for (place, &record) in records.iter().enumerate() {
        let (slot, later_rolls) = match place.checked_sub(k) {
            None => (place as u64, rolls),
            Some(step) => (rolls[step], &rolls[step + 1..]),
        };
        if slot < k as u64 && !later_rolls.contains(&slot) {
            kept.push((slot, record));
        }
    }
    kept.sort_unstable_by_key(|&(slot, _)| slot);
    kept.into_iter().map(|(_, record)| record).collect()
}

/// Why the record at a place was drawn or not. All that ever held a slot stand in one row, by slot and then by place:
/// the next in the row, if it held the same slot, took it. Who never held a slot is not in the row.
pub fn reason(place: usize, k: usize, rolls: &[u64], of_the_shuffle: &[u64]) -> Reason {
    let slots = (0..k as u64).chain(rolls.iter().copied());
    let mut row: Vec<(u64, usize)> = slots.zip(0..).filter(|&(slot, _)| slot < k as u64).collect();
    row.sort_unstable();
    let Some(at) = row.iter().position(|&(_, holder)| holder == place) else {
        return Reason { reason: 4, roll: rolls[place - k], ..Reason::default() };
    };
    let (slot, _) = row[at];
    let held = Reason { slot: slot as usize, ..Reason::default() };
    match row.get(at + 1) {
        Some(&(same, next)) if same == slot => Reason { reason: 3, by_place: next, by_step: next - k, ..held },
        _ => Reason {
            reason: if place < k { 1 } else { 2 },
            final_slot: final_slot(held.slot, k, of_the_shuffle),
            ..held
        },
    }
}

/// The slot where the final shuffle leaves the record of this one. From the last slot down, each takes for good the
/// record that its roll names, and the record that it had goes where the other was taken.
fn final_slot(slot: usize, k: usize, rolls: &[u64]) -> usize {
    let mut at = slot;
    for (last, &roll) in (0..k).rev().zip(rolls) {
        if at == roll as usize {
            return last;
        }
        if at == last {
            at = roll as usize;
        }
    }
    at
}

/// Whether a list is each of 0..n - 1 once: n different records, all of them below n.
pub fn are_an_order(list: &[u32]) -> bool {
    let different: BTreeSet<u32> = list.iter().copied().collect();
    different.len() == list.len() && different.range(list.len() as u32..).next().is_none()
}

/// The rolls behind an order, from the last place on. The record wanted at a place stood at its own place at first. If
/// that place is filled by now, then at its turn its record went to the place that the roll of that turn named; and so
/// on, down to a place of those left, which is the roll.
pub fn rolls_behind(order: &[u32]) -> Vec<u64> {
    let mut rolls = vec![0; order.len()];
    for last in (1..order.len()).rev() {
        let mut place = order[last] as usize;
        while place > last {
            place = rolls[place];
        }
        rolls[last] = place;
    }
    rolls.into_iter().skip(1).rev().map(|roll| roll as u64).collect()
}
