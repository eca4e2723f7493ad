//! The reasons why a record was drawn or not, and their numbers.

use crate::raw;

/// What happened to a record in a draw: of the four exactly one is true. Slots, places and steps are counted from 0;
/// place i has step i - k. A slot is the reservoir's; the final slot is where the record stands in the draw, after the
/// final shuffle of the slots.
#[derive(Debug, Clone, Copy, PartialEq, Eq, Hash)]
pub enum Reason {
    /// 1: it was among the first k and stayed.
    Stayed {
        /// The slot that it had to the end of the reservoir, which is its own place.
        slot: usize,
        /// The slot where it stands after the final shuffle.
        final_slot: usize,
    },
    /// 2: it was rolled into a slot at its step and stayed.
    RolledIn {
        /// The slot that it had to the end of the reservoir, which is its own roll.
        slot: usize,
        /// The slot where it stands after the final shuffle.
        final_slot: usize,
    },
    /// 3: it held a slot until a later record took that slot.
    Taken {
        /// The slot that it held.
        slot: usize,
        /// The place of the first later record that took the slot.
        by_place: usize,
        /// The step of that record.
        by_step: usize,
    },
    /// 4: its own roll was k or more.
    PassedOver {
        /// The roll.
        roll: u64,
    },
}

impl Reason {
    /// The reason's number.
    pub fn number(self) -> u64 {
        match self {
            Reason::Stayed { .. } => 1,
            Reason::RolledIn { .. } => 2,
            Reason::Taken { .. } => 3,
            Reason::PassedOver { .. } => 4,
        }
    }

    /// The reason in an answer that is no refusal.
    pub(crate) fn given(answer: raw::Reason) -> Reason {
        let raw::Reason { reason, slot, final_slot, by_place, by_step, roll, .. } = answer;
        match reason {
            1 => Reason::Stayed { slot, final_slot },
            2 => Reason::RolledIn { slot, final_slot },
            3 => Reason::Taken { slot, by_place, by_step },
            4 => Reason::PassedOver { roll },
            _ => unreachable!("there are four reasons and the library gave {reason}"),
        }
    }
}
