//! The C face of the proved library, as `include/hildrasp.h` declares it, and one safe function over slices for each
//! of its calls. All of the library's `unsafe` is here.

/// The answer of a call that writes into a lent list.
#[repr(C)]
#[derive(Debug, Clone, Copy, PartialEq, Eq)]
pub struct Answer {
    /// The number of the refusal, 0 where nothing is refused.
    pub no: u64,
    /// The place after the last word used; on a refusal the start place as given.
    pub next: usize,
    /// The count of rejected words.
    pub rejected: usize,
    /// At number 10, the first batch, from 0, that got no word.
    pub batch: usize,
}

/// One batch: its rolls by value with their count; places past the count are 0.
#[repr(C)]
#[derive(Debug, Clone, Copy, PartialEq, Eq)]
pub struct Batch {
    /// The number of the refusal, 0 where nothing is refused.
    pub no: u64,
    /// The place after the last word used; on a refusal the start place as given.
    pub next: usize,
    /// The count of rejected words.
    pub rejected: usize,
    /// The count of rolls.
    pub count: usize,
    /// The rolls, zeros past the count.
    pub rolls: [u64; 16],
}

/// The run of words behind rolls.
#[repr(C)]
#[derive(Debug, Clone, Copy, PartialEq, Eq)]
pub struct Behind {
    /// The number of the refusal, 0 where nothing is refused.
    pub no: u64,
    /// Always 0: no word is used.
    pub next: usize,
    /// Always 0: no word is used.
    pub rejected: usize,
    /// The first word of the run.
    pub first: u64,
    /// The last word of the run.
    pub last: u64,
}

/// The six numbers that a sheet starts with. The header has them flat in `hildrasp_drawn`, which is laid out the same.
#[repr(C)]
#[derive(Debug, Clone, Copy, PartialEq, Eq, Default)]
pub struct Numbers {
    /// The count of words.
    pub words: u32,
    /// The byte offset of words.
    pub words_at: u32,
    /// The count of records.
    pub records: u32,
    /// The byte offset of records.
    pub records_at: u32,
    /// The sample size.
    pub k: u32,
    /// The count of early reviews: the first w slots are early, the others late.
    pub w: u32,
}

/// A draw from a sheet, or the reading of one, with the six numbers that the sheet starts with.
#[repr(C)]
#[derive(Debug, Clone, Copy, PartialEq, Eq)]
pub struct Drawn {
    /// The number of the refusal, 0 where nothing is refused.
    pub no: u64,
    /// The place after the last word used, 0 where the sheet is read.
    pub next: usize,
    /// The count of rejected words, 0 where the sheet is read.
    pub rejected: usize,
    /// At number 10, the first batch, from 0, that got no word.
    pub batch: usize,
    /// The six numbers, zeros on a refusal.
    pub numbers: Numbers,
}

/// A sheet that was written.
#[repr(C)]
#[derive(Debug, Clone, Copy, PartialEq, Eq)]
pub struct Written {
    /// The number of the refusal, 0 where nothing is refused.
    pub no: u64,
    /// Always 0: no word is used.
    pub next: usize,
    /// Always 0: no word is used.
    pub rejected: usize,
    /// The sheet's length in bytes, 0 on a refusal.
    pub length: usize,
}

/// Why a record was drawn or not: the one reason that is true in the draw. Fields that do not apply are 0.
#[repr(C)]
#[derive(Debug, Clone, Copy, PartialEq, Eq, Default)]
pub struct Reason {
    /// The number of the refusal, 0 where nothing is refused.
    pub no: u64,
    /// The place after the last word that the draw used, 0 on a refusal.
    pub next: usize,
    /// The count of words that the draw rejected.
    pub rejected: usize,
    /// At number 10, the first batch, from 0, that got no word.
    pub batch: usize,
    /// The number of the reason: 1 stayed, 2 rolled in and stayed, 3 taken, 4 passed over; 0 on a refusal.
    pub reason: u64,
    /// At reasons 1, 2 and 3, the slot of the reservoir.
    pub slot: usize,
    /// At reasons 1 and 2, the slot where the final shuffle put the record.
    pub final_slot: usize,
    /// At reason 3, the place of the first later record that took the slot.
    pub by_place: usize,
    /// At reason 3, the step of that record: place i has step i - k.
    pub by_step: usize,
    /// At reason 4, the record's own roll.
    pub roll: u64,
}

extern "C" {
    fn hildrasp_roll_batch(
        words: *const u64,
        word_count: usize,
        start: usize,
        bounds: *const u64,
        bound_count: usize,
    ) -> Batch;

    fn hildrasp_roll_list(
        words: *const u64,
        word_count: usize,
        start: usize,
        bounds: *const u64,
        bound_count: usize,
        rolls: *mut u64,
        room: usize,
    ) -> Answer;

    fn hildrasp_words_behind(bounds: *const u64, bound_count: usize, rolls: *const u64, roll_count: usize) -> Behind;

    fn hildrasp_shuffle(
        words: *const u64,
        word_count: usize,
        start: usize,
        records: *mut u32,
        record_count: usize,
    ) -> Answer;

    fn hildrasp_sample(
        words: *const u64,
        word_count: usize,
        start: usize,
        records: *const u32,
        record_count: usize,
        k: usize,
        slots: *mut u32,
        room: usize,
    ) -> Answer;

    fn hildrasp_rolls_behind(order: *const u32, order_count: usize, rolls: *mut u64, room: usize) -> Answer;

    fn hildrasp_run_sheet(sheet: *const u8, byte_count: usize, slots: *mut u32, room: usize) -> Drawn;

    fn hildrasp_write_sheet(
        words: *const u64,
        word_count: usize,
        records: *const u32,
        record_count: usize,
        k: usize,
        w: usize,
        sheet: *mut u8,
        room: usize,
    ) -> Written;

    fn hildrasp_read_sheet(
        sheet: *const u8,
        byte_count: usize,
        words: *mut u64,
        word_room: usize,
        records: *mut u32,
        record_room: usize,
    ) -> Drawn;

    fn hildrasp_why(sheet: *const u8, byte_count: usize, place: usize) -> Reason;
}

// Safety, for every call below: each pointer and the count beside it are those of one slice, which lives through the
// call; a slice that is written in overlaps no other, since it is borrowed `&mut`.

/// Rolls one batch.
pub fn roll_batch(words: &[u64], start: usize, bounds: &[u64]) -> Batch {
    unsafe { hildrasp_roll_batch(words.as_ptr(), words.len(), start, bounds.as_ptr(), bounds.len()) }
}

/// Rolls a list of bounds into the lent list `rolls`.
pub fn roll_list(words: &[u64], start: usize, bounds: &[u64], rolls: &mut [u64]) -> Answer {
    unsafe {
        hildrasp_roll_list(
            words.as_ptr(),
            words.len(),
            start,
            bounds.as_ptr(),
            bounds.len(),
            rolls.as_mut_ptr(),
            rolls.len(),
        )
    }
}

/// Names the words behind rolls.
pub fn words_behind(bounds: &[u64], rolls: &[u64]) -> Behind {
    unsafe { hildrasp_words_behind(bounds.as_ptr(), bounds.len(), rolls.as_ptr(), rolls.len()) }
}

/// Shuffles records in the lent list itself.
pub fn shuffle(words: &[u64], start: usize, records: &mut [u32]) -> Answer {
    unsafe { hildrasp_shuffle(words.as_ptr(), words.len(), start, records.as_mut_ptr(), records.len()) }
}

/// Samples k records into the lent list `slots`.
pub fn sample(words: &[u64], start: usize, records: &[u32], k: usize, slots: &mut [u32]) -> Answer {
    unsafe {
        hildrasp_sample(
            words.as_ptr(),
            words.len(),
            start,
            records.as_ptr(),
            records.len(),
            k,
            slots.as_mut_ptr(),
            slots.len(),
        )
    }
}

/// Names the rolls behind an order in the lent list `rolls`.
pub fn rolls_behind(order: &[u32], rolls: &mut [u64]) -> Answer {
    unsafe { hildrasp_rolls_behind(order.as_ptr(), order.len(), rolls.as_mut_ptr(), rolls.len()) }
}

/// Runs a draw sheet, with its sample in the lent list `slots`.
pub fn run_sheet(sheet: &[u8], slots: &mut [u32]) -> Drawn {
    unsafe { hildrasp_run_sheet(sheet.as_ptr(), sheet.len(), slots.as_mut_ptr(), slots.len()) }
}

/// Writes a draw sheet into the lent list `sheet`.
pub fn write_sheet(words: &[u64], records: &[u32], k: usize, w: usize, sheet: &mut [u8]) -> Written {
    unsafe {
        hildrasp_write_sheet(
            words.as_ptr(),
            words.len(),
            records.as_ptr(),
            records.len(),
            k,
            w,
            sheet.as_mut_ptr(),
            sheet.len(),
        )
    }
}

/// Reads a draw sheet into the lent lists `words` and `records`.
pub fn read_sheet(sheet: &[u8], words: &mut [u64], records: &mut [u32]) -> Drawn {
    unsafe {
        hildrasp_read_sheet(
            sheet.as_ptr(),
            sheet.len(),
            words.as_mut_ptr(),
            words.len(),
            records.as_mut_ptr(),
            records.len(),
        )
    }
}

/// Tells why the record at a place of a draw sheet was drawn or not.
pub fn why(sheet: &[u8], place: usize) -> Reason {
    unsafe { hildrasp_why(sheet.as_ptr(), sheet.len(), place) }
}
