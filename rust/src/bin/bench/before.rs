//! The library of an earlier commit, as a shared object made of its archive, so that both are timed in one run.

use crate::contestants::Next;
use hildrasp::raw::Answer;
use std::ffi::{c_char, c_int, c_void, CString};
use std::mem::transmute;

type RollList = unsafe extern "C" fn(*const u64, usize, usize, *const u64, usize, *mut u64, usize) -> Answer;
type Shuffle = unsafe extern "C" fn(*const u64, usize, usize, *mut u32, usize) -> Answer;
type Sample = unsafe extern "C" fn(*const u64, usize, usize, *const u32, usize, usize, *mut u32, usize) -> Answer;

extern "C" {
    fn dlopen(path: *const c_char, flags: c_int) -> *mut c_void;
    fn dlsym(object: *mut c_void, name: *const c_char) -> *mut c_void;
}

/// Every name is looked up when the object is loaded, not at its first call.
const NOW: c_int = 2;

/// The operations of an earlier library that are timed, with the parameters that they have in this one.
pub struct Before {
    roll_list: RollList,
    shuffle: Shuffle,
    sample: Sample,
}

impl Before {
    /// The library in a shared object, which stays loaded.
    pub fn load(path: &str) -> Self {
        let file = CString::new(path).expect("a path has no zero byte");
        // Safety: the object is made of an archive of this library, whose C face has these names with these types.
        unsafe {
            let object = dlopen(file.as_ptr(), NOW);
            assert!(!object.is_null(), "{path} is no shared object");
            let function = |name: &str| {
                let symbol = CString::new(name).expect("a name has no zero byte");
                let function = dlsym(object, symbol.as_ptr());
                assert!(!function.is_null(), "{path} has no {name}");
                function
            };
            Before {
                roll_list: transmute::<*mut c_void, RollList>(function("hildrasp_roll_list")),
                shuffle: transmute::<*mut c_void, Shuffle>(function("hildrasp_shuffle")),
                sample: transmute::<*mut c_void, Sample>(function("hildrasp_sample")),
            }
        }
    }

    // Safety, for every call below: each pointer and the count beside it are those of one slice, which lives through
    // the call.

    pub fn roll_list(&self, words: &[u64], bounds: &[u64], rolls: &mut [u64]) -> Next {
        let (room, rolls) = (rolls.len(), rolls.as_mut_ptr());
        next(unsafe { (self.roll_list)(words.as_ptr(), words.len(), 0, bounds.as_ptr(), bounds.len(), rolls, room) })
    }

    pub fn shuffle(&self, words: &[u64], records: &mut [u32]) -> Next {
        next(unsafe { (self.shuffle)(words.as_ptr(), words.len(), 0, records.as_mut_ptr(), records.len()) })
    }

    pub fn sample(&self, words: &[u64], records: &[u32], k: usize, slots: &mut [u32]) -> Next {
        let (room, slots) = (slots.len(), slots.as_mut_ptr());
        next(unsafe { (self.sample)(words.as_ptr(), words.len(), 0, records.as_ptr(), records.len(), k, slots, room) })
    }
}

/// The place after the last word used.
fn next(answer: Answer) -> Next {
    (answer.no == 0).then_some(answer.next)
}
