//! The extern "C" entries of `mspdi.h`, each behind a safe function on slices.

/// What a call answers: 0 or a refusal's number, and how many bytes of the buffer it wrote, or how many rows.
pub struct Outcome {
    pub number: u32,
    pub written: u64,
}

mod entries {
    unsafe extern "C" {
        pub fn mspdi_duration(minutes: i64, text: *mut u8, text_len: usize, written: *mut u64) -> u32;
        pub fn mspdi_time(minutes: u32, text: *mut u8, text_len: usize, written: *mut u64) -> u32;
        pub fn mspdi_read(
            tree: *const u8,
            tree_len: usize,
            model: *mut u8,
            model_len: usize,
            work: *mut u32,
            work_len: usize,
            written: *mut u64,
        ) -> u32;
        pub fn mspdi_check(model: *const u8, model_len: usize, work: *mut u32, work_len: usize) -> u32;
        pub fn mspdi_outline(
            model: *const u8,
            model_len: usize,
            rows: *mut u32,
            rows_len: usize,
            work: *mut u32,
            work_len: usize,
            count: *mut u64,
        ) -> u32;
        pub fn mspdi_day_sheet(
            model: *const u8,
            model_len: usize,
            calendar: u32,
            date: i32,
            sheet: *mut u8,
            sheet_len: usize,
            written: *mut u64,
        ) -> u32;
    }
}

pub fn duration(minutes: i64, text: &mut [u8]) -> Outcome {
    let mut written = 0;
    // SAFETY: the pointer and the length are those of a slice that is lent for the call, and `written` is a local. The entry is proved to
    // touch nothing else and to return, for every argument.
    let number = unsafe { entries::mspdi_duration(minutes, text.as_mut_ptr(), text.len(), &mut written) };
    Outcome { number, written }
}

pub fn time(minutes: u32, text: &mut [u8]) -> Outcome {
    let mut written = 0;
    // SAFETY: as above.
    let number = unsafe { entries::mspdi_time(minutes, text.as_mut_ptr(), text.len(), &mut written) };
    Outcome { number, written }
}

pub fn read(tree: &[u8], model: &mut [u8], work: &mut [u32]) -> Outcome {
    let mut written = 0;
    // SAFETY: as above; the pointer of an empty slice is not null.
    let number =
        unsafe { entries::mspdi_read(tree.as_ptr(), tree.len(), model.as_mut_ptr(), model.len(), work.as_mut_ptr(), work.len(), &mut written) };
    Outcome { number, written }
}

/// The number alone: 0 or a refusal's.
pub fn check(model: &[u8], work: &mut [u32]) -> u32 {
    // SAFETY: as above.
    unsafe { entries::mspdi_check(model.as_ptr(), model.len(), work.as_mut_ptr(), work.len()) }
}

/// Two words a row are written.
pub fn outline(model: &[u8], rows: &mut [u32], work: &mut [u32]) -> Outcome {
    let mut written = 0;
    // SAFETY: as above.
    let number =
        unsafe { entries::mspdi_outline(model.as_ptr(), model.len(), rows.as_mut_ptr(), rows.len(), work.as_mut_ptr(), work.len(), &mut written) };
    Outcome { number, written }
}

pub fn day_sheet(model: &[u8], calendar: u32, date: i32, sheet: &mut [u8]) -> Outcome {
    let mut written = 0;
    // SAFETY: as above.
    let number = unsafe { entries::mspdi_day_sheet(model.as_ptr(), model.len(), calendar, date, sheet.as_mut_ptr(), sheet.len(), &mut written) };
    Outcome { number, written }
}
