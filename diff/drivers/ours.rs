//! The exports of `tinystr_exports`, over slices.

/// A function that hands numbers and whole slices, each with its own length, to an export.
macro_rules! over_slices {
    ($name:ident is $export:ident($($number:ident),*; $($given:ident: $unit:ty),*; $($made:ident: $out:ty),*)) => {
        pub fn $name($($number: usize,)* $($given: &[$unit],)* $($made: &mut [$out]),*) -> bool {
            extern "C" {
                fn $export($($number: usize,)* $($given: *const $unit, _: usize,)* $($made: *mut $out, _: usize),*) -> bool;
            }
            unsafe { $export($($number,)* $($given.as_ptr(), $given.len(),)* $($made.as_mut_ptr(), $made.len()),*) }
        }
    };
}

over_slices!(ask is tinystr_exports_ask(capacity, question, rounds; texts: u8; answers: u8));
over_slices!(change is tinystr_exports_change(capacity, case, rounds; texts: u8; changed: u8));
over_slices!(compare is tinystr_exports_compare(capacity, relation, rounds; left: u8, right: u8; answers: u8));
over_slices!(read8 is tinystr_exports_read8(capacity, reader, rounds; units: u8, starts: u32; texts: u8, faults: u32));
over_slices!(read16 is tinystr_exports_read16(capacity, reader, rounds; units: u16, starts: u32; texts: u8, faults: u32));
over_slices!(read_bytes is tinystr_exports_read_bytes(capacity, rounds; bytes: u8; texts: u8));
over_slices!(decimal is tinystr_exports_decimal(capacity, rounds; numbers: u32; texts: u8, cuts: u8));
over_slices!(resize is tinystr_exports_resize(capacity, to, rounds; texts: u8; resized: u8));
over_slices!(concat is tinystr_exports_concat(capacity, to, rounds; first: u8, second: u8; joined: u8));
over_slices!(print is tinystr_exports_print(capacity, form, rounds; values: u8; printed: u8, ends: u64));
over_slices!(display is tinystr_exports_display(capacity, rounds; texts: u8; printed: u8));
over_slices!(records is tinystr_exports_records(capacity; bytes: u8; found: u32));
over_slices!(search is tinystr_exports_search(capacity, call; bytes: u8, values: u8, keys: u8; answers: u64));
over_slices!(lang_ids is tinystr_exports_lang_ids(rounds; units: u8, starts: u32; texts: u8, faults: u8));
