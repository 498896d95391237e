//! The proved runner, called through its static library.

extern "C" {
    /// Each slice as its pointer and its length.
    fn tautgaff_run_case(
        case: *const u8,
        case_length: usize,
        store: *mut u8,
        store_length: usize,
        out: *mut u8,
        out_length: usize,
    ) -> usize;
}

/// No line of an answer is longer.
const LINE: usize = 1024;

/// The line that answers the case with this text, run on the storage.
pub fn proved_line(case: &[u8], storage: &mut [u8]) -> String {
    let mut line = vec![0; LINE];
    let size = unsafe {
        tautgaff_run_case(case.as_ptr(), case.len(), storage.as_mut_ptr(), storage.len(), line.as_mut_ptr(), line.len())
    };
    line.truncate(size);
    String::from_utf8(line).expect("digits and blanks")
}
