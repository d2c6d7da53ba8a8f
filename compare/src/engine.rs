//! The proved calls, as C declares them: each slice is a pointer and a length.

unsafe extern "C" {
    fn take_open(
        session: *mut u32,
        words: usize,
        delta: u32,
        epsilon: u32,
        shelves: u32,
        shelf_words: u32,
    ) -> u32;
    fn take_lay(
        session: *mut u32,
        words: usize,
        shelf: u32,
        beats: u32,
        notes: *const u32,
        note_words: usize,
    ) -> u32;
    fn take_split(
        session: *mut u32,
        words: usize,
        take: u32,
        beat: u32,
        left: u32,
        right: u32,
    ) -> u32;
    fn take_join(session: *mut u32, words: usize, first: u32, second: u32, result: u32) -> u32;
    fn take_load(
        session: *mut u32,
        words: usize,
        shelf: u32,
        file: *const u8,
        file_bytes: usize,
    ) -> u32;
    fn take_write(
        session: *const u32,
        words: usize,
        shelf: u32,
        output: *mut u8,
        room: usize,
        count: *mut u64,
    ) -> u32;
}

pub fn open(session: &mut [u32], header: [u32; 4]) -> u32 {
    let [delta, epsilon, shelves, shelf_words] = header;
    // SAFETY: pointer and length are those of a lent slice.
    unsafe { take_open(session.as_mut_ptr(), session.len(), delta, epsilon, shelves, shelf_words) }
}

pub fn lay(session: &mut [u32], shelf: u32, beats: u32, notes: &[u32]) -> u32 {
    // SAFETY: pointers and lengths are those of two lent slices that share no word.
    unsafe {
        take_lay(session.as_mut_ptr(), session.len(), shelf, beats, notes.as_ptr(), notes.len())
    }
}

pub fn split(session: &mut [u32], take: u32, beat: u32, left: u32, right: u32) -> u32 {
    // SAFETY: pointer and length are those of a lent slice.
    unsafe { take_split(session.as_mut_ptr(), session.len(), take, beat, left, right) }
}

pub fn join(session: &mut [u32], first: u32, second: u32, result: u32) -> u32 {
    // SAFETY: pointer and length are those of a lent slice.
    unsafe { take_join(session.as_mut_ptr(), session.len(), first, second, result) }
}

pub fn load(session: &mut [u32], shelf: u32, file: &[u8]) -> u32 {
    // SAFETY: pointers and lengths are those of two lent slices that share nothing.
    unsafe { take_load(session.as_mut_ptr(), session.len(), shelf, file.as_ptr(), file.len()) }
}

pub fn write(session: &[u32], shelf: u32, output: &mut [u8], count: &mut u64) -> u32 {
    // SAFETY: pointers and lengths are those of two lent slices that share nothing, and of a lent number.
    unsafe {
        take_write(session.as_ptr(), session.len(), shelf, output.as_mut_ptr(), output.len(), count)
    }
}
