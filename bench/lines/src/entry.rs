//! The exported entries of include/pagyolint.h.

#[repr(C)]
#[derive(Clone, Copy)]
pub struct LineReply {
    pub refusal: u64,
    pub readings: u64,
    pub count: u64,
}

extern "C" {
    fn pagyolint_fresh(session: *mut u8, session_len: usize) -> u64;
    fn pagyolint_line(
        session: *mut u8,
        session_len: usize,
        line: *const u8,
        line_len: usize,
        store: *mut u8,
        store_len: usize,
    ) -> LineReply;
    fn pagyolint_alias(
        session: *mut u8,
        session_len: usize,
        word: *const u8,
        word_len: usize,
        command: u64,
    ) -> u64;
}

// SESSION and STORE: how long a session is, and a store that is enough for every line.
include!(concat!(env!("OUT_DIR"), "/sizes.rs"));

/// A session's bytes, which only the entries write, and a store.
pub struct Entry {
    session: [u8; SESSION],
    store: [u8; STORE],
}

impl Entry {
    pub fn fresh() -> Entry {
        let mut entry = Entry {
            session: [0; SESSION],
            store: [0; STORE],
        };
        // SAFETY: the slice is the session's own.
        let refusal = unsafe { pagyolint_fresh(entry.session.as_mut_ptr(), entry.session.len()) };
        assert_eq!(refusal, 0);
        entry
    }

    pub fn add_alias(&mut self, word: &str, command: u64) {
        let session = &mut self.session;
        // SAFETY: both slices are good for their lengths and share no byte.
        let refusal = unsafe {
            pagyolint_alias(
                session.as_mut_ptr(),
                session.len(),
                word.as_ptr(),
                word.len(),
                command,
            )
        };
        assert_eq!(refusal, 0);
    }

    pub fn line(&mut self, line: &str) -> LineReply {
        let (session, store) = (&mut self.session, &mut self.store);
        // SAFETY: the three slices are good for their lengths and share no byte.
        unsafe {
            pagyolint_line(
                session.as_mut_ptr(),
                session.len(),
                line.as_ptr(),
                line.len(),
                store.as_mut_ptr(),
                store.len(),
            )
        }
    }
}
