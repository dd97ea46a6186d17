//! The functions of `include/pagyolint.h`, behind safe signatures. All unsafe code of the crate stands here.
//!
//! No function can check the header's rules. They hold by the rules of Rust's own references:
//!
//! - A slice's pointer is not null, that of an empty slice included, and is good for the slice's count.
//! - All bytes of a slice are initialised.
//! - What is lent by `&mut` shares no byte with what is lent beside it, and nothing else reads or writes it meanwhile. What is
//!   lent by `&` is not written meanwhile.
#![allow(unsafe_code)]

/// What a line answers: the refusal or 0, the readings begun, and how many bytes it wrote at the front of the store.
#[repr(C)]
#[derive(Debug, PartialEq, Eq)]
pub(crate) struct LineReply {
    pub(crate) refusal: u64,
    pub(crate) readings: u64,
    pub(crate) count: u64,
}

/// What reading the remembered line back answers: the refusal or 0, and how many bytes the line has.
#[repr(C)]
#[derive(Debug, PartialEq, Eq)]
pub(crate) struct CountReply {
    pub(crate) refusal: u64,
    pub(crate) count: u64,
}

mod c {
    use super::{CountReply, LineReply};

    extern "C" {
        pub(super) fn pagyolint_fresh(session: *mut u8, session_len: usize) -> u64;

        pub(super) fn pagyolint_line(
            session: *mut u8,
            session_len: usize,
            line: *const u8,
            line_len: usize,
            store: *mut u8,
            store_len: usize,
        ) -> LineReply;

        pub(super) fn pagyolint_alias(
            session: *mut u8,
            session_len: usize,
            word: *const u8,
            word_len: usize,
            command: u64,
        ) -> u64;

        pub(super) fn pagyolint_remembered(
            session: *const u8,
            session_len: usize,
            store: *mut u8,
            store_len: usize,
        ) -> CountReply;
    }
}

/// Writes a fresh session; answers the refusal or 0.
pub(crate) fn fresh(session: &mut [u8]) -> u64 {
    // SAFETY: pointer and count are those of one slice, lent by `&mut` for the call, as the rules above ask.
    unsafe { c::pagyolint_fresh(session.as_mut_ptr(), session.len()) }
}

/// Runs a line.
pub(crate) fn line(session: &mut [u8], line: &[u8], store: &mut [u8]) -> LineReply {
    // SAFETY: each pointer goes with the count of its own slice. Session and store are lent by `&mut` for the call, so that the
    // three slices share no byte.
    unsafe {
        c::pagyolint_line(
            session.as_mut_ptr(),
            session.len(),
            line.as_ptr(),
            line.len(),
            store.as_mut_ptr(),
            store.len(),
        )
    }
}

/// Adds an alias for a command, or replaces the one with this word; answers the refusal or 0.
pub(crate) fn alias(session: &mut [u8], word: &[u8], command: u64) -> u64 {
    // SAFETY: each pointer goes with the count of its own slice. The session is lent by `&mut` for the call, so that it shares no
    // byte with the word. The command may be any number.
    unsafe {
        c::pagyolint_alias(
            session.as_mut_ptr(),
            session.len(),
            word.as_ptr(),
            word.len(),
            command,
        )
    }
}

/// Copies the remembered line to the front of the store.
pub(crate) fn remembered(session: &[u8], store: &mut [u8]) -> CountReply {
    // SAFETY: each pointer goes with the count of its own slice. The store is lent by `&mut` for the call, so that it shares no
    // byte with the session, which is only read.
    unsafe {
        c::pagyolint_remembered(
            session.as_ptr(),
            session.len(),
            store.as_mut_ptr(),
            store.len(),
        )
    }
}

/// Stores and sessions of other sizes, which the types above this module never lend.
#[cfg(test)]
mod tests {
    use super::*;
    use crate::session::{ADDED, LINE, LINE_BYTES, SESSION_BYTES, STORE_BYTES};
    use crate::Refusal;

    const FILL: u8 = 0xa5;

    fn started() -> [u8; SESSION_BYTES] {
        let mut session = [FILL; SESSION_BYTES];
        assert_eq!(fresh(&mut session), 0);
        session
    }

    #[test]
    fn fresh_writes_three_bytes() {
        let mut fresh = [FILL; SESSION_BYTES];
        fresh[0] = 0;
        fresh[1] = 0;
        fresh[ADDED] = 0;
        assert_eq!(started(), fresh);
    }

    #[test]
    fn a_store_of_the_line_and_40_is_enough() {
        for text in [&b""[..], b"q", b"q  ", &[b'q'; LINE_BYTES]] {
            for size in (0..42).chain(text.len() + 38..text.len() + 42) {
                let mut session = started();
                let before = session;
                let mut store = vec![FILL; size];
                let reply = line(&mut session, text, &mut store);
                let written = reply.count as usize;

                if size < text.len() + 40 {
                    let short = Refusal::StoreTooShort.number();
                    assert_eq!((reply.refusal, reply.readings, written), (short, 0, 0));
                    assert_eq!(session, before);
                } else {
                    assert_ne!(reply.refusal, Refusal::StoreTooShort.number());
                    assert_eq!(reply.readings, 1);
                    assert!(written > 0);
                    assert_eq!(session[LINE..LINE + text.len()], *text);
                }

                assert!(store[written..].iter().all(|byte| *byte == FILL));
            }
        }
    }

    #[test]
    fn a_store_as_long_as_the_remembered_line_is_enough() {
        let mut session = started();
        assert_eq!(line(&mut session, b"q a", &mut [0; STORE_BYTES]).refusal, 0);

        for size in 0..3 {
            let mut store = vec![FILL; size];
            let reply = remembered(&session, &mut store);
            assert_eq!(reply.refusal, Refusal::StoreTooShort.number());
            assert_eq!(reply.count, 0);
            assert_eq!(store, vec![FILL; size]);
        }

        for size in 3..6 {
            let mut store = vec![FILL; size];
            let reply = remembered(&session, &mut store);
            assert_eq!((reply.refusal, reply.count), (0, 3));
            assert_eq!(store[..3], *b"q a");
            assert!(store[3..].iter().all(|byte| *byte == FILL));
        }
    }

    #[test]
    fn a_session_of_another_length_is_refused() {
        let none = Refusal::NotASession.number();

        for length in [0, 1, SESSION_BYTES - 1, SESSION_BYTES + 1] {
            let mut session = vec![0; length];
            let mut store = [FILL; STORE_BYTES];
            assert_eq!(fresh(&mut session), none);
            assert_eq!(alias(&mut session, b"v", 25), none);
            let reply = line(&mut session, b"q", &mut store);
            assert_eq!((reply.refusal, reply.readings, reply.count), (none, 0, 0));
            let reply = remembered(&session, &mut store);
            assert_eq!((reply.refusal, reply.count), (none, 0));
            assert_eq!(session, vec![0; length]);
            assert_eq!(store, [FILL; STORE_BYTES]);
        }
    }
}
