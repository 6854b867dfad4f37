//! Buffers that calls are lent, with bytes on both sides to see that they stay, and calls for a fresh
//! state on such buffers.

const GUARD: usize = 64;

pub fn guarded(bytes: &[u8]) -> Vec<u8> {
    let guard: Vec<u8> = (0..GUARD).map(|i| (i * 29 + 7) as u8).collect();
    [&guard, bytes, &guard].concat()
}

/// The bytes between the guards.
pub fn lent(guarded: &mut [u8]) -> &mut [u8] {
    let end = guarded.len() - GUARD;
    &mut guarded[GUARD..end]
}

/// A room of a pattern that no record and no log has.
pub fn pattern(room: usize) -> Vec<u8> {
    (0..room).map(|i| (i * 37 + 11) as u8).collect()
}

type Fresh = unsafe extern "C" fn(*mut u8, usize) -> u32;

/// The bytes of a fresh state, by the library.
pub fn fresh(call: Fresh, length: usize) -> Vec<u8> {
    let mut state = guarded(&vec![0xA5; length]);
    let lent = lent(&mut state);
    // SAFETY: pointer and length are those of one slice.
    let number = unsafe { call(lent.as_mut_ptr(), lent.len()) };
    assert_eq!(number, 0);
    let bytes = lent.to_vec();
    assert!(state == guarded(&bytes));
    bytes
}

/// The call for a fresh state, with a buffer of another length: refused, nothing written.
pub fn fresh_refused(call: Fresh, length: usize) {
    let mut state = guarded(&pattern(length));
    let lent = lent(&mut state);
    // SAFETY: pointer and length are those of one slice.
    let number = unsafe { call(lent.as_mut_ptr(), lent.len()) };
    assert_eq!(number, 1, "a fresh state of {length} bytes");
    assert!(state == guarded(&pattern(length)));
}
