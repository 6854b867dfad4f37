//! Casts of the sources, which have no value for one that does not fit. Outside the proof, as all of host/second.

/// `x as T` of integers.
#[track_caller]
pub fn to<T, F: TryInto<T>>(x: F) -> T {
    match x.try_into() {
        Ok(y) => y,
        Err(_) => panic!("a cast that does not fit"),
    }
}

/// `x as f32`, which must lose nothing.
#[track_caller]
pub fn to_f32(x: u32) -> f32 {
    assert!(x <= 1 << 24, "a cast that does not fit");
    x as f32
}
