//! The frames in which programs are given test cases, as `oracle/README.md` has them. Numbers are little-endian.

/// So many bytes from the front, if there are so many.
pub fn front<const N: usize>(rest: &mut &[u8]) -> Option<[u8; N]> {
    let bytes = rest.get(..N)?.try_into().ok()?;
    *rest = &rest[N..];
    Some(bytes)
}
