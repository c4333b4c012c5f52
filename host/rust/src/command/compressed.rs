//! Texts that are compressed, and so cannot be read.

/// What compressed files begin with.
const MARKS: [(&[u8], &str); 4] = [
    (b"\x1f\x8b", "gzip"),
    (b"\xfd7zXZ\0", "xz"),
    (b"BZh", "bzip2"),
    (b"\x28\xb5\x2f\xfd", "zstd"),
];

/// The text, if it is not compressed.
pub fn none(text: Vec<u8>) -> Result<Vec<u8>, String> {
    match MARKS.iter().find(|(mark, _)| text.starts_with(mark)) {
        Some((_, by)) => Err(format!("it is compressed ({by}); unpack it first")),
        None => Ok(text),
    }
}
