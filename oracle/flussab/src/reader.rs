use std::{
    borrow::Cow,
    cell::Cell,
    io::{self, BufReader, Read},
};

thread_local! {
    static MARK: Cell<usize> = const { Cell::new(0) };
}

/// The place that [`DeferredReader::set_mark`] marked last in this thread.
///
/// flussab-cnf marks the place before each number it tries, so while it makes a literal of a number
/// this is the literal's place. The harness asks for it there.
#[inline]
pub fn last_mark() -> usize {
    MARK.get()
}

/// A text and the place up to which it is consumed.
pub struct DeferredReader<'a> {
    text: Cow<'a, [u8]>,
    place: usize,
    mark: usize,
    io_error: Option<io::Error>,
}

impl<'a> DeferredReader<'a> {
    /// Reads the lent bytes.
    #[inline]
    pub fn from_slice(text: &'a [u8]) -> Self {
        Self::over(Cow::Borrowed(text), None)
    }

    /// Reads all that the buffered reader gives.
    pub fn from_buf_reader(reader: BufReader<impl Read + 'a>) -> Self {
        Self::from_read(reader)
    }

    /// Reads all that the reader gives. It is taken in at once; no promise of flussab about when it
    /// asks for more is kept.
    pub fn from_read(mut reader: impl Read + 'a) -> Self {
        let mut text = vec![];
        let io_error = reader.read_to_end(&mut text).err();
        Self::over(Cow::Owned(text), io_error)
    }

    /// Reads all that the boxed reader gives.
    pub fn from_boxed_dyn_read(reader: Box<dyn Read + 'a>) -> Self {
        Self::from_read(reader)
    }

    fn over(text: Cow<'a, [u8]>, io_error: Option<io::Error>) -> Self {
        Self {
            text,
            place: 0,
            mark: 0,
            io_error,
        }
    }

    /// The bytes not yet consumed.
    #[inline]
    pub fn buf(&self) -> &[u8] {
        &self.text[self.place..]
    }

    /// The byte in front of the place, if the text does not end there.
    #[inline]
    pub fn request_byte(&mut self) -> Option<u8> {
        self.request_byte_at_offset(0)
    }

    /// The byte so far beyond the place, if the text reaches there.
    #[inline]
    pub fn request_byte_at_offset(&mut self, offset: usize) -> Option<u8> {
        self.buf().get(offset).copied()
    }

    /// Consumes so many bytes.
    #[inline]
    pub fn advance(&mut self, count: usize) {
        assert!(
            count <= self.buf().len(),
            "advanced past the end of the text"
        );
        self.place += count;
    }

    /// Remembers the place for [`Self::mark`].
    #[inline]
    pub fn set_mark(&mut self) {
        self.mark = self.place;
        MARK.set(self.place);
    }

    /// The place remembered last.
    #[inline]
    pub fn mark(&self) -> usize {
        self.mark
    }

    /// How many bytes are consumed.
    #[inline]
    pub fn position(&self) -> usize {
        self.place
    }

    /// Whether all bytes are consumed.
    #[inline]
    pub fn is_at_end(&mut self) -> bool {
        self.buf().is_empty()
    }

    /// The error that cut the text off, once the place has come to it.
    #[inline]
    pub fn io_error(&self) -> Option<&io::Error> {
        self.io_error.as_ref().filter(|_| self.buf().is_empty())
    }

    pub(crate) fn take_io_error(&mut self) -> Option<io::Error> {
        self.io_error()
            .is_some()
            .then(|| self.io_error.take())
            .flatten()
    }
}
