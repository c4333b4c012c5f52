use Parsed::{Fallthrough, Res};

/// What an attempt to read something answers.
#[must_use]
pub enum Parsed<T, E> {
    /// It stood there and was read, or reading it was refused for good.
    Res(Result<T, E>),
    /// It did not stand there; nothing was consumed, and something else may be tried.
    Fallthrough,
}

impl<T, E> Parsed<T, E> {
    /// Whether it stood there.
    #[inline]
    pub fn matches(self) -> Result<bool, E> {
        Ok(self.optional()?.is_some())
    }

    /// What was read, or `None` where it did not stand there.
    #[inline]
    pub fn optional(self) -> Result<Option<T>, E> {
        match self {
            Res(Ok(value)) => Ok(Some(value)),
            Res(Err(error)) => Err(error),
            Fallthrough => Ok(None),
        }
    }

    /// What was read, or the error made by `error` where it did not stand there.
    #[inline]
    pub fn or_give_up(self, error: impl FnOnce() -> E) -> Result<T, E> {
        match self {
            Res(result) => result,
            Fallthrough => Err(error()),
        }
    }

    /// Tries `other` where this did not stand there.
    #[inline]
    pub fn or_parse(self, other: impl FnOnce() -> Parsed<T, E>) -> Parsed<T, E> {
        match self {
            Fallthrough => other(),
            read => read,
        }
    }

    /// Goes on with `then`, whose answer replaces this one, once this was read.
    #[inline]
    pub fn and_then<U>(self, then: impl FnOnce(T) -> Result<U, E>) -> Parsed<U, E> {
        match self {
            Res(Ok(value)) => Res(then(value)),
            Res(Err(error)) => Res(Err(error)),
            Fallthrough => Fallthrough,
        }
    }

    /// Goes on with `also`, which may refuse but leaves this answer, once this was read.
    #[inline]
    pub fn and_also(self, also: impl FnOnce(&mut T) -> Result<(), E>) -> Parsed<T, E> {
        self.and_then(|mut value| {
            also(&mut value)?;
            Ok(value)
        })
    }

    /// Changes what was read.
    #[inline]
    pub fn map<U>(self, change: impl FnOnce(T) -> U) -> Parsed<U, E> {
        self.and_then(|value| Ok(change(value)))
    }

    /// Changes the error.
    #[inline]
    pub fn map_err<F>(self, change: impl FnOnce(E) -> F) -> Parsed<T, F> {
        match self {
            Res(result) => Res(result.map_err(change)),
            Fallthrough => Fallthrough,
        }
    }
}
