//! Why a call has not done what it was to do.
use std::error::Error;
use std::fmt;

/// Why nothing was popped.
#[derive(Clone, Copy, Debug, Eq, PartialEq)]
pub enum PopError {
    /// The queue is empty and open.
    Empty,
    /// The queue is empty and closed.
    Closed,
}

impl PopError {
    /// Whether the queue was open.
    pub fn is_empty(&self) -> bool {
        *self == PopError::Empty
    }

    /// Whether the queue was closed.
    pub fn is_closed(&self) -> bool {
        *self == PopError::Closed
    }
}

impl fmt::Display for PopError {
    fn fmt(&self, f: &mut fmt::Formatter<'_>) -> fmt::Result {
        fmt::Debug::fmt(self, f)
    }
}

impl Error for PopError {}

/// Why an item was not pushed, and the item.
#[derive(Clone, Copy, Debug, Eq, PartialEq)]
pub enum PushError<T> {
    /// The queue has no room.
    Full(T),
    /// The queue is closed.
    Closed(T),
}

impl<T> PushError<T> {
    /// The item that was not pushed.
    pub fn into_inner(self) -> T {
        match self {
            PushError::Full(item) | PushError::Closed(item) => item,
        }
    }

    /// Whether the queue had no room.
    pub fn is_full(&self) -> bool {
        matches!(self, PushError::Full(_))
    }

    /// Whether the queue was closed.
    pub fn is_closed(&self) -> bool {
        matches!(self, PushError::Closed(_))
    }
}

impl<T> fmt::Display for PushError<T> {
    fn fmt(&self, f: &mut fmt::Formatter<'_>) -> fmt::Result {
        f.write_str(if self.is_full() { "Full" } else { "Closed" })
    }
}

impl<T: fmt::Debug> Error for PushError<T> {}

/// The item of a push by force on a closed queue.
#[derive(Clone, Copy, Debug, Eq, PartialEq)]
pub struct ForcePushError<T>(pub T);

impl<T> ForcePushError<T> {
    /// The item that was not pushed.
    pub fn into_inner(self) -> T {
        self.0
    }
}

impl<T> fmt::Display for ForcePushError<T> {
    fn fmt(&self, f: &mut fmt::Formatter<'_>) -> fmt::Result {
        f.write_str("Closed")
    }
}

impl<T: fmt::Debug> Error for ForcePushError<T> {}
