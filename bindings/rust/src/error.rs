//! Why events aren't written.

use crate::options::OptionsError;
use std::fmt;

/// Why events aren't written.
#[derive(Debug)]
#[non_exhaustive]
pub enum Error {
    /// The writer refused the text.
    FormatFailed(fmt::Error),
    /// An End has no matching Start, a container is open at the end, or an event isn't allowed where it is.
    UnexpectedEvent,
    /// No spelling of a block parses back to its events.
    Unrepresentable,
    /// A range is reversed, past the end of the source or not between characters.
    InvalidSourceRange,
    /// Events were passed after the end.
    Finished,
    /// An earlier call failed.
    Failed,
    /// Nothing can be written under these options.
    InvalidOptions(OptionsError),
    /// A style has no such value.
    InvalidStyle,
    /// The definition of links with this number, counted from 0, is none of the source.
    NoDefinition(usize),
    /// No text was found that has the definition of links on this line, counted from 1, and else parses as before.
    Misread(usize),
    /// Memory ran out.
    OutOfMemory,
    /// Another error of the library: its code in `tocmark.h`.
    Other(isize),
}

impl Error {
    /// The error of a code of `tocmark.h`.
    pub(crate) fn from_code(code: isize) -> Error {
        match code {
            -1 => Error::OutOfMemory,
            -10 => Error::UnexpectedEvent,
            -11 => Error::Unrepresentable,
            -12 => Error::InvalidSourceRange,
            -13 => Error::Finished,
            -14 => Error::Failed,
            -15 => Error::InvalidStyle,
            _ => Error::Other(code),
        }
    }
}

impl fmt::Display for Error {
    fn fmt(&self, f: &mut fmt::Formatter<'_>) -> fmt::Result {
        match self {
            Error::FormatFailed(fault) => write!(f, "{fault}"),
            Error::UnexpectedEvent => f.write_str("Unexpected event while reconstructing Markdown"),
            Error::Unrepresentable => {
                f.write_str("Cannot preserve this event block with the supplied parser options")
            }
            Error::InvalidSourceRange => f.write_str("Invalid Markdown source range"),
            Error::Finished => f.write_str("Markdown serializer has already finished"),
            Error::Failed => f.write_str("Markdown serializer cannot be used after an error"),
            Error::InvalidOptions(error) => write!(f, "{error}"),
            Error::InvalidStyle => f.write_str("a style has no such value"),
            Error::NoDefinition(number) => {
                write!(
                    f,
                    "definition {number}: the source has none with this label and range"
                )
            }
            Error::Misread(line) => write!(
                f,
                "line {line}: no text was found that has this definition and else parses as before"
            ),
            Error::OutOfMemory => f.write_str("out of memory"),
            Error::Other(code) => write!(f, "the library returned the error {code}"),
        }
    }
}

impl std::error::Error for Error {}

impl From<fmt::Error> for Error {
    fn from(fault: fmt::Error) -> Error {
        Error::FormatFailed(fault)
    }
}

impl From<OptionsError> for Error {
    fn from(error: OptionsError) -> Error {
        Error::InvalidOptions(error)
    }
}

/// Where a block of the edited events is.
#[derive(Clone, Copy, Debug, PartialEq, Eq)]
pub struct Place {
    /// The number of its first event, counted from 0.
    pub event: usize,
    /// The first and the last line of the source that it replaces, counted from 1, if it replaces any.
    pub lines: Option<(usize, usize)>,
}

impl fmt::Display for Place {
    fn fmt(&self, f: &mut fmt::Formatter<'_>) -> fmt::Result {
        write!(f, "event {}", self.event)?;
        match self.lines {
            None => Ok(()),
            Some((first, last)) if first == last => write!(f, ", line {first}"),
            Some((first, last)) => write!(f, ", lines {first} to {last}"),
        }
    }
}

/// Why a source isn't rewritten.
#[derive(Debug)]
#[non_exhaustive]
pub enum Fault {
    /// This block isn't written.
    Refused(Place, Error),
    /// Every text that was tried parses to other events, from this block on.
    ReadOtherwise(Place),
    /// Nothing can be written under these options.
    InvalidOptions(OptionsError),
    /// Memory ran out.
    OutOfMemory,
}

impl Fault {
    /// The fault with the number that its event had in the caller's list.
    pub(crate) fn numbered(mut self, numbers: &[usize]) -> Fault {
        if let Fault::Refused(place, _) | Fault::ReadOtherwise(place) = &mut self {
            place.event = numbers.get(place.event).copied().unwrap_or(place.event);
        }
        self
    }

    /// The fault of a code of `tocmark.h`.
    pub(crate) fn from_code(code: isize, place: Place) -> Fault {
        match code {
            -1 => Fault::OutOfMemory,
            -16 => Fault::ReadOtherwise(place),
            _ => Fault::Refused(place, Error::from_code(code)),
        }
    }
}

impl fmt::Display for Fault {
    fn fmt(&self, f: &mut fmt::Formatter<'_>) -> fmt::Result {
        match self {
            Fault::Refused(place, error) => write!(f, "{place}: {error}"),
            Fault::ReadOtherwise(place) => {
                write!(f, "{place}: no text was found that parses to these events")
            }
            Fault::InvalidOptions(error) => write!(f, "{error}"),
            Fault::OutOfMemory => f.write_str("out of memory"),
        }
    }
}

impl std::error::Error for Fault {}

impl From<OptionsError> for Fault {
    fn from(error: OptionsError) -> Fault {
        Fault::InvalidOptions(error)
    }
}
