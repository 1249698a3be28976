//! A writer that takes events in several calls.

use crate::error::Error;
use crate::library::Given;
use crate::options::{written_flags, Options, OptionsError};
use crate::packed::Packed;
use pulldown_cmark::{Event, Options as ParserOptions, TagEnd};
use std::borrow::Borrow;
use std::fmt;
use std::ops::Range;

/// What a call took and wrote.
#[derive(Clone, Copy, Debug, Default, PartialEq, Eq)]
pub struct Progress {
    /// The events that the call took; [`State::finish`] takes none.
    pub events_consumed: usize,
    /// The bytes that the call wrote.
    pub bytes_written: usize,
}

#[derive(Clone, Copy, Debug, PartialEq, Eq)]
enum Status {
    Active,
    Finished,
    Failed,
}

/// A writer that takes events in several calls. It keeps all of them, and writes at [`State::finish`].
///
/// After an error, it can't be used any more.
///
/// ```
/// let events: Vec<_> = pulldown_cmark::Parser::new("a *b*").collect();
/// let mut state = tocmark::State::new(pulldown_cmark::Options::empty(), Default::default());
/// let mut output = String::new();
/// state.process(&events[..2], &mut output)?;
/// state.process(&events[2..], &mut output)?;
/// state.finish(&mut output)?;
/// assert_eq!(output, "a *b*");
/// # Ok::<(), tocmark::Error>(())
/// ```
#[derive(Clone, Debug)]
pub struct State {
    packed: Packed,
    open: Vec<TagEnd>,
    source: String,
    flags: u32,
    options: Result<String, OptionsError>,
    status: Status,
}

impl State {
    /// A writer that has taken no event. Invalid options are an error of the first call.
    ///
    /// Flags that aren't among [`SUPPORTED_PARSER_OPTIONS`](crate::SUPPORTED_PARSER_OPTIONS) are ignored.
    pub fn new(parser_options: ParserOptions, options: Options<'_>) -> Self {
        let flags = written_flags(parser_options);
        State {
            packed: Packed::default(),
            open: Vec::new(),
            source: String::new(),
            flags: flags.bits(),
            options: options.validate(flags).map(|()| options.to_json()),
            status: Status::Active,
        }
    }

    /// Takes events. The writer receives nothing before [`State::finish`].
    pub fn process<'a, I, E, F>(&mut self, events: I, writer: F) -> Result<Progress, Error>
    where
        I: IntoIterator<Item = E>,
        E: Borrow<Event<'a>>,
        F: fmt::Write,
    {
        self.process_with_source_range(events.into_iter().map(|event| (event, None)), "", writer)
    }

    /// Takes events with their ranges in a source, in bytes. Each call may have a source of its own.
    pub fn process_with_source_range<'a, I, E, F>(
        &mut self,
        events_and_ranges: I,
        source: &str,
        _writer: F,
    ) -> Result<Progress, Error>
    where
        I: IntoIterator<Item = (E, Option<Range<usize>>)>,
        E: Borrow<Event<'a>>,
        F: fmt::Write,
    {
        let taken = self.take(events_and_ranges, source);
        if taken.is_err() {
            self.status = Status::Failed;
        }
        taken
    }

    /// Keeps the events. The sources of all calls are one after the other, so that ranges move on.
    fn take<'a, I, E>(&mut self, events_and_ranges: I, source: &str) -> Result<Progress, Error>
    where
        I: IntoIterator<Item = (E, Option<Range<usize>>)>,
        E: Borrow<Event<'a>>,
    {
        self.require_active()?;
        self.valid_options()?;
        let begin = self.source.len();
        self.source.push_str(source);
        let mut progress = Progress::default();
        for (event, range) in events_and_ranges {
            let event = event.borrow();
            match event {
                Event::Start(tag) => self.open.push(tag.to_end()),
                Event::End(end) if self.open.pop() != Some(*end) => {
                    return Err(Error::UnexpectedEvent)
                }
                _ => {}
            }
            self.packed.push(event, moved(range, source, begin)?);
            progress.events_consumed += 1;
        }
        Ok(progress)
    }

    /// Writes all events that were taken. A second call writes nothing.
    pub fn finish(&mut self, writer: impl fmt::Write) -> Result<Progress, Error> {
        if self.status == Status::Finished {
            return Ok(Progress::default());
        }
        let written = self.write(writer);
        self.status = match written {
            Ok(_) => Status::Finished,
            Err(_) => Status::Failed,
        };
        written
    }

    fn write(&mut self, mut writer: impl fmt::Write) -> Result<Progress, Error> {
        self.require_active()?;
        self.valid_options()?;
        if !self.open.is_empty() {
            return Err(Error::UnexpectedEvent);
        }
        let packed = std::mem::take(&mut self.packed);
        let given = Given {
            events: packed.as_bytes(),
            source: &self.source,
            flags: self.flags,
            options: self.valid_options()?,
        };
        let text = given.write()?;
        if !text.is_empty() {
            writer.write_str(&text)?;
        }
        self.source = String::new();
        Ok(Progress {
            events_consumed: 0,
            bytes_written: text.len(),
        })
    }

    fn valid_options(&self) -> Result<&str, Error> {
        match &self.options {
            Ok(options) => Ok(options),
            Err(error) => Err(Error::InvalidOptions(error.clone())),
        }
    }

    fn require_active(&self) -> Result<(), Error> {
        match self.status {
            Status::Active => Ok(()),
            Status::Finished => Err(Error::Finished),
            Status::Failed => Err(Error::Failed),
        }
    }
}

/// A range of a source that is after so many bytes. An empty source is none, and its ranges are dropped.
fn moved(
    range: Option<Range<usize>>,
    source: &str,
    begin: usize,
) -> Result<Option<Range<usize>>, Error> {
    match range {
        Some(range) if !source.is_empty() => {
            source.get(range.clone()).ok_or(Error::InvalidSourceRange)?;
            Ok(Some(begin + range.start..begin + range.end))
        }
        _ => Ok(None),
    }
}
