//! Writes the events of pulldown-cmark as Markdown, over the proved library `libtocmark.a`.
//!
//! [`rewrite`] edits a document, and keeps all lines whose events stay:
//!
//! ```
//! use pulldown_cmark::{Event, Options, Parser, Tag};
//!
//! let source = "*  a [link](/old)\n\n\n***\n";
//! let events = Parser::new(source).map(|event| match event {
//!     Event::Start(Tag::Link { link_type, title, id, .. }) => {
//!         Event::Start(Tag::Link { link_type, dest_url: "/new".into(), title, id })
//!     }
//!     event => event,
//! });
//! let text = tocmark::rewrite(source, events, Options::empty(), Default::default())?;
//! assert_eq!(text, "*  a [link](/new)\n\n\n***\n");
//! # Ok::<(), tocmark::Fault>(())
//! ```
//!
//! [`format()`] gives a document one style, [`compare()`] says what two texts say differently, and [`definitions()`] lists
//! the definitions of links, which [`redefine`] changes. The other functions and [`State`] have the signatures of the crate pulldown-cmark-to-cmark, so a
//! program can use this crate in its place. Three things differ: invalid options are an error ([`Error::InvalidOptions`]), the
//! writer receives the whole text at once, and it receives nothing if there is an error.
//!
//! ```
//! let events = pulldown_cmark::Parser::new("* a\n* b");
//! let mut text = String::new();
//! let options = tocmark::Options { list_token: '-', ..Default::default() };
//! tocmark::cmark_with_options(events, &mut text, pulldown_cmark::Options::empty(), options)?;
//! assert_eq!(text, "- a\n- b");
//! # Ok::<(), tocmark::Error>(())
//! ```

mod compare;
mod count;
mod definitions;
mod error;
mod format;
mod json;
mod library;
mod options;
#[cfg_attr(stand_in, allow(dead_code))]
mod own;
mod packed;
mod state;
mod value;

pub use compare::{compare, same, Allowed, Difference, Kind};
pub use count::{calculate_code_block_token_count, DEFAULT_CODE_BLOCK_TOKEN_COUNT};
pub use definitions::{definitions, redefine, Definition};
pub use error::{Error, Fault, Place};
pub use format::{
    format, Bullet, Delimiter, Fence, FormatOptions, HardBreak, ListIndent, Marker, Numbering,
    Rule, Tables, Wrap,
};
pub use options::{Options, OptionsError, SUPPORTED_PARSER_OPTIONS};
pub use state::{Progress, State};

use pulldown_cmark::{Event, Options as ParserOptions};
use std::borrow::Borrow;
use std::fmt;
use std::ops::Range;

/// Returns the events of a text, each with its range in bytes, as the library parses it.
///
/// They are those of pulldown-cmark, but for the spelling of some labels and the pieces of HTML. Flags that aren't among
/// [`SUPPORTED_PARSER_OPTIONS`] are ignored. The only error is [`Error::OutOfMemory`].
///
/// ```
/// use pulldown_cmark::{Event, Options};
///
/// let events = tocmark::read("a *b*", Options::empty())?;
/// assert_eq!(events[3], (Event::Text("b".into()), 3..4));
/// # Ok::<(), tocmark::Error>(())
/// ```
pub fn read(
    text: &str,
    flags: ParserOptions,
) -> Result<Vec<(Event<'static>, Range<usize>)>, Error> {
    let json =
        library::read(text, options::written_flags(flags).bits()).map_err(Error::from_code)?;
    Ok(own::events_of(&json).expect("the library writes the JSON of events"))
}

/// Returns the source with each event replaced by those that `change` returns: one, several, or none. All lines whose events are
/// the same stay as they are, byte for byte. An End has to match its Start, so change both.
///
/// The events are those of [`read`]. Options and errors are those of [`rewrite`].
///
/// ```
/// use pulldown_cmark::{Event, Options, Tag};
///
/// let source = "*  a [link](/old)\n\n\n***\n";
/// let text = tocmark::edit(source, Options::empty(), Default::default(), |mut event| {
///     if let Event::Start(Tag::Link { dest_url, .. }) = &mut event {
///         *dest_url = "/new".into();
///     }
///     [event]
/// })?;
/// assert_eq!(text, "*  a [link](/new)\n\n\n***\n");
/// # Ok::<(), tocmark::Fault>(())
/// ```
pub fn edit<C>(
    source: &str,
    flags: ParserOptions,
    options: Options<'_>,
    mut change: impl FnMut(Event<'static>) -> C,
) -> Result<String, Fault>
where
    C: IntoIterator<Item = Event<'static>>,
{
    let flags = options::written_flags(flags);
    options.validate(flags)?;
    let events = read(source, flags).map_err(|_| Fault::OutOfMemory)?;
    let changed: Vec<Event<'_>> = events
        .into_iter()
        .flat_map(|(event, _)| change(event))
        .collect();
    rewritten(source, own::Merged::new(changed.iter()), flags, &options)
}

/// Returns the source with its events replaced by these. All lines whose events are the same stay as they are, byte for byte.
///
/// The events are those that pulldown-cmark parses in the source, changed. The result parses to just these events, with
/// neighbouring texts joined; the parser for that is the library's own. It spells some labels and pieces of HTML otherwise, and
/// events that you don't change get its spelling. The options concern new blocks alone. Flags that aren't among
/// [`SUPPORTED_PARSER_OPTIONS`] are ignored.
///
/// A [`Fault`] names the block by the number of its first event and by its lines in the source.
pub fn rewrite<'a, I, E>(
    source: &str,
    events: I,
    flags: ParserOptions,
    options: Options<'_>,
) -> Result<String, Fault>
where
    I: IntoIterator<Item = E>,
    E: Borrow<Event<'a>>,
{
    let flags = options::written_flags(flags);
    options.validate(flags)?;
    let given: Vec<E> = events.into_iter().collect();
    let given = own::Merged::new(given.iter().map(Borrow::borrow));
    rewritten(source, in_own_words(source, given, flags)?, flags, &options)
}

/// The given events in the library's spelling, if the source's events have another one in pulldown-cmark.
#[cfg(not(stand_in))]
fn in_own_words(
    source: &str,
    given: own::Merged,
    flags: ParserOptions,
) -> Result<own::Merged, Fault> {
    let theirs: Vec<Event<'_>> = pulldown_cmark::Parser::new_ext(source, flags).collect();
    let own = read(source, flags).map_err(|_| Fault::OutOfMemory)?;
    let theirs = own::Merged::new(theirs.iter());
    let own = own::Merged::new(own.iter().map(|(event, _)| event));
    Ok(own::in_own_words(given, &theirs.events, &own.events))
}

/// The stand-in of pulldown-cmark has no parser.
#[cfg(stand_in)]
fn in_own_words(
    _source: &str,
    given: own::Merged,
    _flags: ParserOptions,
) -> Result<own::Merged, Fault> {
    Ok(given)
}

fn rewritten(
    source: &str,
    events: own::Merged,
    flags: ParserOptions,
    options: &Options<'_>,
) -> Result<String, Fault> {
    let json = format!("[{}]", events.events.join(","));
    let given = library::Given {
        events: json.as_bytes(),
        source,
        flags: flags.bits(),
        options: &options.to_json(),
    };
    given
        .rewrite()
        .map_err(|fault| fault.numbered(&events.numbers))
}

/// Returns a document of these events alone. It chooses the layout, and leaves out definitions that no link uses.
///
/// The result parses to just these events, with neighbouring texts joined, or you get a [`Fault`]. The parser for that is the
/// library's own. [`cmark`] parses only the blocks that its writer doubts, so that a few documents come back changed. Flags that
/// aren't among [`SUPPORTED_PARSER_OPTIONS`] are ignored.
///
/// A fault names the block that isn't written by its first event. If the whole text parses otherwise, it names the first event
/// that the text doesn't have.
///
/// ```
/// use pulldown_cmark::{Event, Options, Tag, TagEnd};
///
/// let events = [Event::Start(Tag::Paragraph), Event::Text("# a".into()), Event::End(TagEnd::Paragraph)];
/// assert_eq!(tocmark::write(events.iter(), Options::empty(), Default::default())?, "\\# a");
/// # Ok::<(), tocmark::Fault>(())
/// ```
pub fn write<'a, I, E>(
    events: I,
    flags: ParserOptions,
    options: Options<'_>,
) -> Result<String, Fault>
where
    I: IntoIterator<Item = E>,
    E: Borrow<Event<'a>>,
{
    let flags = options::written_flags(flags);
    options.validate(flags)?;
    let given: Vec<E> = events.into_iter().collect();
    let merged = own::Merged::new(given.iter().map(Borrow::borrow));
    let json = format!("[{}]", merged.events.join(","));
    let given = library::Given {
        events: json.as_bytes(),
        source: "",
        flags: flags.bits(),
        options: &options.to_json(),
    };
    given
        .write_checked()
        .map_err(|fault| fault.numbered(&merged.numbers))
}

/// Writes events under the default options. The text has to parse back under these flags.
pub fn cmark<'a, I, E, F>(
    events: I,
    formatter: F,
    parser_options: ParserOptions,
) -> Result<State, Error>
where
    I: IntoIterator<Item = E>,
    E: Borrow<Event<'a>>,
    F: fmt::Write,
{
    cmark_with_options(events, formatter, parser_options, Options::default())
}

/// Writes events under options.
///
/// It fails if an option is invalid, if an event isn't allowed where it is, if no spelling of a block parses back, if memory runs
/// out, or if the writer refuses the text.
pub fn cmark_with_options<'a, I, E, F>(
    events: I,
    formatter: F,
    parser_options: ParserOptions,
    options: Options<'_>,
) -> Result<State, Error>
where
    I: IntoIterator<Item = E>,
    E: Borrow<Event<'a>>,
    F: fmt::Write,
{
    let pairs = events.into_iter().map(|event| (event, None));
    cmark_with_source_range_and_options(pairs, "", formatter, parser_options, options)
}

/// Writes events with their ranges in a source under the default options. Texts keep the source's spelling if that parses back.
pub fn cmark_with_source_range<'a, I, E, F>(
    event_and_ranges: I,
    source: &str,
    formatter: F,
    parser_options: ParserOptions,
) -> Result<State, Error>
where
    I: IntoIterator<Item = (E, Option<Range<usize>>)>,
    E: Borrow<Event<'a>>,
    F: fmt::Write,
{
    cmark_with_source_range_and_options(
        event_and_ranges,
        source,
        formatter,
        parser_options,
        Options::default(),
    )
}

/// Writes events with their ranges in a source under options. If the source is empty, the ranges are dropped.
///
/// It fails as [`cmark_with_options`], and if a range isn't one of the source.
pub fn cmark_with_source_range_and_options<'a, I, E, F>(
    event_and_ranges: I,
    source: &str,
    mut formatter: F,
    parser_options: ParserOptions,
    options: Options<'_>,
) -> Result<State, Error>
where
    I: IntoIterator<Item = (E, Option<Range<usize>>)>,
    E: Borrow<Event<'a>>,
    F: fmt::Write,
{
    let mut state = State::new(parser_options, options);
    state.process_with_source_range(event_and_ranges, source, &mut formatter)?;
    state.finish(formatter)?;
    Ok(state)
}
