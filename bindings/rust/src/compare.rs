//! What two texts say differently.

use crate::error::Error;
use crate::library;
use crate::options::written_flags;
use crate::value::{value_of, Value};
use pulldown_cmark::Options as ParserOptions;
use std::fmt;

/// What may differ between texts that count as the same. The default is what no page shows: how links are spelled and defined,
/// whether code is fenced or indented, whether code or HTML lacks its last line feed, and whether an address is between angle
/// brackets.
/// `Allowed { text: true, ..Default::default() }` allows one more thing.
#[derive(Clone, Copy, Debug, PartialEq, Eq, Hash)]
pub struct Allowed {
    /// White space in texts, and where lines break.
    pub wrap: bool,
    /// The words of texts.
    pub text: bool,
    /// Where links and images lead.
    pub destinations: bool,
    /// Titles of links and images.
    pub titles: bool,
    /// Labels, and how links are spelled.
    pub labels: bool,
    /// Whether code is fenced or indented, and whether code or HTML lacks its last line feed.
    pub fences: bool,
    /// Levels of headings.
    pub levels: bool,
    /// First numbers of lists.
    pub numbers: bool,
    /// Code and math.
    pub code: bool,
    /// Info strings of fenced code.
    pub info: bool,
    /// HTML.
    pub html: bool,
    /// What front matter says.
    pub front_matter: bool,
    /// Link definitions.
    pub definitions: bool,
    /// Whether a web or mail address is between angle brackets: in a text it is a link, as GitHub shows it. Without flags, this
    /// allows nothing, because CommonMark has no such links.
    pub bare_links: bool,
}

impl Default for Allowed {
    fn default() -> Allowed {
        Allowed {
            labels: true,
            fences: true,
            definitions: true,
            bare_links: true,
            ..Allowed::nothing()
        }
    }
}

impl Allowed {
    /// Nothing may differ that the library parses.
    pub fn nothing() -> Allowed {
        Allowed {
            wrap: false,
            text: false,
            destinations: false,
            titles: false,
            labels: false,
            fences: false,
            levels: false,
            numbers: false,
            code: false,
            info: false,
            html: false,
            front_matter: false,
            definitions: false,
            bare_links: false,
        }
    }

    /// The bits that `tocmark.h` has for these, under the flags by which texts are parsed.
    fn bits(self, flags: ParserOptions) -> u32 {
        let all = [
            self.wrap,
            self.text,
            self.destinations,
            self.titles,
            self.labels,
            self.fences,
            self.levels,
            self.numbers,
            self.code,
            self.info,
            self.html,
            self.front_matter,
            self.definitions,
            self.bare_links && !flags.is_empty(),
        ];
        all.iter()
            .rev()
            .fold(0, |bits, is_allowed| bits << 1 | u32::from(*is_allowed))
    }
}

/// What kind of thing differs.
#[derive(Clone, Copy, Debug, PartialEq, Eq, Hash)]
#[non_exhaustive]
pub enum Kind {
    /// The words of a text.
    Text,
    /// Where a link or an image leads.
    Destination,
    /// The title of a link or an image.
    Title,
    /// The label of a link, or how it is spelled.
    Label,
    /// The level of a heading.
    Level,
    /// The first number of a list.
    Number,
    /// Code or math.
    Code,
    /// The info string of fenced code.
    Info,
    /// HTML.
    Html,
    /// What front matter says.
    FrontMatter,
    /// A link definition.
    Definition,
    /// Only the old text has it.
    Removed,
    /// Only the new text has it.
    Added,
    /// Anything else.
    Structure,
}

/// A thing that two texts say differently. As a text it is one phrase.
#[derive(Clone, Debug, PartialEq, Eq)]
#[non_exhaustive]
pub struct Difference {
    /// What kind of thing it is.
    pub kind: Kind,
    /// What it is, in words, such as "link".
    pub what: String,
    /// Its first and its last line in the old text, counted from 1. If only the new text has it: where it would be.
    pub old: (usize, usize),
    /// The same in the new text.
    pub new: (usize, usize),
    /// What the old text says, as far as it differs.
    pub was: String,
    /// What the new text says, as far as it differs.
    pub is: String,
    message: String,
}

impl fmt::Display for Difference {
    fn fmt(&self, f: &mut fmt::Formatter<'_>) -> fmt::Result {
        f.write_str(&self.message)
    }
}

fn kind_of(name: &str) -> Kind {
    match name {
        "text" => Kind::Text,
        "destination" => Kind::Destination,
        "title" => Kind::Title,
        "label" => Kind::Label,
        "level" => Kind::Level,
        "number" => Kind::Number,
        "code" => Kind::Code,
        "info" => Kind::Info,
        "html" => Kind::Html,
        "front-matter" => Kind::FrontMatter,
        "definition" => Kind::Definition,
        "removed" => Kind::Removed,
        "added" => Kind::Added,
        _ => Kind::Structure,
    }
}

fn lines_of(value: &Value) -> Option<(usize, usize)> {
    let lines = value.each(Value::number)?;
    Some((*lines.first()? as usize, *lines.get(1)? as usize))
}

fn difference_of(value: &Value) -> Option<Difference> {
    let text = |key| Some(value.part(key)?.text()?.to_string());
    Some(Difference {
        kind: kind_of(&text("kind")?),
        what: text("what")?,
        old: lines_of(value.part("old")?)?,
        new: lines_of(value.part("new")?)?,
        was: text("was")?,
        is: text("is")?,
        message: text("message")?,
    })
}

/// Returns what two Markdown texts say differently. The list is empty exactly if both parse to the same events and define the same
/// links, but for what may differ; texts side by side count as one.
///
/// The library's own parser decides that. A byte order mark at the front isn't parsed. Flags that aren't among
/// [`SUPPORTED_PARSER_OPTIONS`](crate::SUPPORTED_PARSER_OPTIONS) are ignored. The only error is [`Error::OutOfMemory`].
///
/// ```
/// use pulldown_cmark::Options;
/// use tocmark::{compare, Allowed, Kind};
///
/// let found = compare("A [link](/old).\n", "A [link](/new).\n", Options::empty(), Allowed::default())?;
/// assert_eq!(found[0].kind, Kind::Destination);
/// assert_eq!(found[0].new, (1, 1));
/// assert_eq!(found[0].to_string(), "the link's destination \"/old\" became \"/new\"");
/// let found = compare("see http://a.b/c", "see <http://a.b/c>", Options::ENABLE_GFM, Allowed::default())?;
/// assert!(found.is_empty());
/// # Ok::<(), tocmark::Error>(())
/// ```
pub fn compare(
    old: &str,
    new: &str,
    flags: ParserOptions,
    allowed: Allowed,
) -> Result<Vec<Difference>, Error> {
    let flags = written_flags(flags);
    let allowed = allowed.bits(flags);
    let json = library::compare(old, new, flags.bits(), allowed).map_err(Error::from_code)?;
    let found = value_of(&json).and_then(|list| list.each(difference_of));
    Ok(found.expect("the library writes the JSON of differences"))
}

/// Returns whether two Markdown texts say the same: whether [`compare()`] finds nothing.
///
/// ```
/// use pulldown_cmark::Options;
/// use tocmark::{same, Allowed};
///
/// assert!(same("Title\n=====\n", "# Title\n", Options::empty(), Allowed::nothing())?);
/// assert!(!same("# One\n", "# Eins\n", Options::empty(), Allowed::default())?);
/// let allowed = Allowed { text: true, ..Allowed::default() };
/// assert!(same("# One\n", "# Eins\n", Options::empty(), allowed)?);
/// # Ok::<(), tocmark::Error>(())
/// ```
pub fn same(old: &str, new: &str, flags: ParserOptions, allowed: Allowed) -> Result<bool, Error> {
    Ok(compare(old, new, flags, allowed)?.is_empty())
}
