//! One style for a whole document.

use crate::error::Error;
use crate::library::{self, Style};
use crate::options::written_flags;
use pulldown_cmark::Options as ParserOptions;
use std::num::NonZeroU16;

/// The bullets of lists.
#[derive(Clone, Copy, Debug, Default, PartialEq, Eq, Hash)]
pub enum Bullet {
    /// That of each list in the source.
    #[default]
    Source,
    /// `*`
    Asterisk,
    /// `-`
    Hyphen,
    /// `+`
    Plus,
}

/// The delimiter after an item's number.
#[derive(Clone, Copy, Debug, Default, PartialEq, Eq, Hash)]
pub enum Delimiter {
    /// That of each list in the source.
    #[default]
    Source,
    /// `1.`
    Period,
    /// `1)`
    Parenthesis,
}

/// The numbers of a list.
#[derive(Clone, Copy, Debug, Default, PartialEq, Eq, Hash)]
pub enum Numbering {
    /// Those of the source.
    #[default]
    Source,
    /// All are the first one.
    First,
    /// They count up from the first one.
    Increment,
}

/// The marker of emphasis; strong emphasis has it twice.
#[derive(Clone, Copy, Debug, Default, PartialEq, Eq, Hash)]
pub enum Marker {
    /// That of the source.
    #[default]
    Source,
    /// `*`
    Asterisk,
    /// `_`
    Underscore,
}

/// The character of fences.
#[derive(Clone, Copy, Debug, Default, PartialEq, Eq, Hash)]
pub enum Fence {
    /// That of each fence in the source.
    #[default]
    Source,
    /// `` ` ``
    Backtick,
    /// `~`
    Tilde,
}

/// Hard line breaks.
#[derive(Clone, Copy, Debug, Default, PartialEq, Eq, Hash)]
pub enum HardBreak {
    /// As in the source.
    #[default]
    Source,
    /// A backslash.
    Backslash,
    /// Two spaces.
    Spaces,
}

/// Thematic breaks.
#[derive(Clone, Copy, Debug, Default, PartialEq, Eq, Hash)]
pub enum Rule {
    /// `---`
    #[default]
    Dashes,
    /// As in the source.
    Source,
}

/// Headings of one line.
#[derive(Clone, Copy, Debug, Default, PartialEq, Eq, Hash)]
pub enum Heading {
    /// After `#`.
    #[default]
    Signs = 0,
    /// As in the source: after `#` or underlined.
    Source = 2,
}

/// How tables look.
#[derive(Clone, Copy, Debug, Default, PartialEq, Eq, Hash)]
pub enum Tables {
    /// Cells are padded to the width of their columns.
    #[default]
    Aligned,
    /// Rows are as in the source.
    Source,
}

/// The lines of paragraphs.
#[derive(Clone, Copy, Debug, Default, PartialEq, Eq, Hash)]
pub enum Wrap {
    /// As in the source.
    #[default]
    Keep,
    /// One line for each paragraph.
    No,
    /// One line for each sentence.
    Sentence,
    /// Filled up to this many columns.
    Columns(NonZeroU16),
}

/// Where the content of items begins.
#[derive(Clone, Copy, Debug, Default, PartialEq, Eq, Hash)]
pub enum ListIndent {
    /// As in the source.
    #[default]
    Source,
    /// One space after the marker.
    Marker,
    /// Four columns after the marker's front.
    Four,
}

/// The style that [`format()`] gives. `FormatOptions { bullet: Bullet::Hyphen, ..Default::default() }` changes one field.
#[derive(Clone, Debug, PartialEq, Eq)]
pub struct FormatOptions {
    /// The bullets of lists.
    pub bullet: Bullet,
    /// The delimiter after an item's number.
    pub ordered: Delimiter,
    /// The numbers of a list.
    pub numbering: Numbering,
    /// The marker of emphasis.
    pub emphasis: Marker,
    /// The marker of strong emphasis.
    pub strong: Marker,
    /// The character of fences.
    pub fence: Fence,
    /// The minimal length of a fence: less than 3 means 3, and more than 1,000 means 1,000.
    pub fence_length: u32,
    /// Hard line breaks.
    pub hard_break: HardBreak,
    /// Thematic breaks.
    pub rule: Rule,
    /// Headings of one line.
    pub heading: Heading,
    /// How tables look.
    pub tables: Tables,
    /// Tables are padded up to this many columns, and wider ones if they are aligned; 0 means 120.
    pub table_width: u32,
    /// The lines of paragraphs.
    pub wrap: Wrap,
    /// Where the content of items begins.
    pub list_indent: ListIndent,
    /// Under each of these flags, the text has the same blocks as before, too.
    pub also_read: Vec<ParserOptions>,
}

impl Default for FormatOptions {
    fn default() -> FormatOptions {
        FormatOptions {
            bullet: Bullet::default(),
            ordered: Delimiter::default(),
            numbering: Numbering::default(),
            emphasis: Marker::default(),
            strong: Marker::default(),
            fence: Fence::default(),
            fence_length: 3,
            hard_break: HardBreak::default(),
            rule: Rule::default(),
            heading: Heading::default(),
            tables: Tables::default(),
            table_width: 120,
            wrap: Wrap::default(),
            list_indent: ListIndent::default(),
            also_read: Vec::new(),
        }
    }
}

fn code_of_marker(marker: Marker) -> u32 {
    match marker {
        Marker::Source => 0,
        Marker::Asterisk => u32::from(b'*'),
        Marker::Underscore => u32::from(b'_'),
    }
}

impl FormatOptions {
    /// Keeps all that the source has, as `--look source` of `tocmark-format` does.
    pub fn look_source() -> FormatOptions {
        FormatOptions {
            rule: Rule::Source,
            heading: Heading::Source,
            tables: Tables::Source,
            ..Default::default()
        }
    }

    /// Makes all texts alike, as `--look one` of `tocmark-format` does.
    pub fn look_one() -> FormatOptions {
        FormatOptions {
            bullet: Bullet::Hyphen,
            ordered: Delimiter::Period,
            numbering: Numbering::Increment,
            emphasis: Marker::Asterisk,
            strong: Marker::Asterisk,
            fence: Fence::Backtick,
            hard_break: HardBreak::Backslash,
            list_indent: ListIndent::Marker,
            ..Default::default()
        }
    }

    /// The style as C has it. A character is its own number.
    fn to_c(&self) -> Style {
        Style {
            bullet: match self.bullet {
                Bullet::Source => 0,
                Bullet::Asterisk => u32::from(b'*'),
                Bullet::Hyphen => u32::from(b'-'),
                Bullet::Plus => u32::from(b'+'),
            },
            delimiter: match self.ordered {
                Delimiter::Source => 0,
                Delimiter::Period => u32::from(b'.'),
                Delimiter::Parenthesis => u32::from(b')'),
            },
            numbering: self.numbering as u32,
            emphasis: code_of_marker(self.emphasis),
            strong: code_of_marker(self.strong),
            fence: match self.fence {
                Fence::Source => 0,
                Fence::Backtick => u32::from(b'`'),
                Fence::Tilde => u32::from(b'~'),
            },
            fence_length: self.fence_length,
            hard_break: self.hard_break as u32,
            rule: self.rule as u32 + self.heading as u32,
            tables: self.tables as u32,
            table_width: self.table_width,
            wrap: match self.wrap {
                Wrap::Keep => 0,
                Wrap::No => u32::MAX,
                Wrap::Sentence => u32::MAX - 1,
                Wrap::Columns(columns) => u32::from(columns.get()),
            },
            list_indent: match self.list_indent {
                ListIndent::Source => 0,
                ListIndent::Marker => 1,
                ListIndent::Four => 4,
            },
            ..Style::default()
        }
    }
}

/// Returns a text in one style. It parses to the same events; texts side by side count as one. A block that would parse otherwise
/// keeps its lines.
///
/// The library's own parser decides that. Flags that aren't among [`SUPPORTED_PARSER_OPTIONS`](crate::SUPPORTED_PARSER_OPTIONS)
/// are ignored. It fails if the style can't be ([`Error::InvalidStyle`]) or if memory runs out.
///
/// ```
/// use tocmark::{Bullet, FormatOptions};
///
/// let options = FormatOptions { bullet: Bullet::Hyphen, ..Default::default() };
/// let text = tocmark::format("Title\n=====\n*  a\n*  b", pulldown_cmark::Options::empty(), &options)?;
/// assert_eq!(text, "# Title\n\n-  a\n-  b\n");
/// # Ok::<(), tocmark::Error>(())
/// ```
pub fn format(text: &str, flags: ParserOptions, options: &FormatOptions) -> Result<String, Error> {
    let also: Vec<u32> = options
        .also_read
        .iter()
        .map(|flags| written_flags(*flags).bits())
        .collect();
    library::format(text, written_flags(flags).bits(), &also, &options.to_c())
        .map_err(Error::from_code)
}
