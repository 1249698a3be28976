//! The names of pulldown-cmark 0.13's events that the crate above takes, and no parser: for tests of that crate where the
//! package itself can't be had. What the crate doesn't take isn't here.

use std::ops::Deref;

/// A text.
#[derive(Clone, Debug)]
pub enum CowStr<'a> {
    Boxed(Box<str>),
    Borrowed(&'a str),
}

impl Deref for CowStr<'_> {
    type Target = str;

    fn deref(&self) -> &str {
        match self {
            CowStr::Boxed(text) => text,
            CowStr::Borrowed(text) => text,
        }
    }
}

impl AsRef<str> for CowStr<'_> {
    fn as_ref(&self) -> &str {
        self
    }
}

impl From<String> for CowStr<'_> {
    fn from(text: String) -> Self {
        CowStr::Boxed(text.into())
    }
}

impl<'a> From<&'a str> for CowStr<'a> {
    fn from(text: &'a str) -> Self {
        CowStr::Borrowed(text)
    }
}

/// What a document consists of, in order.
#[derive(Clone, Debug)]
pub enum Event<'a> {
    Start(Tag<'a>),
    End(TagEnd),
    Text(CowStr<'a>),
    Code(CowStr<'a>),
    InlineMath(CowStr<'a>),
    DisplayMath(CowStr<'a>),
    Html(CowStr<'a>),
    InlineHtml(CowStr<'a>),
    FootnoteReference(CowStr<'a>),
    SoftBreak,
    HardBreak,
    Rule,
    TaskListMarker(bool),
}

/// A container, at its start.
#[derive(Clone, Debug)]
pub enum Tag<'a> {
    Paragraph,
    Heading {
        level: HeadingLevel,
        id: Option<CowStr<'a>>,
        classes: Vec<CowStr<'a>>,
        attrs: Vec<(CowStr<'a>, Option<CowStr<'a>>)>,
    },
    BlockQuote(Option<BlockQuoteKind>),
    CodeBlock(CodeBlockKind<'a>),
    HtmlBlock,
    List(Option<u64>),
    Item,
    FootnoteDefinition(CowStr<'a>),
    DefinitionList,
    DefinitionListTitle,
    DefinitionListDefinition,
    Table(Vec<Alignment>),
    TableHead,
    TableRow,
    TableCell,
    Emphasis,
    Strong,
    Strikethrough,
    Superscript,
    Subscript,
    Link {
        link_type: LinkType,
        dest_url: CowStr<'a>,
        title: CowStr<'a>,
        id: CowStr<'a>,
    },
    Image {
        link_type: LinkType,
        dest_url: CowStr<'a>,
        title: CowStr<'a>,
        id: CowStr<'a>,
    },
    MetadataBlock(MetadataBlockKind),
}

/// A container, at its end.
#[derive(Clone, Copy, Debug, PartialEq, Eq)]
pub enum TagEnd {
    Paragraph,
    Heading(HeadingLevel),
    BlockQuote(Option<BlockQuoteKind>),
    CodeBlock,
    HtmlBlock,
    List(bool),
    Item,
    FootnoteDefinition,
    DefinitionList,
    DefinitionListTitle,
    DefinitionListDefinition,
    Table,
    TableHead,
    TableRow,
    TableCell,
    Emphasis,
    Strong,
    Strikethrough,
    Superscript,
    Subscript,
    Link,
    Image,
    MetadataBlock(MetadataBlockKind),
}

impl Tag<'_> {
    /// The end that belongs to this start.
    pub fn to_end(&self) -> TagEnd {
        match self {
            Self::Heading { level, .. } => TagEnd::Heading(*level),
            Self::BlockQuote(kind) => TagEnd::BlockQuote(*kind),
            Self::List(first) => TagEnd::List(first.is_some()),
            Self::MetadataBlock(kind) => TagEnd::MetadataBlock(*kind),
            Self::Link { .. } => TagEnd::Link,
            Self::Image { .. } => TagEnd::Image,
            Self::CodeBlock(_) => TagEnd::CodeBlock,
            Self::FootnoteDefinition(_) => TagEnd::FootnoteDefinition,
            Self::Table(_) => TagEnd::Table,
            Self::Paragraph => TagEnd::Paragraph,
            Self::HtmlBlock => TagEnd::HtmlBlock,
            Self::Item => TagEnd::Item,
            Self::DefinitionList => TagEnd::DefinitionList,
            Self::DefinitionListTitle => TagEnd::DefinitionListTitle,
            Self::DefinitionListDefinition => TagEnd::DefinitionListDefinition,
            Self::TableHead => TagEnd::TableHead,
            Self::TableRow => TagEnd::TableRow,
            Self::TableCell => TagEnd::TableCell,
            Self::Emphasis => TagEnd::Emphasis,
            Self::Strong => TagEnd::Strong,
            Self::Strikethrough => TagEnd::Strikethrough,
            Self::Superscript => TagEnd::Superscript,
            Self::Subscript => TagEnd::Subscript,
        }
    }
}

/// A heading's level; as a number, 1 to 6.
#[derive(Clone, Copy, Debug, PartialEq, Eq)]
pub enum HeadingLevel {
    H1 = 1,
    H2,
    H3,
    H4,
    H5,
    H6,
}

/// What a block quote is marked as.
#[derive(Clone, Copy, Debug, PartialEq, Eq)]
pub enum BlockQuoteKind {
    Note,
    Tip,
    Important,
    Warning,
    Caution,
}

/// How a code block is written, with the info string of a fenced one.
#[derive(Clone, Debug)]
pub enum CodeBlockKind<'a> {
    Indented,
    Fenced(CowStr<'a>),
}

/// How a column of a table is aligned.
#[derive(Clone, Copy, Debug)]
pub enum Alignment {
    None,
    Left,
    Center,
    Right,
}

/// How a link or an image is written.
#[derive(Clone, Copy, Debug)]
pub enum LinkType {
    Inline,
    Reference,
    ReferenceUnknown,
    Collapsed,
    CollapsedUnknown,
    Shortcut,
    ShortcutUnknown,
    Autolink,
    Email,
    WikiLink { has_pothole: bool },
}

/// What a metadata block is between.
#[derive(Clone, Copy, Debug, PartialEq, Eq)]
pub enum MetadataBlockKind {
    YamlStyle,
    PlusesStyle,
}

/// Extensions of Markdown, as the bits that `tocmark.h` has.
#[derive(Clone, Copy, Debug, PartialEq, Eq)]
pub struct Options(u32);

impl Options {
    pub const ENABLE_TABLES: Self = Options(1 << 1);
    pub const ENABLE_FOOTNOTES: Self = Options(1 << 2);
    pub const ENABLE_STRIKETHROUGH: Self = Options(1 << 3);
    pub const ENABLE_TASKLISTS: Self = Options(1 << 4);
    pub const ENABLE_HEADING_ATTRIBUTES: Self = Options(1 << 6);
    pub const ENABLE_MATH: Self = Options(1 << 10);
    pub const ENABLE_GFM: Self = Options(1 << 11);
    pub const ENABLE_SUPERSCRIPT: Self = Options(1 << 13);
    pub const ENABLE_SUBSCRIPT: Self = Options(1 << 14);

    pub const fn empty() -> Self {
        Options(0)
    }

    pub const fn all() -> Self {
        Options(0xffde)
    }

    pub const fn from_bits_retain(bits: u32) -> Self {
        Options(bits)
    }

    pub const fn is_empty(&self) -> bool {
        self.0 == 0
    }

    pub const fn intersection(self, other: Self) -> Self {
        Options(self.0 & other.0)
    }

    pub const fn difference(self, other: Self) -> Self {
        Options(self.0 & !other.0)
    }

    pub const fn intersects(&self, other: Self) -> bool {
        self.0 & other.0 != 0
    }

    pub const fn bits(&self) -> u32 {
        self.0
    }
}

impl std::ops::BitOr for Options {
    type Output = Self;

    fn bitor(self, other: Self) -> Self {
        Options(self.0 | other.0)
    }
}
