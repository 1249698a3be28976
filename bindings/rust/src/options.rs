//! How events are written.

use crate::json::string;
use pulldown_cmark::Options as ParserOptions;
use std::borrow::Cow;
use std::fmt;

/// The flags under which events can be written: all but smart punctuation, old footnotes and wikilinks.
pub const SUPPORTED_PARSER_OPTIONS: ParserOptions = ParserOptions::from_bits_retain(0x7dde);

/// Of these flags, those that have a meaning here.
pub(crate) fn written_flags(parser_options: ParserOptions) -> ParserOptions {
    parser_options.intersection(SUPPORTED_PARSER_OPTIONS)
}

/// Why nothing can be written under options and flags.
#[derive(Clone, Debug, PartialEq, Eq)]
pub enum OptionsError {
    /// These flags aren't among [`SUPPORTED_PARSER_OPTIONS`].
    UnsupportedParserOptions(ParserOptions),
    /// This field is no delimiter of standard Markdown.
    InvalidToken(&'static str),
    /// Superscripts or subscripts are parsed, and would be written as HTML.
    HtmlSuperSubscript,
    /// This field is `isize::MAX` or more.
    SizeOverflow(&'static str),
}

impl fmt::Display for OptionsError {
    fn fmt(&self, f: &mut fmt::Formatter<'_>) -> fmt::Result {
        match self {
            OptionsError::UnsupportedParserOptions(flags) => {
                write!(
                    f,
                    "unsupported parser flags: 0x{:x}; use a subset of SUPPORTED_PARSER_OPTIONS",
                    flags.bits()
                )
            }
            OptionsError::InvalidToken(field) => {
                write!(f, "{field} must use a standard Markdown delimiter")
            }
            OptionsError::HtmlSuperSubscript => f.write_str(
                "set use_html_for_super_sub_script to false when parsing symbolic superscripts or subscripts",
            ),
            OptionsError::SizeOverflow(field) => {
                write!(f, "{field} is too large for a Markdown output string")
            }
        }
    }
}

impl std::error::Error for OptionsError {}

/// How events are written. `Options { list_token: '-', ..Default::default() }` changes one field.
#[derive(Clone, Copy, Debug, PartialEq, Eq, PartialOrd, Ord, Hash)]
pub struct Options<'a> {
    /// Line feeds after a heading.
    pub newlines_after_headline: usize,
    /// Line feeds after a paragraph.
    pub newlines_after_paragraph: usize,
    /// Line feeds after a code block.
    pub newlines_after_codeblock: usize,
    /// Line feeds after an HTML block.
    pub newlines_after_htmlblock: usize,
    /// Line feeds after a table.
    pub newlines_after_table: usize,
    /// Line feeds after a thematic break.
    pub newlines_after_rule: usize,
    /// Line feeds after a list.
    pub newlines_after_list: usize,
    /// Line feeds after a block quote.
    pub newlines_after_blockquote: usize,
    /// Line feeds after anything else.
    pub newlines_after_rest: usize,
    /// Line feeds after a metadata block.
    pub newlines_after_metadata: usize,
    /// The least number of characters of a code fence.
    pub code_block_token_count: usize,
    /// The character of a code fence: a backtick or `~`.
    pub code_block_token: char,
    /// The marker of a bullet list: `*`, `-` or `+`.
    pub list_token: char,
    /// What is after the number of an ordered list: `.` or `)`.
    pub ordered_list_token: char,
    /// Whether the numbers of an ordered list go up, or all are the first one.
    pub increment_ordered_list_bullets: bool,
    /// The marker of emphasis: `*` or `_`.
    pub emphasis_token: char,
    /// The marker of strong emphasis: `**` or `__`.
    pub strong_token: &'a str,
    /// Whether superscripts and subscripts are written as HTML.
    pub use_html_for_super_sub_script: bool,
}

impl Default for Options<'_> {
    fn default() -> Self {
        Options {
            newlines_after_headline: 2,
            newlines_after_paragraph: 2,
            newlines_after_codeblock: 2,
            newlines_after_htmlblock: 1,
            newlines_after_table: 2,
            newlines_after_rule: 2,
            newlines_after_list: 2,
            newlines_after_blockquote: 2,
            newlines_after_rest: 1,
            newlines_after_metadata: 1,
            code_block_token_count: 4,
            code_block_token: '`',
            list_token: '*',
            ordered_list_token: '.',
            increment_ordered_list_bullets: false,
            emphasis_token: '*',
            strong_token: "**",
            use_html_for_super_sub_script: false,
        }
    }
}

impl Options<'_> {
    /// Checks that events can be written under these options and flags. The first problem is the error: flags, then tokens, then
    /// HTML for superscripts, then sizes in the order of the fields.
    pub fn validate(&self, parser_options: ParserOptions) -> Result<(), OptionsError> {
        let others = parser_options.difference(SUPPORTED_PARSER_OPTIONS);
        if !others.is_empty() {
            return Err(OptionsError::UnsupportedParserOptions(others));
        }
        for (field, is_valid) in [
            (
                "code_block_token",
                matches!(self.code_block_token, '`' | '~'),
            ),
            ("list_token", matches!(self.list_token, '*' | '-' | '+')),
            (
                "ordered_list_token",
                matches!(self.ordered_list_token, '.' | ')'),
            ),
            ("emphasis_token", matches!(self.emphasis_token, '*' | '_')),
            ("strong_token", matches!(self.strong_token, "**" | "__")),
        ] {
            if !is_valid {
                return Err(OptionsError::InvalidToken(field));
            }
        }
        if self.use_html_for_super_sub_script
            && parser_options
                .intersects(ParserOptions::ENABLE_SUPERSCRIPT | ParserOptions::ENABLE_SUBSCRIPT)
        {
            return Err(OptionsError::HtmlSuperSubscript);
        }
        match self
            .sizes()
            .iter()
            .find(|(_, size)| *size >= isize::MAX as usize)
        {
            Some((field, _)) => Err(OptionsError::SizeOverflow(field)),
            None => Ok(()),
        }
    }

    /// The punctuation that may get a backslash.
    pub fn special_characters(&self) -> Cow<'static, str> {
        let (base, own) = ("#\\_*<>`|[]", Options::default());
        if (
            self.code_block_token,
            self.list_token,
            self.emphasis_token,
            self.strong_token,
        ) == (
            own.code_block_token,
            own.list_token,
            own.emphasis_token,
            own.strong_token,
        ) {
            return base.into();
        }
        let (code, list, emphasis) = (self.code_block_token, self.list_token, self.emphasis_token);
        format!("{base}{code}{list}{emphasis}{}", self.strong_token).into()
    }

    fn sizes(&self) -> [(&'static str, usize); 11] {
        [
            ("newlines_after_headline", self.newlines_after_headline),
            ("newlines_after_paragraph", self.newlines_after_paragraph),
            ("newlines_after_codeblock", self.newlines_after_codeblock),
            ("newlines_after_htmlblock", self.newlines_after_htmlblock),
            ("newlines_after_table", self.newlines_after_table),
            ("newlines_after_rule", self.newlines_after_rule),
            ("newlines_after_list", self.newlines_after_list),
            ("newlines_after_blockquote", self.newlines_after_blockquote),
            ("newlines_after_rest", self.newlines_after_rest),
            ("newlines_after_metadata", self.newlines_after_metadata),
            ("code_block_token_count", self.code_block_token_count),
        ]
    }

    /// The options as JSON, a member for each field. The default ones are an empty text.
    pub(crate) fn to_json(self) -> String {
        if self == Options::default() {
            return String::new();
        }
        let sizes = self.sizes();
        let truths = [
            (
                "increment_ordered_list_bullets",
                self.increment_ordered_list_bullets,
            ),
            (
                "use_html_for_super_sub_script",
                self.use_html_for_super_sub_script,
            ),
        ];
        let tokens = [
            ("code_block_token", self.code_block_token),
            ("list_token", self.list_token),
            ("ordered_list_token", self.ordered_list_token),
            ("emphasis_token", self.emphasis_token),
        ];
        let mut members = vec![format!("\"strong_token\": {}", string(self.strong_token))];
        members.extend(sizes.iter().map(|(key, size)| format!("\"{key}\": {size}")));
        members.extend(
            truths
                .iter()
                .map(|(key, truth)| format!("\"{key}\": {truth}")),
        );
        members.extend(
            tokens
                .iter()
                .map(|(key, token)| format!("\"{key}\": {}", string(&token.to_string()))),
        );
        format!("{{{}}}", members.join(", "))
    }
}
