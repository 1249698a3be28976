//! The definitions of links in a text, and texts with other ones.

use crate::error::Error;
use crate::json::string;
use crate::library;
use crate::options::written_flags;
use crate::value::{value_of, Value};
use pulldown_cmark::Options as ParserOptions;
use std::ops::Range;

/// A definition of links, such as `[label]: destination "title"`. Its ranges count bytes of the text.
#[derive(Clone, Debug, PartialEq, Eq)]
#[non_exhaustive]
pub struct Definition {
    /// Its label.
    pub label: String,
    /// Where it leads, without escapes and references.
    pub destination: String,
    /// Its title, without escapes and references; empty if it has none.
    pub title: String,
    /// Where it is.
    pub range: Range<usize>,
    /// Where its destination is.
    pub destination_range: Range<usize>,
    /// Where its title is; empty if it has none.
    pub title_range: Range<usize>,
    /// Whether a link or an image leads to it: of several definitions with one label, only the first counts.
    pub is_used: bool,
}

fn definition_of(value: &Value) -> Option<Definition> {
    let text = |key| Some(value.part(key)?.text()?.to_string());
    let range = |key| value.part(key)?.range();
    Some(Definition {
        label: text("label")?,
        destination: text("destination")?,
        title: text("title")?,
        range: range("range")?,
        destination_range: range("destination_range")?,
        title_range: range("title_range")?,
        is_used: value.part("used")?.truth()?,
    })
}

/// Returns the definitions of links in a text, used or not, in their order, as the library parses it.
///
/// Flags that aren't among [`SUPPORTED_PARSER_OPTIONS`](crate::SUPPORTED_PARSER_OPTIONS) are ignored. The only error is
/// [`Error::OutOfMemory`].
///
/// [`redefine`] gives them other destinations and titles.
pub fn definitions(text: &str, flags: ParserOptions) -> Result<Vec<Definition>, Error> {
    let json = library::definitions(text, written_flags(flags).bits()).map_err(Error::from_code)?;
    let found = value_of(&json).and_then(|list| list.each(definition_of));
    Ok(found.expect("the library writes the JSON of definitions"))
}

/// Returns a text whose definitions of links have the destinations and titles that are given. Those not given stay.
///
/// The definitions are some of those that [`definitions`] returns for the source under these flags. A definition is named by its
/// label and its range. Links by the label of a changed one follow, all else parses as before, and all other bytes stay.
///
/// It fails if a definition is none of the source ([`Error::NoDefinition`]), if no such text was found ([`Error::Misread`]), or if
/// memory runs out.
///
/// ```
/// use pulldown_cmark::Options;
///
/// let source = "[a]\n\n[a]: /b\n[d]: /e\n";
/// let mut found = tocmark::definitions(source, Options::empty())?;
/// for it in &mut found {
///     it.destination = "/new".to_string();
/// }
/// let text = tocmark::redefine(source, &found, Options::empty())?;
/// assert_eq!(text, "[a]\n\n[a]: /new\n[d]: /new\n");
/// # Ok::<(), tocmark::Error>(())
/// ```
pub fn redefine(
    source: &str,
    definitions: &[Definition],
    flags: ParserOptions,
) -> Result<String, Error> {
    let all: Vec<String> = definitions.iter().map(json_of).collect();
    let json = format!("[{}]", all.join(","));
    library::redefine(&json, source, written_flags(flags).bits()).map_err(|(code, number, line)| {
        match code {
            -16 => Error::Misread(line),
            -19 => Error::NoDefinition(number),
            _ => Error::from_code(code),
        }
    })
}

/// The JSON that names a definition, and says what it is to be.
fn json_of(it: &Definition) -> String {
    format!(
        "{{\"label\":{},\"destination\":{},\"title\":{},\"range\":{{\"start\":{},\"end\":{}}}}}",
        string(&it.label),
        string(&it.destination),
        string(&it.title),
        it.range.start,
        it.range.end
    )
}
