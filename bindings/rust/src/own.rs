//! The library's own events of a text: as pulldown-cmark's types, and in place of those that pulldown-cmark spells otherwise.
//!
//! Both parsers find the same document in a text. They spell some events differently: labels over a line break, HTML in pieces
//! and its indentation. [`in_own_words`] gives unchanged events the library's spelling, so that they count as unchanged.

use crate::json;
use crate::value::{value_of, Value};
use pulldown_cmark::{
    Alignment, BlockQuoteKind, CodeBlockKind, CowStr, Event, HeadingLevel, LinkType,
    MetadataBlockKind, Tag, TagEnd,
};
use std::collections::{HashMap, VecDeque};
use std::ops::Range;

/// The JSON of events, with neighbouring texts joined, and the number that each one's first event had.
#[derive(Default)]
pub struct Merged {
    pub events: Vec<String>,
    pub numbers: Vec<usize>,
}

impl Merged {
    pub fn new<'e, 't: 'e>(events: impl Iterator<Item = &'e Event<'t>>) -> Merged {
        let mut found = Merged::default();
        for (number, event) in events.enumerate() {
            let text = json::event(event);
            match (found.events.last_mut(), text.strip_prefix(TEXT)) {
                (Some(last), Some(more)) if last.starts_with(TEXT) => {
                    last.truncate(last.len() - 2);
                    last.push_str(more);
                }
                _ => found.push(text, number),
            }
        }
        found
    }

    fn push(&mut self, event: String, number: usize) {
        self.events.push(event);
        self.numbers.push(number);
    }
}

const TEXT: &str = "{\"Text\":\"";

/// Whether an event is a piece of HTML or of text, of which two parsers may make several.
fn is_piece(event: &str) -> bool {
    ["{\"Html\":", "{\"InlineHtml\":", "{\"Text\":"]
        .iter()
        .any(|name| event.starts_with(name))
}

/// The JSON of a link or an image up to its label, and its label.
fn labelled(event: &str) -> Option<(&str, &str)> {
    let is_one =
        event.starts_with("{\"Start\":{\"Link\":") || event.starts_with("{\"Start\":{\"Image\":");
    let at = event.rfind(",\"id\":").filter(|_| is_one)?;
    Some(event.split_at(at))
}

/// What one parser spells otherwise than the other, in the order of the text.
#[derive(Default)]
struct Differences<'d> {
    /// The library's label for each of pulldown-cmark's.
    labels: HashMap<&'d str, VecDeque<&'d str>>,
    /// Pieces of pulldown-cmark and those of the library, by the first one.
    pieces: HashMap<&'d str, VecDeque<(&'d [String], &'d [String])>>,
}

/// The differences of two lists of one document, or `None` if they differ in more than labels and pieces.
fn differences<'d>(theirs: &'d [String], own: &'d [String]) -> Option<Differences<'d>> {
    let mut found = Differences::default();
    let (mut at, mut own_at) = (0, 0);
    while at < theirs.len() || own_at < own.len() {
        if theirs.get(at).is_some() && theirs.get(at) == own.get(own_at) {
            (at, own_at) = (at + 1, own_at + 1);
            continue;
        }
        let labels = theirs
            .get(at)
            .and_then(|it| labelled(it))
            .zip(own.get(own_at).and_then(|it| labelled(it)));
        if let Some(((before, label), (own_before, own_label))) = labels {
            if before != own_before {
                return None;
            }
            found.labels.entry(label).or_default().push_back(own_label);
            (at, own_at) = (at + 1, own_at + 1);
            continue;
        }
        let end = at + theirs[at..].iter().take_while(|it| is_piece(it)).count();
        let own_end = own_at + own[own_at..].iter().take_while(|it| is_piece(it)).count();
        let first = theirs.get(at).filter(|_| end > at)?;
        let pieces = (&theirs[at..end], &own[own_at..own_end]);
        found.pieces.entry(first).or_default().push_back(pieces);
        (at, own_at) = (end, own_end);
    }
    Some(found)
}

/// How many waiting pieces are compared with given ones.
const LOOKED_AT: usize = 8;

impl Differences<'_> {
    /// The library's label in place of pulldown-cmark's.
    fn own_label(&mut self, label: &str) -> Option<&str> {
        self.labels.get_mut(label)?.pop_front()
    }

    /// The library's pieces in place of those with which the given events begin, and how many these are.
    fn own_pieces(&mut self, given: &[String]) -> Option<(usize, &[String])> {
        let waiting = self.pieces.get_mut(given.first()?.as_str())?;
        let place = waiting
            .iter()
            .take(LOOKED_AT)
            .position(|it| given.starts_with(it.0))?;
        waiting
            .remove(place)
            .map(|(theirs, own)| (theirs.len(), own))
    }
}

/// The given events in the library's words: what is among them as pulldown-cmark spells it becomes what the library has.
/// `theirs` and `own` are the events of the source by both parsers.
pub fn in_own_words(given: Merged, theirs: &[String], own: &[String]) -> Merged {
    let Some(mut differences) = differences(theirs, own) else {
        return given;
    };
    let mut found = Merged::default();
    let mut at = 0;
    while let (Some(event), Some(number)) = (given.events.get(at), given.numbers.get(at)) {
        if let Some((before, label)) = labelled(event) {
            let own_label = differences.own_label(label).unwrap_or(label);
            found.push(format!("{before}{own_label}"), *number);
            at += 1;
        } else if let Some((count, pieces)) = differences.own_pieces(&given.events[at..]) {
            pieces
                .iter()
                .for_each(|piece| found.push(piece.clone(), *number));
            at += count;
        } else {
            found.push(event.clone(), *number);
            at += 1;
        }
    }
    found
}

fn level_of(value: &Value) -> Option<HeadingLevel> {
    use HeadingLevel::{H1, H2, H3, H4, H5, H6};
    [H1, H2, H3, H4, H5, H6]
        .into_iter()
        .find(|level| value.name() == Some(format!("H{}", *level as usize).as_str()))
}

fn quote_of(value: &Value) -> Option<Option<BlockQuoteKind>> {
    let Some(name) = value.name() else {
        return Some(None);
    };
    Some(Some(match name {
        "Note" => BlockQuoteKind::Note,
        "Tip" => BlockQuoteKind::Tip,
        "Important" => BlockQuoteKind::Important,
        "Warning" => BlockQuoteKind::Warning,
        "Caution" => BlockQuoteKind::Caution,
        _ => return None,
    }))
}

fn metadata_of(value: &Value) -> Option<MetadataBlockKind> {
    match value.name()? {
        "YamlStyle" => Some(MetadataBlockKind::YamlStyle),
        "PlusesStyle" => Some(MetadataBlockKind::PlusesStyle),
        _ => None,
    }
}

fn alignment_of(value: &Value) -> Option<Alignment> {
    match value.name()? {
        "None" => Some(Alignment::None),
        "Left" => Some(Alignment::Left),
        "Center" => Some(Alignment::Center),
        "Right" => Some(Alignment::Right),
        _ => None,
    }
}

fn link_type_of(value: &Value) -> Option<LinkType> {
    let (name, content) = value.named()?;
    Some(match name {
        "Inline" => LinkType::Inline,
        "Reference" => LinkType::Reference,
        "ReferenceUnknown" => LinkType::ReferenceUnknown,
        "Collapsed" => LinkType::Collapsed,
        "CollapsedUnknown" => LinkType::CollapsedUnknown,
        "Shortcut" => LinkType::Shortcut,
        "ShortcutUnknown" => LinkType::ShortcutUnknown,
        "Autolink" => LinkType::Autolink,
        "Email" => LinkType::Email,
        "WikiLink" => LinkType::WikiLink {
            has_pothole: content.part("has_pothole")?.truth()?,
        },
        _ => return None,
    })
}

fn attribute_of(value: &Value) -> Option<(CowStr<'static>, Option<CowStr<'static>>)> {
    match value {
        Value::List(items) => Some((items.first()?.text()?, items.get(1)?.text())),
        _ => None,
    }
}

fn heading_of(content: &Value) -> Option<Tag<'static>> {
    Some(Tag::Heading {
        level: level_of(content.part("level")?)?,
        id: content.part("id")?.text(),
        classes: content.part("classes")?.each(Value::text)?,
        attrs: content.part("attrs")?.each(attribute_of)?,
    })
}

fn target_of(name: &str, content: &Value) -> Option<Tag<'static>> {
    let link_type = link_type_of(content.part("link_type")?)?;
    let dest_url = content.part("dest_url")?.text()?;
    let title = content.part("title")?.text()?;
    let id = content.part("id")?.text()?;
    Some(match name {
        "Link" => Tag::Link {
            link_type,
            dest_url,
            title,
            id,
        },
        _ => Tag::Image {
            link_type,
            dest_url,
            title,
            id,
        },
    })
}

fn tag_of(value: &Value) -> Option<Tag<'static>> {
    let (name, content) = value.named()?;
    Some(match name {
        "Paragraph" => Tag::Paragraph,
        "Heading" => heading_of(content)?,
        "BlockQuote" => Tag::BlockQuote(quote_of(content)?),
        "CodeBlock" => Tag::CodeBlock(match content.part("Fenced") {
            Some(info) => CodeBlockKind::Fenced(info.text()?),
            None => CodeBlockKind::Indented,
        }),
        "HtmlBlock" => Tag::HtmlBlock,
        "List" => Tag::List(content.number()),
        "Item" => Tag::Item,
        "FootnoteDefinition" => Tag::FootnoteDefinition(content.text()?),
        "DefinitionList" => Tag::DefinitionList,
        "DefinitionListTitle" => Tag::DefinitionListTitle,
        "DefinitionListDefinition" => Tag::DefinitionListDefinition,
        "Table" => Tag::Table(content.each(alignment_of)?),
        "TableHead" => Tag::TableHead,
        "TableRow" => Tag::TableRow,
        "TableCell" => Tag::TableCell,
        "Emphasis" => Tag::Emphasis,
        "Strong" => Tag::Strong,
        "Strikethrough" => Tag::Strikethrough,
        "Superscript" => Tag::Superscript,
        "Subscript" => Tag::Subscript,
        "Link" | "Image" => target_of(name, content)?,
        "MetadataBlock" => Tag::MetadataBlock(metadata_of(content)?),
        _ => return None,
    })
}

/// The event that a value is, if it isn't an End.
fn event_of(value: &Value) -> Option<Event<'static>> {
    let (name, content) = value.named()?;
    Some(match name {
        "Start" => Event::Start(tag_of(content)?),
        "Text" => Event::Text(content.text()?),
        "Code" => Event::Code(content.text()?),
        "InlineMath" => Event::InlineMath(content.text()?),
        "DisplayMath" => Event::DisplayMath(content.text()?),
        "Html" => Event::Html(content.text()?),
        "InlineHtml" => Event::InlineHtml(content.text()?),
        "FootnoteReference" => Event::FootnoteReference(content.text()?),
        "SoftBreak" => Event::SoftBreak,
        "HardBreak" => Event::HardBreak,
        "Rule" => Event::Rule,
        "TaskListMarker" => Event::TaskListMarker(content.truth()?),
        _ => return None,
    })
}

/// The events of the library's JSON with their ranges, or `None` if it is none.
pub fn events_of(text: &str) -> Option<Vec<(Event<'static>, Range<usize>)>> {
    let Some(Value::List(pairs)) = value_of(text) else {
        return None;
    };
    let mut open: Vec<TagEnd> = Vec::new();
    let mut found = Vec::with_capacity(pairs.len());
    for pair in &pairs {
        let Value::List(parts) = pair else {
            return None;
        };
        let (value, place) = (parts.first()?, parts.get(1)?);
        let range = place.range()?;
        let event = match value.part("End") {
            Some(_) => Event::End(open.pop()?),
            None => event_of(value)?,
        };
        if let Event::Start(tag) = &event {
            open.push(tag.to_end());
        }
        found.push((event, range));
    }
    Some(found)
}
