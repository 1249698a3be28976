//! Events in the packed form that `tocmark.h` describes, appended to one list of bytes.

use pulldown_cmark::{
    Alignment, BlockQuoteKind, CodeBlockKind, CowStr, Event, HeadingLevel, LinkType,
    MetadataBlockKind, Tag, TagEnd,
};
use std::ops::Range;

/// A list of events with their ranges, as it grows.
#[derive(Clone, Debug, Default)]
pub struct Packed {
    bytes: Vec<u8>,
}

impl Packed {
    pub fn push(&mut self, event: &Event<'_>, range: Option<Range<usize>>) {
        let bytes = &mut self.bytes;
        match range {
            Some(Range { start, end }) => {
                bytes.push(1);
                put_number(bytes, start as u64);
                put_number(bytes, end as u64);
            }
            None => bytes.push(0),
        }
        put_event(bytes, event);
    }

    pub fn as_bytes(&self) -> &[u8] {
        &self.bytes
    }
}

fn put_number(bytes: &mut Vec<u8>, number: u64) {
    bytes.extend_from_slice(&number.to_le_bytes());
}

fn put_text(bytes: &mut Vec<u8>, text: &str) {
    bytes.reserve(8 + text.len());
    put_number(bytes, text.len() as u64);
    bytes.extend_from_slice(text.as_bytes());
}

/// What may be missing: 0, or 1 and the value.
fn put_option<T>(bytes: &mut Vec<u8>, value: Option<T>, put: impl Fn(&mut Vec<u8>, T)) {
    match value {
        None => bytes.push(0),
        Some(value) => {
            bytes.push(1);
            put(bytes, value);
        }
    }
}

fn put_optional_text(bytes: &mut Vec<u8>, text: &Option<CowStr<'_>>) {
    put_option(bytes, text.as_deref(), put_text);
}

fn put_text_event(bytes: &mut Vec<u8>, number: u8, text: &str) {
    bytes.push(number);
    put_text(bytes, text);
}

fn put_event(bytes: &mut Vec<u8>, event: &Event<'_>) {
    match event {
        Event::Start(tag) => {
            bytes.extend_from_slice(&[0, container(tag.to_end())]);
            put_tag_parts(bytes, tag);
        }
        Event::End(end) => {
            bytes.extend_from_slice(&[1, container(*end)]);
            put_end_part(bytes, *end);
        }
        Event::SoftBreak => bytes.push(2),
        Event::HardBreak => bytes.push(3),
        Event::Rule => bytes.push(4),
        Event::TaskListMarker(checked) => bytes.extend_from_slice(&[5, u8::from(*checked)]),
        Event::Text(text) => put_text_event(bytes, 6, text),
        Event::Code(text) => put_text_event(bytes, 7, text),
        Event::InlineMath(text) => put_text_event(bytes, 8, text),
        Event::DisplayMath(text) => put_text_event(bytes, 9, text),
        Event::Html(text) => put_text_event(bytes, 10, text),
        Event::InlineHtml(text) => put_text_event(bytes, 11, text),
        Event::FootnoteReference(name) => put_text_event(bytes, 12, name),
    }
}

/// The number of a container.
fn container(end: TagEnd) -> u8 {
    match end {
        TagEnd::Paragraph => 0,
        TagEnd::HtmlBlock => 1,
        TagEnd::Item => 2,
        TagEnd::DefinitionList => 3,
        TagEnd::DefinitionListTitle => 4,
        TagEnd::DefinitionListDefinition => 5,
        TagEnd::TableHead => 6,
        TagEnd::TableRow => 7,
        TagEnd::TableCell => 8,
        TagEnd::Emphasis => 9,
        TagEnd::Strong => 10,
        TagEnd::Strikethrough => 11,
        TagEnd::Superscript => 12,
        TagEnd::Subscript => 13,
        TagEnd::CodeBlock => 14,
        TagEnd::FootnoteDefinition => 15,
        TagEnd::Table => 16,
        TagEnd::Link => 17,
        TagEnd::Image => 18,
        TagEnd::Heading(_) => 19,
        TagEnd::BlockQuote(_) => 20,
        TagEnd::List(_) => 21,
        TagEnd::MetadataBlock(_) => 22,
    }
}

fn put_end_part(bytes: &mut Vec<u8>, end: TagEnd) {
    match end {
        TagEnd::Heading(level) => put_level(bytes, level),
        TagEnd::BlockQuote(kind) => put_option(bytes, kind, put_quote),
        TagEnd::List(ordered) => bytes.push(u8::from(ordered)),
        TagEnd::MetadataBlock(kind) => put_metadata(bytes, kind),
        _ => {}
    }
}

fn put_tag_parts(bytes: &mut Vec<u8>, tag: &Tag<'_>) {
    match tag {
        Tag::Heading {
            level,
            id,
            classes,
            attrs,
        } => {
            put_level(bytes, *level);
            put_optional_text(bytes, id);
            put_number(bytes, classes.len() as u64);
            for class in classes {
                put_text(bytes, class);
            }
            put_number(bytes, attrs.len() as u64);
            for (key, value) in attrs {
                put_text(bytes, key);
                put_optional_text(bytes, value);
            }
        }
        Tag::BlockQuote(kind) => put_option(bytes, *kind, put_quote),
        Tag::CodeBlock(CodeBlockKind::Indented) => bytes.push(0),
        Tag::CodeBlock(CodeBlockKind::Fenced(info)) => put_text_event(bytes, 1, info),
        Tag::List(start) => put_option(bytes, *start, put_number),
        Tag::FootnoteDefinition(name) => put_text(bytes, name),
        Tag::Table(alignments) => {
            put_number(bytes, alignments.len() as u64);
            bytes.extend(alignments.iter().map(alignment));
        }
        Tag::Link {
            link_type,
            dest_url,
            title,
            id,
        }
        | Tag::Image {
            link_type,
            dest_url,
            title,
            id,
        } => {
            bytes.push(link(*link_type));
            put_text(bytes, dest_url);
            put_text(bytes, title);
            put_text(bytes, id);
        }
        Tag::MetadataBlock(kind) => put_metadata(bytes, *kind),
        _ => {}
    }
}

fn put_level(bytes: &mut Vec<u8>, level: HeadingLevel) {
    bytes.push(level as u8);
}

fn put_quote(bytes: &mut Vec<u8>, kind: BlockQuoteKind) {
    bytes.push(match kind {
        BlockQuoteKind::Note => 0,
        BlockQuoteKind::Tip => 1,
        BlockQuoteKind::Important => 2,
        BlockQuoteKind::Warning => 3,
        BlockQuoteKind::Caution => 4,
    });
}

fn put_metadata(bytes: &mut Vec<u8>, kind: MetadataBlockKind) {
    bytes.push(match kind {
        MetadataBlockKind::YamlStyle => 0,
        MetadataBlockKind::PlusesStyle => 1,
    });
}

fn alignment(alignment: &Alignment) -> u8 {
    match alignment {
        Alignment::None => 0,
        Alignment::Left => 1,
        Alignment::Center => 2,
        Alignment::Right => 3,
    }
}

fn link(link_type: LinkType) -> u8 {
    match link_type {
        LinkType::Inline => 0,
        LinkType::Reference => 1,
        LinkType::ReferenceUnknown => 2,
        LinkType::Collapsed => 3,
        LinkType::CollapsedUnknown => 4,
        LinkType::Shortcut => 5,
        LinkType::ShortcutUnknown => 6,
        LinkType::Autolink => 7,
        LinkType::Email => 8,
        LinkType::WikiLink { has_pothole: false } => 9,
        LinkType::WikiLink { has_pothole: true } => 10,
    }
}
