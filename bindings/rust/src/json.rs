//! Events as JSON, and strings of options.

use pulldown_cmark::{CodeBlockKind, CowStr, Event, HeadingLevel, LinkType, Tag, TagEnd};
use std::fmt::Write;

/// An event as JSON.
pub fn event(event: &Event<'_>) -> String {
    let mut text = String::new();
    put_event(&mut text, event);
    text
}

/// A text as a JSON string.
pub fn string(text: &str) -> String {
    let mut json = String::with_capacity(text.len() + 2);
    put_string(&mut json, text);
    json
}

fn put_string(out: &mut String, text: &str) {
    out.push('"');
    let mut begin = 0;
    for (at, byte) in text.bytes().enumerate() {
        if byte >= b' ' && byte != b'"' && byte != b'\\' {
            continue;
        }
        out.push_str(&text[begin..at]);
        begin = at + 1;
        match byte {
            b'"' => out.push_str("\\\""),
            b'\\' => out.push_str("\\\\"),
            b'\n' => out.push_str("\\n"),
            // A `String` refuses nothing.
            _ => {
                let _ = write!(out, "\\u{byte:04x}");
            }
        }
    }
    out.push_str(&text[begin..]);
    out.push('"');
}

fn put_tagged(out: &mut String, before: &str, text: &str, after: &str) {
    out.push_str(before);
    put_string(out, text);
    out.push_str(after);
}

fn put_optional(out: &mut String, text: &Option<CowStr<'_>>) {
    match text {
        Some(text) => put_string(out, text),
        None => out.push_str("null"),
    }
}

fn put_event(out: &mut String, event: &Event<'_>) {
    match event {
        Event::Start(tag) => {
            out.push_str("{\"Start\":");
            put_tag(out, tag);
            out.push('}');
        }
        Event::End(end) => {
            out.push_str("{\"End\":");
            put_end(out, *end);
            out.push('}');
        }
        Event::Text(text) => put_tagged(out, "{\"Text\":", text, "}"),
        Event::Code(text) => put_tagged(out, "{\"Code\":", text, "}"),
        Event::InlineMath(text) => put_tagged(out, "{\"InlineMath\":", text, "}"),
        Event::DisplayMath(text) => put_tagged(out, "{\"DisplayMath\":", text, "}"),
        Event::Html(text) => put_tagged(out, "{\"Html\":", text, "}"),
        Event::InlineHtml(text) => put_tagged(out, "{\"InlineHtml\":", text, "}"),
        Event::FootnoteReference(name) => put_tagged(out, "{\"FootnoteReference\":", name, "}"),
        Event::SoftBreak => out.push_str("\"SoftBreak\""),
        Event::HardBreak => out.push_str("\"HardBreak\""),
        Event::Rule => out.push_str("\"Rule\""),
        Event::TaskListMarker(true) => out.push_str("{\"TaskListMarker\":true}"),
        Event::TaskListMarker(false) => out.push_str("{\"TaskListMarker\":false}"),
    }
}

fn level(level: HeadingLevel) -> &'static str {
    [
        "", "\"H1\"", "\"H2\"", "\"H3\"", "\"H4\"", "\"H5\"", "\"H6\"",
    ][level as usize]
}

fn put_link(
    out: &mut String,
    name: &str,
    link_type: LinkType,
    dest_url: &str,
    title: &str,
    id: &str,
) {
    out.push_str(name);
    match link_type {
        LinkType::WikiLink { has_pothole } => {
            let _ = write!(out, "{{\"WikiLink\":{{\"has_pothole\":{has_pothole}}}}}");
        }
        LinkType::Inline => out.push_str("\"Inline\""),
        LinkType::Reference => out.push_str("\"Reference\""),
        LinkType::Shortcut => out.push_str("\"Shortcut\""),
        LinkType::Autolink => out.push_str("\"Autolink\""),
        _ => {
            let _ = write!(out, "\"{link_type:?}\"");
        }
    }
    put_tagged(out, ",\"dest_url\":", dest_url, "");
    put_tagged(out, ",\"title\":", title, "");
    put_tagged(out, ",\"id\":", id, "}}");
}

fn put_tag(out: &mut String, tag: &Tag<'_>) {
    match tag {
        Tag::Heading {
            level: depth,
            id,
            classes,
            attrs,
        } => {
            out.push_str("{\"Heading\":{\"level\":");
            out.push_str(level(*depth));
            out.push_str(",\"id\":");
            put_optional(out, id);
            out.push_str(",\"classes\":[");
            for (at, class) in classes.iter().enumerate() {
                if at > 0 {
                    out.push(',');
                }
                put_string(out, class);
            }
            out.push_str("],\"attrs\":[");
            for (at, (key, value)) in attrs.iter().enumerate() {
                out.push_str(if at > 0 { ",[" } else { "[" });
                put_string(out, key);
                out.push(',');
                put_optional(out, value);
                out.push(']');
            }
            out.push_str("]}}");
        }
        Tag::BlockQuote(None) => out.push_str("{\"BlockQuote\":null}"),
        Tag::BlockQuote(Some(kind)) => {
            let _ = write!(out, "{{\"BlockQuote\":\"{kind:?}\"}}");
        }
        Tag::CodeBlock(CodeBlockKind::Indented) => out.push_str("{\"CodeBlock\":\"Indented\"}"),
        Tag::CodeBlock(CodeBlockKind::Fenced(info)) => {
            put_tagged(out, "{\"CodeBlock\":{\"Fenced\":", info, "}}")
        }
        Tag::List(None) => out.push_str("{\"List\":null}"),
        Tag::List(Some(start)) => {
            let _ = write!(out, "{{\"List\":{start}}}");
        }
        Tag::FootnoteDefinition(name) => put_tagged(out, "{\"FootnoteDefinition\":", name, "}"),
        Tag::Table(alignments) => {
            out.push_str("{\"Table\":[");
            for (at, alignment) in alignments.iter().enumerate() {
                let _ = write!(out, "{}\"{alignment:?}\"", if at > 0 { "," } else { "" });
            }
            out.push_str("]}");
        }
        Tag::Link {
            link_type,
            dest_url,
            title,
            id,
        } => {
            put_link(
                out,
                "{\"Link\":{\"link_type\":",
                *link_type,
                dest_url,
                title,
                id,
            );
        }
        Tag::Image {
            link_type,
            dest_url,
            title,
            id,
        } => {
            put_link(
                out,
                "{\"Image\":{\"link_type\":",
                *link_type,
                dest_url,
                title,
                id,
            );
        }
        Tag::MetadataBlock(kind) => {
            let _ = write!(out, "{{\"MetadataBlock\":\"{kind:?}\"}}");
        }
        _ => put_end(out, tag.to_end()),
    }
}

fn put_end(out: &mut String, end: TagEnd) {
    match end {
        TagEnd::Heading(depth) => {
            out.push_str("{\"Heading\":");
            out.push_str(level(depth));
            out.push('}');
        }
        TagEnd::BlockQuote(None) => out.push_str("{\"BlockQuote\":null}"),
        TagEnd::BlockQuote(Some(kind)) => {
            let _ = write!(out, "{{\"BlockQuote\":\"{kind:?}\"}}");
        }
        TagEnd::List(true) => out.push_str("{\"List\":true}"),
        TagEnd::List(false) => out.push_str("{\"List\":false}"),
        TagEnd::MetadataBlock(kind) => {
            let _ = write!(out, "{{\"MetadataBlock\":\"{kind:?}\"}}");
        }
        TagEnd::Paragraph => out.push_str("\"Paragraph\""),
        TagEnd::Item => out.push_str("\"Item\""),
        TagEnd::Link => out.push_str("\"Link\""),
        TagEnd::CodeBlock => out.push_str("\"CodeBlock\""),
        TagEnd::TableCell => out.push_str("\"TableCell\""),
        _ => {
            let _ = write!(out, "\"{end:?}\"");
        }
    }
}
