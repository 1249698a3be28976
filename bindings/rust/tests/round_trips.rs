//! Texts that are parsed by pulldown-cmark, written, and parsed again. They aren't compiled over the stand-in, which has no parser.

#![cfg(not(stand_in))]

use pulldown_cmark::{CodeBlockKind, Event, Options as ParserOptions, Parser, Tag, TagEnd};
use tocmark::{
    calculate_code_block_token_count, cmark, cmark_with_options, cmark_with_source_range, rewrite,
    Error, Options,
};

fn written(text: &str, flags: ParserOptions) -> String {
    let mut output = String::new();
    cmark(Parser::new_ext(text, flags), &mut output, flags).unwrap();
    output
}

fn events(text: &str, flags: ParserOptions) -> Vec<Event<'_>> {
    let found = Parser::new_ext(text, flags);
    pulldown_cmark::TextMergeStream::new(found).collect()
}

#[test]
fn every_container_and_leaf_is_written() {
    let flags = ParserOptions::ENABLE_TABLES
        | ParserOptions::ENABLE_FOOTNOTES
        | ParserOptions::ENABLE_STRIKETHROUGH
        | ParserOptions::ENABLE_TASKLISTS;
    let text = "# A *b* **c** ~~d~~ `e`\n\n> f\\\n> g\n\n* h\n\n  1. [i](/j \"k\") ![l](m)\n\n- [x] n\n\n```rust\nlet o;\n```\n\n\
                <p>\n\n| q | r |\n|---|:-:|\n| s | <t> |\n\nu[^v]\n\n[^v]: w\n\n---\n\n    x\n\n<http://y> \"\\z\" é\n";
    let output = written(text, flags);
    assert_eq!(events(&output, flags), events(text, flags));
}

#[test]
fn options_are_taken() {
    let options = Options {
        list_token: '+',
        strong_token: "__",
        ..Options::default()
    };
    let mut output = String::new();
    cmark_with_options(
        Parser::new("* **a**"),
        &mut output,
        ParserOptions::empty(),
        options,
    )
    .unwrap();
    assert_eq!(output, "+ __a__");
}

#[test]
fn texts_stand_as_in_the_source() {
    let source = "a &eacute; <b";
    let pairs = Parser::new(source)
        .into_offset_iter()
        .map(|(event, range)| (event, Some(range)));
    let mut output = String::new();
    cmark_with_source_range(pairs, source, &mut output, ParserOptions::empty()).unwrap();
    assert_eq!(output, source);
}

#[test]
fn errors_are_told_apart() {
    let none = ParserOptions::empty();
    let mut output = String::new();
    let alone = [Event::End(TagEnd::Paragraph)];
    assert!(matches!(
        cmark(alone.iter(), &mut output, none),
        Err(Error::UnexpectedEvent)
    ));
    let options = Options {
        list_token: 'x',
        ..Options::default()
    };
    assert!(matches!(
        cmark_with_options(alone.iter(), &mut output, none, options),
        Err(Error::InvalidOptions(_))
    ));
    let ranged = [(Event::Rule, Some(2..9))];
    assert!(matches!(
        cmark_with_source_range(ranged, "---", &mut output, none),
        Err(Error::InvalidSourceRange)
    ));
    let struck = [
        Event::Start(Tag::Paragraph),
        Event::Start(Tag::Strikethrough),
        Event::Text("a".into()),
        Event::End(TagEnd::Strikethrough),
        Event::End(TagEnd::Paragraph),
    ];
    assert!(matches!(
        cmark(struck.iter(), &mut output, none),
        Err(Error::Unrepresentable)
    ));
    assert_eq!(output, "");
}

#[test]
fn fences_are_counted() {
    let code = |text: &'static str| {
        let block = Tag::CodeBlock(CodeBlockKind::Indented);
        calculate_code_block_token_count([
            Event::Start(block),
            Event::Text(text.into()),
            Event::End(TagEnd::CodeBlock),
        ])
    };
    assert_eq!(code("``"), None);
    assert_eq!(code("```"), Some(4));
    assert_eq!(code("a ~~~~~ b"), Some(6));
    assert_eq!(
        calculate_code_block_token_count([Event::Text("````".into())]),
        None
    );
}

#[test]
fn a_destination_is_changed_and_nothing_else() {
    let source = "---\ntitle:  x\n---\n\n*  a [b](/old)\n\n\n|c|\n|-|\n|~~d~~|\n";
    let flags = ParserOptions::ENABLE_TABLES
        | ParserOptions::ENABLE_STRIKETHROUGH
        | ParserOptions::ENABLE_YAML_STYLE_METADATA_BLOCKS;
    let events = Parser::new_ext(source, flags).map(|event| match event {
        Event::Start(Tag::Link {
            link_type,
            title,
            id,
            ..
        }) => Event::Start(Tag::Link {
            link_type,
            dest_url: "/new".into(),
            title,
            id,
        }),
        event => event,
    });
    let output = rewrite(source, events, flags, Options::default()).unwrap();
    assert_eq!(output, source.replace("/old", "/new"));
}

/// What the library and pulldown-cmark spell differently.
const SPELLED_OTHERWISE: [&str; 6] = [
    "a [b\nc] d\n\n[b c]: x\n",
    "*  a ![b\n   c][] [b\n   c]\n\n[b c]: x\n",
    "  <p>\nx\n\n   <!-- a\n  b -->\n",
    "*  a <img b=\"c\"\n   d=\"e\"/> f\n",
    "<p>\r\na\r\n</p>\r\n\r\n*  b\r\n",
    "> <p>\n>   a\n\n*  b &amp; c\n",
];

#[test]
fn an_unchanged_document_stays() {
    let none = ParserOptions::empty();
    for source in SPELLED_OTHERWISE {
        let events = Parser::new(source);
        assert_eq!(
            rewrite(source, events, none, Options::default()).unwrap(),
            source
        );
    }
}

#[test]
fn all_but_a_change_stays() {
    let none = ParserOptions::empty();
    for source in SPELLED_OTHERWISE {
        let source = format!("[link](/old)\n\n{source}\n[link](/old) again\n");
        let events = Parser::new(&source).map(|mut event| {
            if let Event::Start(Tag::Link { dest_url, .. }) = &mut event {
                if &**dest_url == "/old" {
                    *dest_url = "/new".into();
                }
            }
            event
        });
        let output = rewrite(&source, events, none, Options::default()).unwrap();
        assert_eq!(output, source.replace("/old", "/new"));
    }
}

#[test]
fn a_place_counts_the_given_events() {
    let source = "a &amp; b [c\nd]\n\nx\n\n[c d]: y\n";
    let none = ParserOptions::empty();
    let events: Vec<Event<'_>> = Parser::new(source)
        .chain([Event::Start(Tag::Paragraph)])
        .collect();
    let fault = rewrite(source, events.iter(), none, Options::default()).unwrap_err();
    assert!(
        fault
            .to_string()
            .starts_with(&format!("event {}", events.len() - 1)),
        "{fault}"
    );
}

#[test]
fn the_library_reads_what_the_parser_reads() {
    let flags = ParserOptions::all() & tocmark::SUPPORTED_PARSER_OPTIONS;
    let text = "# a {#b .c d=e}\n\n> [!NOTE]\n> f[^g] $h$ ~i~ ^j^\n\n[^g]: k\n\n1. [x] l\n\nm\n: n\n\n|o|p|\n|:-|-|\n|`q`|[r](s \"t\")|\n\n\
                ![u][] <v@w.x> <https://y.z>\\\n***A***\n\n[u]: /B\n\n```C\nD\n```\n\n---\n";
    let found: Vec<Event<'_>> = tocmark::read(text, flags)
        .unwrap()
        .into_iter()
        .map(|(event, _)| event)
        .collect();
    let found: Vec<Event<'_>> = pulldown_cmark::TextMergeStream::new(found.into_iter()).collect();
    assert_eq!(found, events(text, flags));
}
