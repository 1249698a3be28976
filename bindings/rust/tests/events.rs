//! Events that are written by hand: no parser is needed, so these tests run over a stand-in of pulldown-cmark's types, too.

use pulldown_cmark::{
    Alignment, BlockQuoteKind, CodeBlockKind, Event, HeadingLevel, LinkType, MetadataBlockKind,
    Options as ParserOptions, Tag, TagEnd,
};
use std::fmt;
use tocmark::{
    calculate_code_block_token_count, cmark, cmark_with_options, cmark_with_source_range,
    cmark_with_source_range_and_options, compare, definitions, edit, format, read, redefine,
    rewrite, same, write, Allowed, Bullet, Delimiter, Error, Fault, FormatOptions, Kind,
    ListIndent, Marker, Options, OptionsError, Place, Progress, State, Tables, Wrap,
    DEFAULT_CODE_BLOCK_TOKEN_COUNT, SUPPORTED_PARSER_OPTIONS,
};

type Events = Vec<Event<'static>>;

const NONE: ParserOptions = ParserOptions::empty();

/// A container with what is in it.
fn around<const N: usize>(tag: Tag<'static>, inner: [Events; N]) -> Events {
    let end = Event::End(tag.to_end());
    let mut events = vec![Event::Start(tag)];
    events.extend(inner.into_iter().flatten());
    events.push(end);
    events
}

fn one(event: Event<'static>) -> Events {
    vec![event]
}

fn text(text: &'static str) -> Events {
    one(Event::Text(text.into()))
}

fn paragraph<const N: usize>(inner: [Events; N]) -> Events {
    around(Tag::Paragraph, inner)
}

fn fenced(info: &'static str) -> Tag<'static> {
    Tag::CodeBlock(CodeBlockKind::Fenced(info.into()))
}

fn heading(level: HeadingLevel) -> Tag<'static> {
    Tag::Heading {
        level,
        id: None,
        classes: Vec::new(),
        attrs: Vec::new(),
    }
}

fn link(
    link_type: LinkType,
    dest_url: &'static str,
    title: &'static str,
    id: &'static str,
) -> Tag<'static> {
    Tag::Link {
        link_type,
        dest_url: dest_url.into(),
        title: title.into(),
        id: id.into(),
    }
}

fn written(events: &[Event<'static>], flags: ParserOptions) -> String {
    let mut output = String::new();
    cmark(events.iter(), &mut output, flags).unwrap();
    output
}

fn written_with(events: &[Event<'static>], flags: ParserOptions, options: Options<'_>) -> String {
    let mut output = String::new();
    cmark_with_options(events.iter(), &mut output, flags, options).unwrap();
    output
}

#[test]
fn nothing_is_written_of_no_events() {
    assert_eq!(written(&[], NONE), "");
}

#[test]
fn each_leaf_is_written() {
    let leaves = [
        (Event::Text("x".into()), NONE, "axb"),
        (Event::Code("x".into()), NONE, "a`x`b"),
        (
            Event::InlineMath("x".into()),
            ParserOptions::ENABLE_MATH,
            "a$x$b",
        ),
        (
            Event::DisplayMath("x".into()),
            ParserOptions::ENABLE_MATH,
            "a$$x$$b",
        ),
        (Event::InlineHtml("<i>".into()), NONE, "a<i>b"),
        (
            Event::FootnoteReference("n".into()),
            ParserOptions::ENABLE_FOOTNOTES,
            "a[^n]b",
        ),
        (Event::SoftBreak, NONE, "a\nb"),
        (Event::HardBreak, NONE, "a  \nb"),
    ];
    for (leaf, flags, wanted) in leaves {
        let events = paragraph([text("a"), one(leaf), text("b")]);
        assert_eq!(written(&events, flags), wanted);
    }
    let ruled = [
        paragraph([text("a")]),
        one(Event::Rule),
        paragraph([text("b")]),
    ];
    assert_eq!(written(&ruled.concat(), NONE), "a\n\n---\n\nb");
}

#[test]
fn texts_are_escaped() {
    let texts = [
        ("*a* \"q\" \u{e9}", "\\*a\\* \"q\" \u{e9}"),
        ("a\\b", "a\\b"),
        ("a\\", "a\\\\"),
    ];
    for (inner, wanted) in texts {
        assert_eq!(written(&paragraph([text(inner)]), NONE), wanted);
    }
}

#[test]
fn each_level_of_a_heading_is_written() {
    let levels = [
        (HeadingLevel::H1, "# a"),
        (HeadingLevel::H2, "## a"),
        (HeadingLevel::H3, "### a"),
        (HeadingLevel::H4, "#### a"),
        (HeadingLevel::H5, "##### a"),
        (HeadingLevel::H6, "###### a"),
    ];
    for (level, wanted) in levels {
        assert_eq!(written(&around(heading(level), [text("a")]), NONE), wanted);
    }
    let attributes = Tag::Heading {
        level: HeadingLevel::H1,
        id: Some("x".into()),
        classes: vec!["c".into(), "d".into()],
        attrs: vec![("k".into(), Some("v".into())), ("l".into(), None)],
    };
    assert_eq!(
        written(
            &around(attributes, [text("T")]),
            ParserOptions::ENABLE_HEADING_ATTRIBUTES
        ),
        "# T { #x .c .d k=v l }"
    );
}

#[test]
fn each_kind_of_quote_is_written() {
    let kinds = [
        (None, "\n > \n > a"),
        (Some(BlockQuoteKind::Note), "\n > [!NOTE]\n > a"),
        (Some(BlockQuoteKind::Tip), "\n > [!TIP]\n > a"),
        (Some(BlockQuoteKind::Important), "\n > [!IMPORTANT]\n > a"),
        (Some(BlockQuoteKind::Warning), "\n > [!WARNING]\n > a"),
        (Some(BlockQuoteKind::Caution), "\n > [!CAUTION]\n > a"),
    ];
    for (kind, wanted) in kinds {
        let events = around(Tag::BlockQuote(kind), [paragraph([text("a")])]);
        assert_eq!(written(&events, ParserOptions::ENABLE_GFM), wanted);
    }
}

#[test]
fn code_and_html_blocks_are_written() {
    let blocks = [
        (fenced(""), "\n````\nx\n````"),
        (fenced("rust"), "\n````rust\nx\n````"),
        (fenced("a`b"), "\n~~~~a`b\nx\n~~~~"),
        (Tag::CodeBlock(CodeBlockKind::Indented), "\n    x\n"),
    ];
    for (tag, wanted) in blocks {
        assert_eq!(written(&around(tag, [text("x\n")]), NONE), wanted);
    }
    let html = around(Tag::HtmlBlock, [one(Event::Html("<b>\n".into()))]);
    assert_eq!(
        written(&[html, paragraph([text("a")])].concat(), NONE),
        "<b>\n\na"
    );
}

#[test]
fn lists_are_written() {
    let list = |start| {
        around(
            Tag::List(start),
            [
                around(Tag::Item, [text("a")]),
                around(Tag::Item, [text("b")]),
            ],
        )
    };
    assert_eq!(written(&list(None), NONE), "* a\n* b");
    assert_eq!(written(&list(Some(7)), NONE), "7. a\n7. b");
    let tasks = around(
        Tag::List(None),
        [
            around(Tag::Item, [one(Event::TaskListMarker(true)), text("a")]),
            around(Tag::Item, [one(Event::TaskListMarker(false)), text("b")]),
        ],
    );
    assert_eq!(
        written(&tasks, ParserOptions::ENABLE_TASKLISTS),
        "* [x] a\n* [ ] b"
    );
}

#[test]
fn tables_are_written() {
    let row = |tag, first, second| {
        around(
            tag,
            [
                around(Tag::TableCell, [text(first)]),
                around(Tag::TableCell, [text(second)]),
            ],
        )
    };
    let table = |alignments| {
        around(
            Tag::Table(alignments),
            [row(Tag::TableHead, "ab", "c"), row(Tag::TableRow, "1", "2")],
        )
    };
    let flags = ParserOptions::ENABLE_TABLES;
    assert_eq!(
        written(&table(vec![Alignment::Left, Alignment::None]), flags),
        "|ab|c|\n|:-|-|\n|1|2|"
    );
    assert_eq!(
        written(&table(vec![Alignment::Center, Alignment::Right]), flags),
        "|ab|c|\n|:-:|-:|\n|1|2|"
    );
}

#[test]
fn footnotes_and_definitions_are_written() {
    let footnote = around(
        Tag::FootnoteDefinition("n".into()),
        [paragraph([text("a")])],
    );
    assert_eq!(
        written(&footnote, ParserOptions::ENABLE_FOOTNOTES),
        "[^n]: a"
    );
    let definitions = around(
        Tag::DefinitionList,
        [
            around(Tag::DefinitionListTitle, [text("t")]),
            around(Tag::DefinitionListDefinition, [text("d")]),
        ],
    );
    assert_eq!(written(&definitions, NONE), "t\n: d\n");
}

#[test]
fn each_kind_of_metadata_is_written() {
    let kinds = [
        (MetadataBlockKind::YamlStyle, "---\na: 1\n---\n\nb"),
        (MetadataBlockKind::PlusesStyle, "+++\na: 1\n+++\n\nb"),
    ];
    for (kind, wanted) in kinds {
        let block = around(Tag::MetadataBlock(kind), [text("a: 1\n")]);
        let events = [block, paragraph([text("b")])].concat();
        assert_eq!(written(&events, NONE), wanted);
    }
}

#[test]
fn each_span_is_written() {
    let spans = [
        (Tag::Emphasis, NONE, "*a*"),
        (Tag::Strong, NONE, "**a**"),
        (
            Tag::Strikethrough,
            ParserOptions::ENABLE_STRIKETHROUGH,
            "~~a~~",
        ),
        (Tag::Superscript, ParserOptions::ENABLE_SUPERSCRIPT, "^a^"),
        (Tag::Subscript, ParserOptions::ENABLE_SUBSCRIPT, "~a~"),
    ];
    for (tag, flags, wanted) in spans {
        let events = paragraph([around(tag, [text("a")])]);
        assert_eq!(written(&events, flags), wanted);
    }
}

#[test]
fn links_and_images_are_written() {
    let links = [
        (link(LinkType::Inline, "/u", "", ""), "[t](/u)"),
        (link(LinkType::Inline, "/u", "v", ""), "[t](/u \"v\")"),
        (
            link(LinkType::Reference, "/u", "", "a"),
            "[t][a]\n\n[a]: /u",
        ),
        (link(LinkType::Collapsed, "/u", "", "t"), "[t][]\n\n[t]: /u"),
        (link(LinkType::Shortcut, "/u", "", "t"), "[t]\n\n[t]: /u"),
    ];
    for (tag, wanted) in links {
        assert_eq!(
            written(&paragraph([around(tag, [text("t")])]), NONE),
            wanted
        );
    }
    let written_inline = [
        LinkType::ReferenceUnknown,
        LinkType::CollapsedUnknown,
        LinkType::ShortcutUnknown,
        LinkType::WikiLink { has_pothole: false },
        LinkType::WikiLink { has_pothole: true },
    ];
    for link_type in written_inline {
        let events = paragraph([around(link(link_type, "/u", "", "a"), [text("t")])]);
        assert_eq!(written(&events, NONE), "[t](/u)");
    }
    let automatic = around(
        link(LinkType::Autolink, "http://y", "", ""),
        [text("http://y")],
    );
    assert_eq!(written(&paragraph([automatic]), NONE), "<http://y>");
    let mail = around(link(LinkType::Email, "a@b.c", "", ""), [text("a@b.c")]);
    assert_eq!(written(&paragraph([mail]), NONE), "<a@b.c>");
    let image = Tag::Image {
        link_type: LinkType::Inline,
        dest_url: "/i".into(),
        title: "".into(),
        id: "".into(),
    };
    assert_eq!(
        written(&paragraph([around(image, [text("t")])]), NONE),
        "![t](/i)"
    );
}

#[test]
fn options_are_taken() {
    let item = around(Tag::Item, [around(Tag::Strong, [text("a")])]);
    let events = around(Tag::List(None), [item]);
    let options = Options {
        list_token: '+',
        strong_token: "__",
        ..Options::default()
    };
    assert_eq!(written_with(&events, NONE, options), "+ __a__");

    let item = || around(Tag::Item, [text("a")]);
    let numbered = around(Tag::List(Some(1)), [item(), item()]);
    let options = Options {
        ordered_list_token: ')',
        increment_ordered_list_bullets: true,
        ..Options::default()
    };
    assert_eq!(written_with(&numbered, NONE, options), "1) a\n2) a");

    let title = around(heading(HeadingLevel::H1), [text("a")]);
    let code = around(fenced(""), [text("x\n")]);
    let emphasis = paragraph([around(Tag::Emphasis, [text("b")])]);
    let options = Options {
        newlines_after_headline: 1,
        code_block_token: '~',
        code_block_token_count: 3,
        emphasis_token: '_',
        ..Options::default()
    };
    assert_eq!(
        written_with(&[title, emphasis].concat(), NONE, options),
        "# a\n_b_"
    );
    assert_eq!(written_with(&code, NONE, options), "\n~~~\nx\n~~~");
}

#[test]
fn texts_stand_as_in_the_source() {
    let source = "a &eacute; b";
    let pairs = || {
        [
            (Event::Start(Tag::Paragraph), Some(0..12)),
            (Event::Text("a ".into()), Some(0..2)),
            (Event::Text("\u{e9}".into()), Some(2..10)),
            (Event::Text(" b".into()), Some(10..12)),
            (Event::End(TagEnd::Paragraph), Some(0..12)),
        ]
    };
    let mut output = String::new();
    let state = cmark_with_source_range(pairs(), source, &mut output, NONE).unwrap();
    assert_eq!(output, source);
    let mut state: State = state;
    let more = state.process([Event::Rule], String::new());
    assert!(matches!(more, Err(Error::Finished)));
    let mut output = String::new();
    cmark_with_source_range_and_options(pairs(), "", &mut output, NONE, Options::default())
        .unwrap();
    assert_eq!(output, "a \u{e9} b");
}

#[test]
fn errors_are_told_apart() {
    let mut output = String::new();
    let alone = [Event::End(TagEnd::Paragraph)];
    assert!(matches!(
        cmark(alone.iter(), &mut output, NONE),
        Err(Error::UnexpectedEvent)
    ));
    let cell = around(Tag::TableCell, []);
    assert!(matches!(
        cmark(cell.iter(), &mut output, NONE),
        Err(Error::UnexpectedEvent)
    ));
    let options = Options {
        list_token: 'x',
        ..Options::default()
    };
    assert!(matches!(
        cmark_with_options(alone.iter(), &mut output, NONE, options),
        Err(Error::InvalidOptions(_))
    ));
    let raised = paragraph([around(Tag::Superscript, [text("a")])]);
    let options = Options {
        use_html_for_super_sub_script: true,
        ..Options::default()
    };
    let superscript = ParserOptions::ENABLE_SUPERSCRIPT;
    assert!(matches!(
        cmark_with_options(raised.iter(), &mut output, superscript, options),
        Err(Error::InvalidOptions(_))
    ));
    assert!(matches!(
        cmark_with_options(raised.iter(), &mut output, NONE, options),
        Err(Error::Unrepresentable)
    ));
    for range in [2..9, 1..4] {
        let ranged = [(Event::Rule, Some(range))];
        assert!(matches!(
            cmark_with_source_range(ranged, "---", &mut output, NONE),
            Err(Error::InvalidSourceRange)
        ));
    }
    let struck = paragraph([around(Tag::Strikethrough, [text("a")])]);
    assert!(matches!(
        cmark(struck.iter(), &mut output, NONE),
        Err(Error::Unrepresentable)
    ));
    assert_eq!(output, "");
}

/// A writer that takes nothing.
struct Refusing;

impl fmt::Write for Refusing {
    fn write_str(&mut self, _: &str) -> fmt::Result {
        Err(fmt::Error)
    }
}

#[test]
fn a_writer_that_refuses_is_told() {
    assert!(matches!(
        cmark(paragraph([text("a")]), Refusing, NONE),
        Err(Error::FormatFailed(fmt::Error))
    ));
}

#[test]
fn fences_are_counted() {
    let code = |inner: Events| {
        let block = Tag::CodeBlock(CodeBlockKind::Indented);
        calculate_code_block_token_count(around(block, [inner]))
    };
    assert_eq!(code(text("``")), None);
    assert_eq!(code(text("```")), Some(4));
    assert_eq!(code(text("a ~~~~~ b")), Some(6));
    assert_eq!(code([text("``"), text("``")].concat()), Some(5));
    assert_eq!(
        code([text("``"), one(Event::SoftBreak), text("``")].concat()),
        None
    );
    assert_eq!(calculate_code_block_token_count(text("````")), None);
    assert_eq!(DEFAULT_CODE_BLOCK_TOKEN_COUNT, 3);
}

#[test]
fn flags_that_mean_nothing_here_are_ignored() {
    let events = paragraph([around(Tag::Strikethrough, [text("a")])]);
    assert_eq!(written(&events, ParserOptions::all()), "~~a~~");
    let all = ParserOptions::all();
    assert_eq!(
        rewrite("b\n", events.iter(), all, Options::default()).unwrap(),
        "~~a~~\n"
    );
}

#[test]
fn options_are_checked_in_their_order() {
    let valid = Options::default();
    assert_eq!(valid.validate(SUPPORTED_PARSER_OPTIONS), Ok(()));
    let others = ParserOptions::all().difference(SUPPORTED_PARSER_OPTIONS);
    assert_eq!(
        valid.validate(ParserOptions::all()),
        Err(OptionsError::UnsupportedParserOptions(others))
    );
    let options = Options {
        newlines_after_rule: usize::MAX,
        use_html_for_super_sub_script: true,
        emphasis_token: '-',
        ..valid
    };
    let superscript = ParserOptions::ENABLE_SUPERSCRIPT;
    assert_eq!(
        options.validate(superscript),
        Err(OptionsError::InvalidToken("emphasis_token"))
    );
    let options = Options {
        emphasis_token: '_',
        ..options
    };
    assert_eq!(
        options.validate(superscript),
        Err(OptionsError::HtmlSuperSubscript)
    );
    let error = options.validate(NONE).unwrap_err();
    assert_eq!(error, OptionsError::SizeOverflow("newlines_after_rule"));
    assert!(error.to_string().starts_with("newlines_after_rule "));
}

#[test]
fn special_characters_are_those_of_the_options() {
    let options = Options::default();
    assert_eq!(options.special_characters(), "#\\_*<>`|[]");
    let options = Options {
        list_token: '+',
        ..options
    };
    assert_eq!(options.special_characters(), "#\\_*<>`|[]`+***");
}

#[test]
fn a_state_takes_events_in_parts() {
    let events = paragraph([text("a "), around(Tag::Emphasis, [text("b")])]);
    let mut output = String::new();
    let mut state = State::new(NONE, Options::default());
    let first = state.process(&events[..2], &mut output).unwrap();
    assert_eq!(first.events_consumed, 2);
    state.process(&events[2..], &mut output).unwrap();
    let last = state.finish(&mut output).unwrap();
    assert_eq!(output, "a *b*");
    assert_eq!(
        last,
        Progress {
            events_consumed: 0,
            bytes_written: 5
        }
    );
    assert_eq!(state.finish(&mut output).unwrap(), Progress::default());
    assert_eq!(output, "a *b*");
}

#[test]
fn each_part_has_a_source_of_its_own() {
    let source = "a &eacute; b";
    let pairs = [
        (Event::Start(Tag::Paragraph), Some(0..12)),
        (Event::Text("a ".into()), Some(0..2)),
        (Event::Text("\u{e9}".into()), Some(2..10)),
        (Event::Text(" b".into()), Some(10..12)),
        (Event::End(TagEnd::Paragraph), Some(0..12)),
    ];
    let mut output = String::new();
    let mut state = State::new(NONE, Options::default());
    for _ in 0..2 {
        state
            .process_with_source_range(pairs.clone(), source, &mut output)
            .unwrap();
    }
    state.process([Event::Rule], &mut output).unwrap();
    state.finish(&mut output).unwrap();
    assert_eq!(output, format!("{source}\n\n{source}\n\n---"));
}

#[test]
fn a_state_tells_what_became_of_it() {
    let mut output = String::new();
    let mut state = State::new(NONE, Options::default());
    state.finish(&mut output).unwrap();
    let none: [Event<'_>; 0] = [];
    assert!(matches!(
        state.process(&none, &mut output),
        Err(Error::Finished)
    ));
    assert!(matches!(state.finish(&mut output), Err(Error::Failed)));
    let mut state = State::new(NONE, Options::default());
    let alone = [Event::End(TagEnd::Paragraph)];
    assert!(matches!(
        state.process(&alone, &mut output),
        Err(Error::UnexpectedEvent)
    ));
    assert!(matches!(
        state.process(&none, &mut output),
        Err(Error::Failed)
    ));
    let mut state = State::new(NONE, Options::default());
    state
        .process([Event::Start(Tag::Paragraph)], &mut output)
        .unwrap();
    assert!(matches!(
        state.finish(&mut output),
        Err(Error::UnexpectedEvent)
    ));
    assert!(matches!(state.finish(&mut output), Err(Error::Failed)));
    let mut state = State::new(NONE, Options::default());
    let ranged = [(Event::Rule, Some(1..4))];
    assert!(matches!(
        state.process_with_source_range(ranged, "---", &mut output),
        Err(Error::InvalidSourceRange)
    ));
    assert_eq!(output, "");
}

#[test]
fn a_source_is_rewritten() {
    let source = "*  a\n\n\n***\n";
    let list = |inner| around(Tag::List(None), [around(Tag::Item, [text(inner)])]);
    let same = [list("a"), one(Event::Rule)].concat();
    let options = Options::default();
    assert_eq!(rewrite(source, same.iter(), NONE, options).unwrap(), source);
    let other = [list("b"), one(Event::Rule)].concat();
    let output = rewrite(source, other, NONE, options).unwrap();
    assert_eq!(output, "*  b\n\n\n***\n");
}

#[test]
fn a_document_is_written_and_read() {
    let options = Options::default();
    let list = around(Tag::List(None), [around(Tag::Item, [text("a")])]);
    let events = [paragraph([text("# "), text("b")]), list.clone()].concat();
    assert_eq!(write(events, NONE, options).unwrap(), "\\# b\n\n* a");
    assert_eq!(write(Events::new(), NONE, options).unwrap(), "");
    // A list after an empty definition of a footnote falls into it.
    let note = around(Tag::FootnoteDefinition("1".into()), []);
    let events = [paragraph([text("a"), text("b")]), note, list].concat();
    let footnotes = ParserOptions::ENABLE_FOOTNOTES;
    assert!(cmark(events.iter(), String::new(), footnotes).is_ok());
    let fault = write(events, footnotes, options).unwrap_err();
    // The first event that the text doesn't have is the footnote's End: five of the given events come before it.
    let place = Place {
        event: 5,
        lines: None,
    };
    assert!(
        matches!(fault, Fault::ReadOtherwise(at) if at == place),
        "{fault}"
    );
    let struck = paragraph([around(Tag::Strikethrough, [text("b")])]);
    let fault = write(struck, NONE, options).unwrap_err();
    assert!(matches!(
        fault,
        Fault::Refused(
            Place {
                event: 0,
                lines: None
            },
            Error::Unrepresentable
        )
    ));
}

#[test]
fn a_fault_has_a_place() {
    let struck = paragraph([around(Tag::Strikethrough, [text("b")])]);
    let events = [paragraph([text("a")]), struck].concat();
    let fault = rewrite("a\n\n\nb\n", events, NONE, Options::default()).unwrap_err();
    assert_eq!(
        fault.to_string(),
        "event 3, line 4: Cannot preserve this event block with the supplied parser options"
    );
    let place = Place {
        event: 3,
        lines: Some((4, 4)),
    };
    assert!(matches!(fault, Fault::Refused(at, Error::Unrepresentable) if at == place));
    let options = Options {
        list_token: 'x',
        ..Options::default()
    };
    let fault = rewrite("a\n", paragraph([text("a")]), NONE, options).unwrap_err();
    assert_eq!(
        fault.to_string(),
        "list_token must use a standard Markdown delimiter"
    );
}

#[test]
fn events_are_edited_without_a_parser() {
    let source = "*  a [b\nc](/old) &eacute;\n\n\n***\n\nd\n";
    let relinked = edit(source, NONE, Options::default(), |mut event| {
        if let Event::Start(Tag::Link { dest_url, .. }) = &mut event {
            *dest_url = "/new".into();
        }
        [event]
    });
    assert_eq!(relinked.unwrap(), source.replace("/old", "/new"));
    let without_rule = edit(source, NONE, Options::default(), |event| {
        Some(event).filter(|event| !matches!(event, Event::Rule))
    });
    assert_eq!(without_rule.unwrap(), "*  a [b\nc](/old) &eacute;\n\n\nd\n");
    let options = Options {
        list_token: 'x',
        ..Options::default()
    };
    let fault = edit(source, NONE, options, |event| [event]);
    assert!(matches!(fault, Err(Fault::InvalidOptions(_))));
}

#[test]
fn events_that_are_read_are_written() {
    let flags = SUPPORTED_PARSER_OPTIONS;
    let text = "# a {#b .c d=e}\n\n> [!NOTE]\n> f[^g] $h$ ^j^\n\n[^g]: k\n\n1. [x] l\n\nm\n: n\n\n|o|p|\n|:-|-|\n|`q`|[r](s \"t\")|\n\n![u][] <v@w.x> *\u{e9}* \u{1}\n\n[u]: /B\n\n```C\nD\n```\n\n<p>\n\n---\n";
    let events: Vec<_> = read(text, flags).unwrap();
    assert!(events.iter().all(|(_, range)| range.end <= text.len()));
    let kept = rewrite(
        text,
        events.iter().map(|(event, _)| event),
        flags,
        Options::default(),
    );
    assert_eq!(kept.unwrap(), text);
    assert_eq!(
        edit(text, flags, Options::default(), |event| [event]).unwrap(),
        text
    );
}

#[test]
fn a_text_is_formatted() {
    let source = "Title\n=====\n*  a\n*  b _c_ __d__\n\n1.  e\n";
    let plain = format(source, NONE, &FormatOptions::default()).unwrap();
    assert_eq!(plain, "# Title\n\n*  a\n*  b _c_ __d__\n\n1.  e\n");
    let options = FormatOptions {
        bullet: Bullet::Plus,
        ordered: Delimiter::Parenthesis,
        emphasis: Marker::Asterisk,
        strong: Marker::Asterisk,
        list_indent: ListIndent::Four,
        ..Default::default()
    };
    let styled = format(source, NONE, &options).unwrap();
    assert_eq!(styled, "# Title\n\n+   a\n+   b *c* **d**\n\n1)  e\n");
    let joined = FormatOptions {
        wrap: Wrap::No,
        ..Default::default()
    };
    assert_eq!(format("a\nb\n", NONE, &joined).unwrap(), "a b\n");
    let own = FormatOptions {
        tables: Tables::Source,
        ..Default::default()
    };
    let text = "*  a\n*  b\n\n| c | ddd |\n| - | --- |\n| e | f |\n";
    assert_eq!(
        format(text, ParserOptions::ENABLE_TABLES, &own).unwrap(),
        text
    );
    let text = "_a_\n===\n\n***\n\n1) b\n1) c\n\n*   d\n";
    assert_eq!(
        format(text, NONE, &FormatOptions::look_source()).unwrap(),
        text
    );
    assert_eq!(
        format(text, NONE, &FormatOptions::look_one()).unwrap(),
        "# *a*\n\n---\n\n1. b\n2. c\n\n- d\n"
    );
    let sentences = FormatOptions {
        wrap: Wrap::Sentence,
        ..Default::default()
    };
    assert_eq!(
        format("One two. Three\nfour.\n", NONE, &sentences).unwrap(),
        "One two.\nThree four.\n"
    );
    // To CommonMark, a table directly below a text is part of that paragraph.
    let kept = FormatOptions {
        also_read: vec![NONE],
        ..Default::default()
    };
    let table = "a\n|b|\n|-|\n";
    assert_eq!(
        format(table, ParserOptions::ENABLE_TABLES, &kept).unwrap(),
        table
    );
}

/// An `Allowed` with one more kind.
type Allow = fn(&mut Allowed);

#[test]
fn each_kind_may_differ() {
    let pairs: [(&str, &str, Allow); 13] = [
        ("a b", "a\nb", |it| it.wrap = true),
        ("a", "b", |it| it.text = true),
        ("[a](/b)", "[a](/c)", |it| it.destinations = true),
        ("[a](/b 'c')", "[a](/b 'd')", |it| it.titles = true),
        ("[a][b]\n\n[b]: /c", "[a][B]\n\n[b]: /c", |it| {
            it.labels = true
        }),
        ("    a\n", "```\na\n```\n", |it| it.fences = true),
        ("# a", "## a", |it| it.levels = true),
        ("1. a", "2. a", |it| it.numbers = true),
        ("`a`", "`b`", |it| it.code = true),
        ("```a\n```", "```b\n```", |it| it.info = true),
        ("<a>\n", "<b>\n", |it| it.html = true),
        ("---\na: b\n---\n", "---\na: c\n---\n", |it| {
            it.front_matter = true
        }),
        ("[a]: /b", "", |it| it.definitions = true),
    ];
    let flags = SUPPORTED_PARSER_OPTIONS;
    for (at, (old, new, allow)) in pairs.iter().enumerate() {
        let mut allowed = Allowed::nothing();
        assert!(!same(old, new, flags, allowed).unwrap(), "{old:?}");
        allow(&mut allowed);
        assert!(same(old, new, flags, allowed).unwrap(), "{old:?}");
        // Each other kind but the words of texts.
        let mut others = Allowed::nothing();
        for (other, (_, _, allow)) in pairs.iter().enumerate() {
            if other != at && other != 1 {
                allow(&mut others);
            }
        }
        assert!(!same(old, new, flags, others).unwrap(), "{old:?}");
    }
}

#[test]
fn definitions_have_their_places() {
    assert_eq!(definitions("a [b](/c)\n", NONE).unwrap(), []);
    let source = "\u{feff}é [a]\n\n[a]: /b?c&amp;d 'e \\'f'\n> [g\\]]: <>\n\n[A]: /second\n";
    let found = definitions(source, NONE).unwrap();
    let said: Vec<_> = found
        .iter()
        .map(|it| {
            (
                it.label.as_str(),
                it.destination.as_str(),
                it.title.as_str(),
                it.is_used,
            )
        })
        .collect();
    assert_eq!(
        said,
        [
            ("a", "/b?c&d", "e 'f", true),
            ("g\\]", "", "", false),
            ("A", "/second", "", false),
        ]
    );
    let first = &found[0];
    assert_eq!(&source[first.range.clone()], "[a]: /b?c&amp;d 'e \\'f'");
    assert_eq!(&source[first.destination_range.clone()], "/b?c&amp;d");
    assert_eq!(&source[first.title_range.clone()], "'e \\'f'");
    assert!(found[1].title_range.is_empty());
    assert_eq!(&source[found[2].destination_range.clone()], "/second");
}

#[test]
fn definitions_get_what_is_given() {
    let source = "\u{feff}é [a]\n\n[a]: /b 'c'\n> [g]: <>\n\n[A]: /second\n";
    let mut found = definitions(source, NONE).unwrap();
    assert_eq!(redefine(source, &found, NONE).unwrap(), source);
    assert_eq!(redefine(source, &[], NONE).unwrap(), source);
    found[0].destination = "/\"x\" y".to_string();
    found[1].title = "t".to_string();
    let text = redefine(source, &found[..2], NONE).unwrap();
    assert_eq!(
        text,
        "\u{feff}é [a]\n\n[a]: </\"x\" y> 'c'\n> [g]: <> \"t\"\n\n[A]: /second\n"
    );
    found[2].label = "b".to_string();
    let fault = redefine(source, &found[1..], NONE).unwrap_err();
    assert!(matches!(fault, Error::NoDefinition(1)), "{fault}");
}

#[test]
fn what_no_page_shows_may_differ() {
    for (old, new) in [
        ("[a](/b)", "[a][]\n\n[a]: /b"),
        ("    a\n", "```\na\n```\n"),
        ("<https://a.b/>", "[https://a.b/](https://a.b/)"),
    ] {
        assert_eq!(compare(old, new, NONE, Allowed::default()).unwrap(), []);
        assert!(!same(old, new, NONE, Allowed::nothing()).unwrap());
    }
}

#[test]
fn a_page_shows_bare_addresses_as_links() {
    for (old, new) in [
        ("see http://a.b/c", "see <http://a.b/c>"),
        ("x@y.zz", "<x@y.zz>"),
        ("www.a.b", "[www.a.b](http://www.a.b)"),
    ] {
        let says_same = |flags, allowed| same(old, new, flags, allowed).unwrap();
        let text = Allowed {
            bare_links: false,
            ..Allowed::default()
        };
        for flags in [ParserOptions::ENABLE_GFM, ParserOptions::ENABLE_TABLES] {
            assert!(says_same(flags, Allowed::default()), "{old:?}");
            assert!(!says_same(flags, text), "{old:?}");
            assert!(!says_same(flags, Allowed::nothing()), "{old:?}");
        }
        // CommonMark has no such links.
        assert!(!says_same(NONE, Allowed::default()), "{old:?}");
    }
}

#[test]
fn differences_have_places_and_words() {
    let (old, new) = ("# a\n\nb \"c\"\n", "## a\n\nb \\\\d\n\n- e\n");
    let found = compare(old, new, NONE, Allowed::default()).unwrap();
    let kinds: Vec<_> = found.iter().map(|it| (it.kind, it.new)).collect();
    assert_eq!(
        kinds,
        [
            (Kind::Level, (1, 1)),
            (Kind::Text, (3, 3)),
            (Kind::Added, (5, 5))
        ]
    );
    assert_eq!((found[1].old, found[1].what.as_str()), ((3, 3), "text"));
    assert_eq!(
        (found[1].was.as_str(), found[1].is.as_str()),
        ("\"c\"", "\\d")
    );
    assert_eq!(found[1].to_string(), r#"the text ""c"" became "\d""#);
    let found = compare("`a\t\u{1}é😀`", "`b`", NONE, Allowed::default()).unwrap();
    assert_eq!(found[0].was, "a\t\u{1}é😀");
    // A list takes more room than is there at first.
    let old: String = (0..500).map(|at| format!("# a{at}\n")).collect();
    let new = old.replace("# ", "## ");
    let found = compare(&old, &new, NONE, Allowed::default()).unwrap();
    assert_eq!(found.len(), 500);
}
