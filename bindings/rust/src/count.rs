//! How many tokens the fences of code blocks need.

use pulldown_cmark::{Event, Tag, TagEnd};
use std::borrow::Borrow;

/// The count of tokens that is enough where [`calculate_code_block_token_count`] has none.
pub const DEFAULT_CODE_BLOCK_TOKEN_COUNT: usize = 3;

/// The runs of a token in what was seen: the one at the end, and the longest.
#[derive(Clone, Copy, Default)]
struct Runs {
    last: usize,
    longest: usize,
}

impl Runs {
    fn see(&mut self, token: char, text: &str) {
        for character in text.chars() {
            self.last = if character == token { self.last + 1 } else { 0 };
            self.longest = self.longest.max(self.last);
        }
    }
}

/// One more than the longest run of backticks or of `~` in the code blocks of these events, where that has three or more.
/// Texts that follow one another are one text; any other event ends a run.
pub fn calculate_code_block_token_count<'a, I, E>(events: I) -> Option<usize>
where
    I: IntoIterator<Item = E>,
    E: Borrow<Event<'a>>,
{
    let mut in_code = false;
    let mut runs = [('`', Runs::default()), ('~', Runs::default())];
    for event in events {
        let text = match event.borrow() {
            Event::Start(Tag::CodeBlock(_)) => {
                in_code = true;
                continue;
            }
            Event::Text(text) if in_code => text.as_ref(),
            Event::End(TagEnd::CodeBlock) => {
                in_code = false;
                "\n"
            }
            _ => "\n",
        };
        for (token, seen) in &mut runs {
            seen.see(*token, text);
        }
    }
    let longest = runs.iter().map(|(_, seen)| seen.longest).max().unwrap_or(0);
    (longest >= 3).then(|| longest + 1)
}
