"""Edits of the events of a text, by name; tools/test/texts and tools/measure/recipes make them.

- These parse CommonMark. `https` gives each destination by `http:` the scheme `https:`. `mark` puts a word after each destination.
  `lower` moves each heading one level down. `title` gives each link and image the title `new`. `stress` emphasizes each text
  `now`.
- The others parse `gfm`. `front`, `before N` and `after N` put a paragraph `New.` in front of all blocks, or before or after
  block N; past the last block, N counts from the first one again. `without N` removes that block. `shorten` removes the last
  block or item of the first block.
- `note` makes each paragraph that begins with `NOTE: ` a note, a quote of that kind. `frame` puts the HTML `<hr>` before and after
  each paragraph that is one image. `list` puts a list of one word in front of all blocks.
- `shout` puts a word in front of each item and cell that begins with a text. `join` moves each heading one level down, and joins
  the lines of those below level 2. `say WORD` puts WORD in place of each `baz` in a text.
- `merge WORD` joins neighbouring texts first. So do `emphasis WORD`, `strong WORD`, `strike WORD`, `link WORD` and `code WORD`,
  which make each WORD one of these. `plain` removes the first three. `tick` turns each box.
"""

import copy
import itertools

MARK = '-marked'
COMMONMARK = ('https', 'mark', 'lower', 'title', 'stress')
LINK = {'link_type': 'Inline', 'dest_url': '/u', 'title': '', 'id': ''}
WRAPPINGS = {'emphasis': 'Emphasis', 'strong': 'Strong', 'strike': 'Strikethrough', 'link': {'Link': LINK}}
STRESSES = ('Emphasis', 'Strong', 'Strikethrough')


def is_of_gfm(name):
    return name.split(' ')[0] not in COMMONMARK


def key_of(event):
    """The name of an event, and what it has: nothing for a line break or a rule."""
    return (event, None) if isinstance(event, str) else next(iter(event.items()))


def wrapped(tag, word, place):
    """The pairs of a container with a word."""
    end = tag if isinstance(tag, str) else next(iter(tag))
    return [[event, place] for event in ({'Start': tag}, {'Text': word}, {'End': end})]


def links(pairs):
    """What each link and image has."""
    for event, _ in pairs:
        name, tag = key_of(event)
        if name == 'Start' and isinstance(tag, dict):
            yield from (fields for kind, fields in tag.items() if kind in ('Link', 'Image'))


def with_destinations(pairs, changed):
    for fields in links(pairs):
        new = changed(fields['dest_url'])
        if new != fields['dest_url'] and fields['link_type'] in ('Autolink', 'Email'):
            fields['link_type'] = 'Inline'
        fields['dest_url'] = new
    return pairs


def secured(destination):
    return 'https:' + destination[5:] if destination.startswith('http:') else destination


def with_titles(pairs):
    for fields in links(pairs):
        fields['title'] = 'new'
    return pairs


def lowered(pairs):
    for event, _ in pairs:
        name, tag = key_of(event)
        if name in ('Start', 'End') and isinstance(tag, dict) and 'Heading' in tag:
            heading = tag['Heading']
            level = heading['level'] if name == 'Start' else heading
            lower = f'H{min(int(level[1]) + 1, 6)}'
            tag['Heading'] = {**heading, 'level': lower} if name == 'Start' else lower
    return pairs


def with_joined_headings(pairs):
    is_open = False
    for pair in pairs:
        name, tag = key_of(pair[0])
        if is_open and name in ('SoftBreak', 'HardBreak'):
            pair[0] = {'Text': ' '}
        if name in ('Start', 'End') and isinstance(tag, dict) and 'Heading' in tag:
            is_open = name == 'Start' and tag['Heading']['level'] > 'H2'
    return pairs


def stressed(pairs):
    return [new for event, place in pairs for new in
            (wrapped('Emphasis', 'now', place) if event == {'Text': 'now'} else [[event, place]])]


def block_places(pairs):
    """Where each block begins in the list of pairs, and where the next one does."""
    found, depth, first = [], 0, 0
    for at, (event, _) in enumerate(pairs):
        depth += {'Start': 1, 'End': -1}.get(key_of(event)[0], 0)
        if depth == 0:
            found.append((first, at + 1))
            first = at + 1
    return found


def block_at(pairs, number):
    places = block_places(pairs)
    return places[int(number) % len(places)] if places else (0, 0)


def with_paragraph(pairs, at, byte):
    return pairs[:at] + wrapped('Paragraph', 'New.', {'start': byte, 'end': byte}) + pairs[at:]


def before(pairs, number):
    first, past = block_at(pairs, number)
    return with_paragraph(pairs, first, pairs[first][1]['start'] if past else 0)


def after(pairs, number):
    first, past = block_at(pairs, number)
    return with_paragraph(pairs, past, pairs[first][1]['end'] if past else 0)


def without(pairs, number):
    first, past = block_at(pairs, number)
    return pairs[:first] + pairs[past:]


def shortened(pairs):
    _, past = block_at(pairs, 0)
    first, end = block_places(pairs[1:past - 1])[-1]
    return pairs[:first + 1] + pairs[end + 1:]


def shouted(pairs):
    begins = False
    for event, _ in pairs:
        name, tag = key_of(event)
        if name == 'Text' and begins:
            event['Text'] = 'New ' + event['Text']
        begins = name == 'Start' and (tag in ('Item', 'TableCell') or begins and tag == 'Paragraph')
    return pairs


def paragraph_places(pairs):
    """Where each paragraph begins in the list of pairs, and what is after it."""
    first = None
    for at, (event, _) in enumerate(pairs):
        if event == {'Start': 'Paragraph'}:
            first = at
        elif event == {'End': 'Paragraph'}:
            yield first, at + 1


def noted(pairs):
    for first, past in reversed([*paragraph_places(pairs)]):
        name, text = key_of(pairs[first + 1][0])
        if name == 'Text' and text.startswith('NOTE: '):
            words = [*([[{'Text': text[6:]}, pairs[first + 1][1]]] if text[6:] else []), *pairs[first + 2:past]]
            pairs[first:past] = [[{'Start': {'BlockQuote': 'Note'}}, None], pairs[first], *words, [{'End': {'BlockQuote': 'Note'}}, None]]
    return pairs


def framed(pairs):
    for first, past in reversed([*paragraph_places(pairs)]):
        name, tag = key_of(pairs[first + 1][0])
        if name == 'Start' and 'Image' in tag:
            html = [[event, None] for event in ({'Start': 'HtmlBlock'}, {'Html': '<hr>\n'}, {'End': 'HtmlBlock'})]
            pairs[first:past] = html + pairs[first:past] + html
    return pairs


def listed(pairs):
    events = ({'Start': {'List': None}}, {'Start': 'Item'}, {'Text': 'New'}, {'End': 'Item'}, {'End': {'List': False}})
    return [[event, None] for event in events] + pairs


def said(pairs, word):
    return [[{'Text': event['Text'].replace('baz', word)} if 'Text' in event else event, place] for event, place in pairs]


def merged(pairs):
    """The pairs with each stretch of texts as one, which has the range of the first."""
    found = []
    for is_text, group in itertools.groupby(pairs, lambda pair: key_of(pair[0])[0] == 'Text'):
        group = list(group)
        found += [[{'Text': ''.join(event['Text'] for event, _ in group)}, group[0][1]]] if is_text else group
    return found


def with_word_in(pairs, kind, word):
    found = []
    for event, place in merged(pairs):
        if key_of(event)[0] != 'Text':
            found.append([event, place])
            continue
        for number, part in enumerate(event['Text'].split(word)):
            if number:
                found += [[{'Code': word}, place]] if kind == 'code' else wrapped(copy.deepcopy(WRAPPINGS[kind]), word, place)
            if part:
                found.append([{'Text': part}, place])
    return found


def is_stress(event):
    name, tag = key_of(event)
    return name in ('Start', 'End') and tag in STRESSES


def ticked(pairs):
    for event, _ in pairs:
        if 'TaskListMarker' in event:
            event['TaskListMarker'] = not event['TaskListMarker']
    return pairs


ALONE = {
    'https': lambda pairs: with_destinations(pairs, secured),
    'mark': lambda pairs: with_destinations(pairs, lambda destination: destination + MARK),
    'lower': lowered,
    'title': with_titles,
    'stress': stressed,
    'front': lambda pairs: with_paragraph(pairs, 0, 0),
    'note': noted,
    'frame': framed,
    'list': listed,
    'shorten': shortened,
    'shout': shouted,
    'join': lambda pairs: with_joined_headings(lowered(pairs)),
    'plain': lambda pairs: [pair for pair in pairs if not is_stress(pair[0])],
    'tick': ticked,
}
WITH_WORD = {
    'before': before,
    'after': after,
    'without': without,
    'say': said,
    'merge': lambda pairs, word: said(merged(pairs), word),
}


def edited(pairs, name):
    """The pairs of events and ranges, with the edit of this name. The pairs that are given may change."""
    kind, _, word = name.partition(' ')
    if kind in ALONE:
        return ALONE[kind](pairs)
    if kind in WITH_WORD:
        return WITH_WORD[kind](pairs, word)
    return with_word_in(pairs, kind, word)
