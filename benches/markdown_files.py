"""The Markdown files below a folder that the benches of the Python package measure over."""
import os

MOST_BYTES = 100_000


def is_markdown(path):
    """Whether a path is that of a Markdown file with so few bytes, all of them UTF-8."""
    if not path.endswith(".md") or not os.path.isfile(path) or os.path.getsize(path) > MOST_BYTES:
        return False
    with open(path, "rb") as file:
        try:
            return bool(file.read().decode())
        except UnicodeDecodeError:
            return False


def spread(folder, most):
    """The paths of at most so many files, evenly spread over those below the folder."""
    paths = (os.path.join(at, name) for at, _, names in os.walk(folder) for name in names)
    found = sorted(filter(is_markdown, paths))
    count = min(len(found), most)
    return [found[at * len(found) // count] for at in range(count)]
