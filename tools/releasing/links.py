"""Links of pages: which of them lead nowhere, and pages without these."""
import os
import re
from typing import Iterator, List, Tuple

LINK = re.compile(r'!?\[((?:[^\[\]]|\[[^\]]*\])*)\]\(([^()\s]+)\)')
ELSEWHERE = re.compile(r'[a-z]+:', re.I)


def pages_of(folder: str) -> List[str]:
    """Returns the paths of all pages below a folder, in order."""
    return sorted(os.path.join(at, it) for at, _, names in os.walk(folder) for it in names if it.endswith('.md'))


def read_page(path: str) -> str:
    """Returns the text of a page."""
    with open(path, encoding='utf-8', newline='') as file:
        return file.read()


def is_dead(path: str, target: str) -> bool:
    """Returns whether a link on a page leads to a file that isn't there. Links to other sites are left alone."""
    name = target.partition('#')[0]
    is_here = name and not ELSEWHERE.match(name)
    return bool(is_here and not os.path.exists(os.path.join(os.path.dirname(path), name)))


def dead_links(folder: str) -> Iterator[Tuple[str, str]]:
    """Yields the page and the target of each link that leads nowhere, of the pages below a folder."""
    for path in pages_of(folder):
        for found in LINK.finditer(read_page(path)):
            if is_dead(path, found[2]):
                yield os.path.relpath(path, folder), found[2]


def without_dead_links(path: str, text: str) -> str:
    """Returns the text of a page with the words alone in place of links that lead nowhere."""
    return LINK.sub(lambda found: found[1] if is_dead(path, found[2]) else found[0], text)


def drop_dead_links(folder: str) -> None:
    """Takes the links that lead nowhere out of the pages below a folder."""
    for path in pages_of(folder):
        text = read_page(path)
        mended = without_dead_links(path, text)
        if mended != text:
            with open(path, 'w', encoding='utf-8', newline='') as file:
                file.write(mended)
