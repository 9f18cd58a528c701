"""The pages of a release's archives: what they name has to be packed. A link to what isn't packed becomes its text. A path may be
named that isn't packed if its paragraph says that it is of the repository, or in a clone."""
import collections
import fnmatch
import functools
import os
import re

BLOCK = re.compile(r"^```.*?^```$", re.M | re.S)
LINK = re.compile(r"(!?)\[([^]\n]*)\]\(([^):#\s]*)(#[^)\s]*)?\)")
CODE = re.compile(r"`([^`\n]+)`")
# a path in backticks, or at the front of a command there
PATH = re.compile(r"(?:(?:\./|\.ci/|bindings/|crates/|docs/|edits/|rows/|rust/|tools/)[\w.*/-]*|[\w-]+\.(?:md|txt)|HANDLES)(?= |$)")
# words in capitals are places for names
PLACE = re.compile(r"\b(?:NAME|VERSION|FILE|FOLDER)\b")
ELSEWHERE = re.compile(r"\b(?:in|of|the) (?:a clone|(?:the )?repository)\b", re.I)


def without_links(page, text, packed, every):
    """A page in which each link to a file of the repository that isn't packed is its text, and says where that is."""

    def link(found):
        is_left = not found[3] or is_packed(page, found[3], packed) or not is_packed(page, found[3], every)
        return found[0] if is_left else f"{found[2]} (in a clone)"

    return LINK.sub(link, text)


def is_packed(page, path, packed):
    """Whether a path of a page leads to a file or a folder of the archive, from the page's folder or from the top."""
    for folder in ("", os.path.dirname(page)):
        wanted = os.path.normpath(os.path.join(folder, path))
        if wanted in packed or any(it.startswith(f"{wanted}/") for it in packed):
            return True
        if "*" in wanted and any(fnmatch.fnmatch(it, wanted) or fnmatch.fnmatch(it, f"{wanted}/*") for it in packed):
            return True
    return False


@functools.lru_cache(None)
def headings(text):
    """The headings of a page: how deep, what it says, and its anchor, which has a number if the same was there before."""
    found, times = [], collections.Counter()
    for depth, head in re.findall(r"^(#+) (.+)$", BLOCK.sub("", text), re.M):
        anchor = re.sub(r"[^\w\- ]", "", head.lower()).replace(" ", "-")
        found.append((len(depth), head, f"{anchor}-{times[anchor]}" if times[anchor] else anchor))
        times[anchor] += 1
    return found


@functools.lru_cache(None)
def anchors(text):
    """The anchors of a page's headings."""
    return {anchor for _, _, anchor in headings(text)}


def lost(pages, packed, counts):
    """What pages name that leads nowhere: links, with their anchors, and paths. `pages` has the text of each packed page by its
    path, and `packed` the paths of all packed files."""
    for page, text in pages.items():
        for _, _, target, anchor in LINK.findall(BLOCK.sub("", text)):
            counts["links"] = counts.get("links", 0) + 1
            path = os.path.normpath(os.path.join(os.path.dirname(page), target)) if target else page
            if target and not is_packed(page, target, packed):
                yield f"{page}: a link leads nowhere: {target}"
            elif anchor and path in pages and anchor[1:] not in anchors(pages[path]):
                yield f"{page}: a link has no such heading: {target}{anchor}"
        for paragraph in re.split(r"\n\s*\n", BLOCK.sub("", text)):
            for path in [it for code in CODE.findall(paragraph) for it in PATH.findall(code) if PATH.match(code)]:
                counts["paths"] = counts.get("paths", 0) + 1
                if not PLACE.search(path) and not is_packed(page, path, packed) and not ELSEWHERE.search(paragraph):
                    yield f"{page}: a path isn't packed: {path}"
