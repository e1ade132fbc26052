"""Links between pages: `wrong_links(PATH)` has each link of a page that leads to no file or to no heading."""
import os
import re

from . import tree

LINK = re.compile(r"\[[^\]]*\]\(([^)\s]+)\)|^\[\w+\]: (\S+)$", re.M)
HEADING = re.compile(r"^#+ (.*)$", re.M)
FENCED = re.compile(r"^```.*?^```$", re.M | re.S)


def anchor(heading):
    """The name that a heading has in a link, as forges make it."""
    return re.sub(r"[^\w -]", "", heading.lower()).replace(" ", "-")


def anchors_in(text):
    return {anchor(heading) for heading in HEADING.findall(FENCED.sub("", text))}


def links_in(text):
    text = re.sub(r"^ {4}.*$|`[^`]*`", "", FENCED.sub("", text), flags=re.M)
    return [inline or listed for inline, listed in LINK.findall(text)]


def is_right(path, link):
    """Whether a link of a page leads somewhere. Those that leave the repository aren't looked at."""
    if "://" in link:
        return True
    file, _, heading = link.partition("#")
    target = os.path.normpath(os.path.join(os.path.dirname(path), file)) if file else path
    if not os.path.exists(os.path.join(tree.TOP, target)):
        return False
    return not heading or heading in anchors_in(tree.read(target))


def wrong_links(path):
    return [link for link in links_in(tree.read(path)) if not is_right(path, link)]
