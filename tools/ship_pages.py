"""Copies the pages that are shipped: ship_pages.py FOLDER PAGE..

A link to a page that is shipped too, or to a file of the folder, stays. Of any other link to a file of the repository only
its text stays, since it would lead nowhere. Pictures that are not shipped are left out.
"""

import pathlib
import re
import sys

LINK = re.compile(r"(!?)\[([^\]]*)\]\(([^)\s]+)\)")
FOLDER, *PAGES = map(pathlib.Path, sys.argv[1:])


def shipped(page, link):
    """Returns a link of a page as it is shipped."""
    picture, text, target = link.groups()
    path = target.partition("#")[0]
    if re.match(r"[a-z]+:", target) or not path:
        return link[0]
    found = (page.parent / path).resolve().relative_to(pathlib.Path.cwd())
    if found in PAGES or (FOLDER / found).exists():
        return link[0]
    return "" if picture else text


for page in PAGES:
    (FOLDER / page).parent.mkdir(parents=True, exist_ok=True)
    (FOLDER / page).write_text(LINK.sub(lambda link: shipped(page, link), page.read_text("utf-8")), "utf-8")
