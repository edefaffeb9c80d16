"""The page whose picture is docs/page.png: that of the tutorial's block. Its checksum stands in docs/page.sum when the picture is taken."""
import hashlib
import os
import re
import subprocess

ROOT = os.path.dirname(os.path.dirname(os.path.abspath(__file__)))
PICTURE, SUM = os.path.join(ROOT, "docs/page.png"), os.path.join(ROOT, "docs/page.sum")
SOURCE = re.compile(r"^cat > lerp <<'END'\n(.*?)^END$", re.MULTILINE | re.DOTALL)


def page(program):
    """The page as the program writes it now."""
    with open(os.path.join(ROOT, "docs/TUTORIAL.md"), encoding="utf-8") as tutorial:
        source = SOURCE.search(tutorial.read())[1]
    return subprocess.run([os.path.abspath(program), "page", "--deep"], input=source.encode(), stdout=subprocess.PIPE, check=True).stdout


def checksum(page):
    return hashlib.sha256(page).hexdigest() + "\n"


def stale(program):
    """Yields a line if the picture is of another page."""
    with open(SUM, encoding="utf-8") as file:
        if file.read() != checksum(page(program)):
            yield "docs/page.png: the page has changed since; make it anew by tools/page.py PROGRAM --picture"
