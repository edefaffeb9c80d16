#!/usr/bin/env python3
"""Lists the names that stand for a definition in two or more files of specs/, of which at least one is to be believed.

    tools/same_names.py

A line has a name and the files, each as CRATE/FILE, behind a file to be believed a star; the last line counts them, and the status
is 1 if they are more than MOST. docs/check.py tells that, too. A reader who meets such a name has to look at the imports for what it
means. Names of examples aren't listed: those of a block and of its document are the same by purpose.
"""
import collections
import glob
import os
import re
import sys

ROOT = os.path.dirname(os.path.dirname(os.path.abspath(__file__)))
DEFINED = re.compile(r"^ *(?:(?:abbrev|unfoldable|record|data|pub) )+([^\s:({]+)", re.MULTILINE)
FIELD = re.compile(r"^  pub [a-z_]+ :", re.MULTILINE)
BELIEVED = "-- To be believed: "
MOST = 90


def places():
    """The files of each name that is defined in several, one of which is to be believed."""
    files = collections.defaultdict(dict)
    for path in glob.glob(os.path.join(ROOT, "crates/*/specs/*.antt")):
        crate, file = path.split(os.sep)[-3], os.path.basename(path).removesuffix(".antt")
        if file in ("Lib", "Examples"):
            continue
        with open(path, encoding="utf-8") as opened:
            text = opened.read()
        for name in DEFINED.findall(FIELD.sub("", text)):
            if name not in ("use", "mod"):
                files[name][f"{crate}/{file}"] = text.startswith(BELIEVED)
    return {name: of for name, of in sorted(files.items()) if len(of) > 1 and any(of.values())}


def wrong():
    """That there are too many of them."""
    count = len(places())
    if count > MOST:
        yield f"specs/: {count} names stand for several definitions, one of them to be believed; at most {MOST} may (tools/same_names.py)"


def main():
    several = places()
    for name, files in several.items():
        print(name, *(file + "*" * believed for file, believed in sorted(files.items())))
    print(f"{len(several)} names")
    return 1 if len(several) > MOST else 0


if __name__ == "__main__":
    sys.exit(main())
