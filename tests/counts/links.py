"""The links of a document: each leads to a file of the repository, and to a heading of it where it names one."""
import re

LINK = re.compile(r"\[[^\]\n]*\]\(([^)\s]+)\)")
HEADING = re.compile(r"^#+ (.*)$", re.MULTILINE)
BLOCK = re.compile(r"^```.*?^```", re.DOTALL | re.MULTILINE)


def anchor(heading):
    """The part of a link that leads to a heading."""
    plain = re.sub(r"[`*]", "", re.sub(r"\[([^\]]*)\]\([^)]*\)", r"\1", heading))
    return re.sub(r"[^\w\- ]", "", plain.strip().lower()).replace(" ", "-")


def problems(document):
    """The links that lead nowhere."""
    for target in LINK.findall(BLOCK.sub("", document.read_text())):
        name, _, part = target.partition("#")
        path = document.parent / name if name else document
        if "://" in target:
            continue
        if not path.exists():
            yield f"there is no {target}"
        elif part and path.suffix == ".md" and part not in map(anchor, HEADING.findall(path.read_text())):
            yield f"no heading is {target}"
