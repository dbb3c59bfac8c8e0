#!/usr/bin/env python3
"""Writes the documents of the Debian package: those for people who run csa, with the paths that files have in the package.

    release/package_docs.py FOLDER          writes FOLDER/README.md and so on

A link to a document that the package lacks becomes its text. The status is 1, with a line for each fault, if a link leads nowhere all the same, or a
document names a file of a clone that the package has in another place.
"""

import re
import sys
from pathlib import Path

TOP = Path(__file__).resolve().parents[1]
# which document of the repository has which name in the package, where all are in one folder
DOCUMENTS = {
    "README.md": "README.md",
    "SECURITY.md": "SECURITY.md",
    "CHANGELOG.md": "CHANGELOG.md",
    **{f"docs/{name}.md": f"{name}.md" for name in ("RUNNING", "ASKING", "MATRIX", "GTFS", "GROWTH", "REFUSALS", "LIMITS", "IMAGE")},
    "clients/python/README.md": "PYTHON.md",
    "clients/web/README.md": "PAGE.md",
}
# a folder whose document says what is in it
FOLDERS = {"clients/python": "PYTHON.md", "clients/web": "PAGE.md"}
# sections and paragraphs that are of no use to whoever has the package
LEFT_OUT = {
    "README.md": ("## Install", "## Test", "To assess or change csa: "),
    "docs/RUNNING.md": ("### From a clone", "## Upgrading csa", "## What has been tried"),
    "clients/python/README.md": ("    python3 -m venv ", "On Debian, run "),
    "clients/web/README.md": ("## Tests",),
}
DOC, EXAMPLES, UNITS = "/usr/share/doc/csa", "/usr/share/doc/csa/examples", "/lib/systemd/system"
# text of a document, and what it is in the package
PLACES = (
    (r" In a clone, write `\./csa` for `csa`\.| \(in a clone, `\./csa`\)", ""),
    (r"PYTHONPATH=clients/python(:clients/web)? ", ""),
    (r"deploy/nightly", "/usr/lib/csa/nightly"),
    (r"/srv/csa//usr", "/usr"),
    (r"clients/audit/audit", "/usr/lib/csa/audit/audit"),
    (r"clients/mux/mux\b", "/usr/lib/csa/mux"),
    (r"clients/mux\b", "/usr/lib/csa/mux"),
    (r"clients/tables/(bands|compare)", r"/usr/lib/csa/tables/\1"),
    (r"deploy/haproxy\.cfg", f"{EXAMPLES}/haproxy.cfg"),
    (r"deploy/mux\.conf", f"{EXAMPLES}/mux.conf"),
    (r"deploy/csa\.conf", f"{EXAMPLES}/city.conf"),
    (r"deploy/csa\.service", f"{UNITS}/csa@.service"),
    (r"deploy/(csa-mux\.service|csa-nightly@\.(?:service|timer))", rf"{UNITS}/\1"),
    (r"clients/python\b(?!/)", "csa_client"),
    (r"clients/web\b(?!/)", "csa_web"),
    (r"(?<![\w/.])examples/(?=base|slow)", f"{EXAMPLES}/"),
    (r"(?<![\w/.])docs/([A-Z]+\.md)", r"\1"),
    (r"(?<![\w.])\./csa\b", "csa"),
    (r"/usr/local/", "/usr/"),
    # the package has put these there already
    (rf"(?m)^    install .* /usr/lib/csa/mux /usr/lib/csa/mux\n", ""),
    (rf"(?m)^    (?:install|sed) .*{UNITS}/.*/etc/systemd/system/.*\n", ""),
)
LINK = re.compile(r"\[([^\]]*)\]\(([^)\s]+)\)")
# the package has no pictures
PICTURE = re.compile(r"(?m)^!\[[^\]]*\]\([^)\s]+\)\n\n")
OF_A_CLONE = re.compile(r"(?<![\w./@-])(?:deploy/(?!try)|clients/|docs/)[\w.@/-]+")
NOTE = f"""
This is the copy in csa's package, whose documents are in {DOC}. Files in bench/, crates/, release/ and .ci/, and deploy/try, are only in csa's repository.
"""


def without_parts(text, parts):
    """The text without the sections that begin with these headings, and without the paragraphs that begin with these words."""
    kept, level, in_paragraph = [], 0, False
    for line in text.split("\n"):
        heading = re.match(r"(#+) ", line)
        if heading and level and len(heading[1]) <= level:
            level = 0
        if line in parts and heading:
            level = len(heading[1])
        in_paragraph = bool(line) and (in_paragraph or any(line.startswith(part) for part in parts if not part.startswith("#")))
        if not level and not in_paragraph:
            kept.append(line)
    return re.sub("\n{3,}", "\n\n", "\n".join(kept))


def packaged(source):
    """A document as it is in the package."""

    def link(matched):
        text, target = matched[1], matched[2]
        name, hash_, heading = target.partition("#")
        if re.match("[a-z]+:", target) or not name:
            return matched[0]
        relative = str((TOP / source).parent.joinpath(name).resolve().relative_to(TOP))
        found = DOCUMENTS.get(relative) or FOLDERS.get(relative)
        return f"[{text}]({found}{hash_}{heading})" if found else text

    text = LINK.sub(link, PICTURE.sub("", without_parts((TOP / source).read_text(), LEFT_OUT.get(source, ()))))
    for pattern, place in PLACES:
        text = re.sub(pattern, place, text)
    if source == "README.md":
        title, _, rest = text.partition("\n")
        text = f"{title}\n{NOTE}{rest}"
    return text


def anchors(text):
    """The anchors of a document's headings, as GitHub makes them."""
    heads = re.findall(r"^#+ (.*)$", text, re.MULTILINE)
    return {re.sub(r"[^\w\- ]", "", head.strip().lower()).replace(" ", "-") for head in heads}


def faults(name, text, all_):
    """The links of a document that lead nowhere, and the files that it names as a clone has them."""
    for number, line in enumerate(text.split("\n"), 1):
        for _, target in LINK.findall(line):
            to, _, heading = target.partition("#")
            document = to or name
            if not re.match("[a-z]+:", target) and (document not in all_ or heading and heading not in anchors(all_[document])):
                yield f"{name}:{number}: {target} leads nowhere"
        yield from (f"{name}:{number}: the package has no {path}" for path in OF_A_CLONE.findall(line))


def main():
    texts = {name: packaged(source) for source, name in DOCUMENTS.items()}
    found = [f"package_docs: {fault}\n" for name, text in texts.items() for fault in faults(name, text, texts)]
    sys.stderr.writelines(found)
    for name, text in texts.items():
        Path(sys.argv[1], name).write_text(text)
    return 1 if found else 0


if __name__ == "__main__":
    sys.exit(main())
