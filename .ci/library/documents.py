"""Checks of what documents say of the sources, where it can be compared as text."""
import glob
import os
import re

from .common import TOP, pages, read
from .crates import used_by

# The pages that quote contracts.
QUOTING = ("README.md", "docs/HEADLINE.md", "crates/xet_core_structures/CALLING.md")
# The pages that name definitions with their files.
DEFINING = ("docs/HEADLINE.md", "docs/DEFINITIONS.md")
# The crates each of whose modules the tree in docs/ARCHITECTURE.md names.
IN_TREE = ("xet_base", "xet_records", "xet_shards", "xet_core_structures", "placed_shards", "shard_concatenation",
           "shard_bytes", "xet_c")


def flat(text):
    return re.sub(r"\s+", "", text)


def check_quotes():
    """Each contract that a page quotes stands in a source, word by word."""
    sources = "".join(flat(read(it)) for it in glob.glob(f"{TOP}/crates/*/src/**/*.rt", recursive=True))
    for page in QUOTING:
        for kind, block in re.findall(r"^```(\w*)\n(.*?)^```", read(f"{TOP}/{page}"), re.S | re.M):
            if kind not in ("", "rust"):
                continue
            for item in block.split("\n\n"):
                lines = "\n".join(it for it in item.split("\n") if not it.lstrip().startswith("///"))
                # A quote may leave clauses out, so each is looked for by itself.
                for part in re.split(r"(?=\n +ensures )", lines) if "ensures" in item else ():
                    if flat(part) not in sources:
                        return f"{page} quotes what is in no source: {part.strip()[:80]}"
    return None


def check_crates():
    """The table of crates in docs/ARCHITECTURE.md says what crates.txt does."""
    page = read(f"{TOP}/docs/ARCHITECTURE.md")
    table = page[page.index("| Crate | Uses |") : page.index("`crates.txt` lists")]
    rows = re.findall(r"^\| `(\w+)` \| (.*?) \| .* \|$", table, re.M)
    said = {name: set(re.findall(r"`(\w+)`", libraries)) for name, libraries in rows}
    wrong = sorted(name for name, libraries in used_by().items() if said.get(name) != set(libraries))
    return f"docs/ARCHITECTURE.md says otherwise than crates.txt what these use: {', '.join(wrong)}" if wrong else None


def check_tree():
    """The tree of modules in docs/ARCHITECTURE.md has a word for each name of a module of the library."""
    page = read(f"{TOP}/docs/ARCHITECTURE.md")
    tree = page[page.index("## The modules") : page.index("## Limits")]
    files = [it for name in IN_TREE for it in glob.glob(f"{TOP}/crates/{name}/src/**/*.rt", recursive=True)]
    names = {os.path.basename(it).removesuffix(".rt") for it in files} - {"lib"}
    lacking = sorted(names - set(re.findall(r"\w+", tree)))
    return f"the tree in docs/ARCHITECTURE.md lacks: {', '.join(lacking)}" if lacking else None


def check_trusted():
    """docs/PROVED.md names each library of the toolchain that a crate uses."""
    crates = used_by()
    page = read(f"{TOP}/docs/PROVED.md")
    page = page[page.index("## What is trusted") :]
    libraries = {it for names in crates.values() for it in names} - set(crates)
    lacking = sorted(it for it in libraries if f"`{it}`" not in page)
    return f"docs/PROVED.md does not name as trusted: {', '.join(lacking)}" if lacking else None


def check_definitions():
    """Each definition that a page names with its file stands there, and each word of the headline has such names."""
    wrong = []
    for page in DEFINING:
        text = read(f"{TOP}/{page}")
        named = re.findall(r"((?:`\w+`,?\s+)+)of\s+\[\w+\]\(\.\./(\S+\.antt)\)", text)
        listed = re.findall(r"^\d+\. \[\w+\]\(\.\./(\S+\.antt)\)(.*(?:\n .*)*)", text, re.M)
        for names, file in named + [(names, file) for file, names in listed]:
            found = re.findall(r"^ *(?:\w+ pub|pub record|pub data) (\w+)", read(f"{TOP}/{file}"), re.M)
            wrong += [f"{page}: {it} of {file}" for it in re.findall(r"`(\w+)`", names) if it not in found]
    words = read(f"{TOP}/{DEFINING[0]}").partition("## Word by word")[2].partition("\n\nThe theorem")[0]
    for entry in re.split(r"\n- ", words)[1:]:
        if not re.search(r"`\s+of\s+\[\w+\]\(\S+\.antt\)\.$", entry):
            wrong.append(f"{DEFINING[0]}: {entry[:30]}")
    return f"these definitions stand elsewhere, or none is named: {', '.join(wrong)}" if wrong else None


def check_order():
    """Each file of definitions that docs/DEFINITIONS.md lists uses only those that it lists above."""
    above, wrong = set(), []
    page = read(f"{TOP}/docs/DEFINITIONS.md")
    for file in re.findall(r"^\d+\. \[\w+\]\(\.\./crates/(\S+)\.antt\)", page, re.M):
        # The types of the Rust code and the toolchain's definitions are not listed.
        use = r"use Rattle\.((?!std\.)\w+\.specs\.(?!declared\.|contracts\.)[\w.]+?)(?:\.\{| as )"
        used = {it.replace(".", "/") for it in re.findall(use, read(f"{TOP}/crates/{file}.antt"))}
        wrong += [f"{it} above {file}" for it in sorted(used - above)]
        above.add(file)
    return f"docs/DEFINITIONS.md does not list {', '.join(wrong)}" if wrong or not above else None


def anchors(text):
    """Returns the names by which links lead to the headings of a page."""
    headings = re.findall(r"^#+ (.*)$", re.sub(r"^```.*?^```", "", text, flags=re.S | re.M), re.M)
    return {re.sub(r"[^\w\- ]", "", it.lower()).replace(" ", "-") for it in headings}


def check_links():
    """Each link of a page leads to a file or a folder, and to a heading if it names one."""
    broken = []
    for page, text in pages().items():
        text = re.sub(r"^```.*?^```", "", text, flags=re.S | re.M)
        for link in re.findall(r"\]\(([^)\s]+)\)", text):
            path, _, heading = link.partition("#")
            target = os.path.join(TOP, os.path.dirname(page), path) if path else f"{TOP}/{page}"
            if ":" in link or os.path.exists(target) and (not heading or heading in anchors(read(target))):
                continue
            broken.append(f"{page}: {link}")
    return f"these links lead nowhere: {', '.join(broken)}" if broken else None
