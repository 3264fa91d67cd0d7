"""Checks of the words of pages: that no two pages have the same sentence."""
import re

from .common import pages

# So many words in a row stand in two pages only if both say the same.
SHARED = 10


def sentences(page):
    """Returns the sentences of a page as lists of words, without code, the targets of links, and quotations."""
    text = re.sub(r"^```.*?^```|^>.*?$", "\n\n", page, flags=re.S | re.M)
    text = re.sub(r"`[^`]*`|\]\([^)]*\)", " ", text)
    # A sentence ends at its mark, and with its paragraph, its entry of a list or its cell.
    parts = re.split(r"[.:;?!](?=\s)|\||\n\s*\n|\n\s*(?:[-#]|\d+\.) ", text)
    return [re.findall(r"[^\W\d_]+(?:['-][^\W\d_]+)*", it.lower()) for it in parts]


def repeated(texts):
    """Returns the words that sentences of two pages share: of each sentence the first run, with both pages' names."""
    known, found = {}, []
    for name, page in texts.items():
        for words in sentences(page):
            runs = [" ".join(words[at : at + SHARED]) for at in range(len(words) - SHARED + 1)]
            found += [(it, known[it], name) for it in runs if known.setdefault(it, name) != name][:1]
    return found


def check_repeated():
    """No sentence stands in two pages."""
    found = [f"{one} and {other}: {words}" for words, one, other in repeated(pages())]
    return f"these words stand in two pages: {'; '.join(found)}" if found else None


def check_finding():
    """A made-up pair of pages shows that repeated sentences are found, and nothing else."""
    said = "A shard that is read twice\ngives `the same` answer each [time](FORMAT.md) it is asked."
    cases = {
        said: True,
        f"- Before it: {said.lower()}": True,
        f"```\n{said}\n```": False,
        f"> {said.replace(chr(10), ' ')}": False,
        said.replace("answer", "reply"): False,
        said.replace("twice\n", "twice.\n"): False,
        said.replace("twice\n", "twice\n\n"): False,
    }
    wrong = [it for it, is_found in cases.items() if bool(repeated({"one.md": said, "other.md": it})) != is_found]
    return f"a repeated sentence is found or not found in: {wrong}" if wrong or repeated({"one.md": 2 * said}) else None
