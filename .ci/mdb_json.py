"""Compares the members of what mdb prints as JSON with the table of its page, crates/mdb/README.md. Used by .ci/mdb."""
import json
import re
import subprocess

HEAD = "| Printed by | Members |"
FILE = "0" * 14 + "64" + "0" * 15 + "1" + "0" * 32
XORB = FILE.replace("64", "0a", 1)
CHUNK = FILE.replace("64", "15", 1)
# What prints the members of each line of the table, on files of vectors/mdb/files.
COMMANDS = {
    "each": [("info",)],
    "info": [("info",)],
    "info --brief": [("info", "--brief")],
    "files": [("files", "--long")],
    "xorbs": [("xorbs", "--long")],
    "chunks": [("chunks", "--long")],
    "find": [("find", "--costs", "--hash", FILE), ("find", "--xorbs", "--hash", XORB), ("find", "--hash", XORB)],
    "query": [("query", "--hash", CHUNK)],
    "check": [("check", "--name", "--deep")],
    "gc": [("gc",)],
    "name": [("name", "--hash-key", FILE)],
    "eligible": [("eligible",)],
}

# What is said on standard error, and the members that are its alone.
REPORTED = {"a failure": ("info", "missing.mdb"), "an expired shard": ("find", "plain.mdb", FILE)}


def shape(value):
    """Returns a value's members, each with its own; of a list of objects those of its items, as of a member `[]`."""
    if isinstance(value, dict):
        return {name: shape(it) for name, it in value.items()}
    items = joined(map(shape, value)) if isinstance(value, list) else {}
    return {"[]": items} if items else {}


def joined(shapes):
    """Returns the members that any of some shapes has."""
    every = {}
    for it in shapes:
        for name, own in it.items():
            every[name] = joined([every.get(name, {}), own])
    return every


def shape_of(text):
    """Returns the shape that a text such as `a,b{c,d},e[f]` says."""
    opened = {"{": "{", "[": '{"[]":{', "": "{}"}
    quoted = re.sub(r"(\w+)([{[]?)", lambda it: f'"{it[1]}":{opened[it[2]]}', text.replace("]", "}}"))
    return json.loads("{" + quoted + "}")


def table(page):
    """Returns the lines of the table: what prints, and the members."""
    lines = page[page.index(HEAD) :].splitlines()[2:]
    found = {}
    for line in lines:
        if not line.startswith("|"):
            break
        _, name, names, _ = line.split("|")
        found[name.strip().strip("`")] = shape_of(names.split("`")[1])
    # Some also print what other commands do.
    found["find"]["found"] = joined([found["files"], found["xorbs"]])
    found["check"] = joined([found["check"], found["gc"]])
    return found


def printed(program, folder, words, names):
    run = subprocess.run([program, *words, "--json", *names], capture_output=True, cwd=folder, timeout=20, check=False)
    return [json.loads(it) for it in run.stdout.decode().splitlines()]


def check_members(program, folder, made, page):
    """Returns what is wrong with each line of the table, or None."""
    shards = ("plain.mdb", "one_of_each.mdb", "all_parts.mdb", "keyed.mdb")
    shards = [it for it in shards if it in made]
    for name in shards:
        with open(f"{folder}/{name}", "wb") as file:
            file.write(made[name])
    said, answers = table(page), []
    for name, runs in COMMANDS.items():
        values = [it for words in runs for names in (shards, shards[:1]) for it in printed(program, folder, words, names)]
        found, wanted = joined(map(shape, values)), said.get(name, {})
        if name == "each":
            found = {"shard": found["shard"]}
        why = None if {**found, "shard": {}} == {**wanted, "shard": {}} else f"it has {found}"
        if not why and any(next(iter(it)) != "shard" for it in values):
            why = "a line does not begin with the shard"
        answers.append((f"the members of {name}", why))
    for name, words in REPORTED.items():
        run = subprocess.run([program, *words, "--json"], capture_output=True, cwd=folder, timeout=20, check=False)
        found = joined(shape(json.loads(it)) for it in run.stderr.decode().splitlines())
        wanted = {"shard": {}, **said.get(name, {})}
        answers.append((f"the members of {name}", None if found == wanted else f"it has {found}"))
    unknown = set(said) - set(COMMANDS) - set(REPORTED)
    return answers + [(f"the members of {it}", "no such command") for it in sorted(unknown)]
