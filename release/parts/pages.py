"""The manual page of mdb, and what shells need to complete its words, from its help.

The help comes from the commands' rows (crates/mdb_command_line/src/commands), so nothing is written twice.
"""
import os
import re

from .common import ran

OPTION = re.compile(r"^ {2,6}(?:-(?P<short>\w), )?--(?P<long>[\w-]+)(?: <(?P<value>\w+)>)? {2,}(?P<help>.*)$")
WORD = re.compile(r"^ {2}(?P<word>[<\[]\w+[>\]](?:\.\.\.)?) {2,}(?P<help>.*)$")
COMMAND = re.compile(r"^ {2}(?P<name>[a-z]+) {2,}(?P<about>.*)$")
CHOICES = re.compile(r" \[possible values: (.*)\]$")
# The values that are paths; the others are not completed.
PATHS = {"FILE": "files", "A": "files", "B": "files", "LIST": "files", "HASHES": "files", "OUT": "files",
         "FOLDER": "folders", "TO": "folders"}


class Option:
    def __init__(self, found):
        self.short, self.long, self.value = found["short"], found["long"], found["value"]
        choices = CHOICES.search(found["help"])
        self.choices = choices.group(1).split(", ") if choices else []
        self.help = CHOICES.sub("", found["help"])

    def names(self):
        return ([f"-{self.short}"] if self.short else []) + [f"--{self.long}"]

    def takes(self):
        return PATHS.get(self.value, "") if self.value else None


class Command:
    """A command by its help: what it is about, its usage, its words and options, and the text after them."""

    def __init__(self, program, name, about):
        self.name, self.about = name, about
        lines = ran(program, name, "--help").splitlines()
        usage = next(at for at, line in enumerate(lines) if line.startswith("Usage: "))
        end = lines.index("", usage)
        self.usage = [line.replace("Usage: ", "", 1).strip() for line in lines[usage:end]]
        self.words = [it.groupdict() for it in map(WORD.match, lines) if it]
        self.options = [Option(it) for it in map(OPTION.match, lines) if it]
        last = max(at for at, line in enumerate(lines) if OPTION.match(line))
        self.after = [line.strip() for line in lines[last + 1 :]]


def commands(program):
    found = [it for it in map(COMMAND.match, ran(program, "--help").splitlines()) if it]
    return [Command(program, it["name"], it["about"]) for it in found if it["name"] != "help"]


def roff(text):
    text = text.replace("\\", "\\e").replace("-", "\\-")
    return f"\\&{text}" if text.startswith((".", "'")) else text


def option_item(option):
    names = ", ".join(f"\\fB{roff(it)}\\fR" for it in option.names())
    value = f" \\fI{option.value}\\fR" if option.value else ""
    choices = f" ({' or '.join(option.choices)})" if option.choices else ""
    return [".TP", names + value, roff(option.help + choices) + "."]


def command_section(command):
    lines = [f".SS {command.name}", roff(command.about) + "."]
    for usage in command.usage:
        lines += [".P", f"\\fB{roff(usage)}\\fR"]
    for word in command.words:
        lines += [".TP", f"\\fI{roff(word['word'].strip('<>[].'))}\\fR", roff(word["help"]) + "."]
    for option in command.options:
        if option.long != "help":
            lines += option_item(option)
    lines += [".P", ".nf"] + [roff(line) for line in command.after if line] + [".fi"]
    return lines


STATUSES = (
    ("0", "all was done"),
    ("1", "a file or an output failed, or a lookup found nothing"),
    ("2", "the words are no command"),
    ("3", "check, gc or info found something, or with --strict shards differ or have a record that no shard may have"),
)


def manual(program, found):
    about = ran(program, "--help").splitlines()[0]
    version = ran(program, "--version").split()[1].strip(",")
    lines = [f'.TH MDB 1 "" "mdb {version}" "User Commands"', ".SH NAME", f"mdb \\- {roff(about)}", ".SH SYNOPSIS"]
    lines += [".B mdb", ".I COMMAND", "[\\fIOPTIONS\\fR] [\\fIFILE\\fR]...", ".SH COMMANDS"]
    for command in found:
        lines += command_section(command)
    lines += [".SH EXIT STATUS"]
    for status, when in STATUSES:
        lines += [".TP", f".B {status}", roff(when) + "."]
    return "\n".join(lines) + "\n"


def bash(found):
    lines = ["# Completion of mdb for bash.", "_mdb() {", '    local command=${COMP_WORDS[1]} word=$2 before=$3']
    names = " ".join([it.name for it in found] + ["help"])
    lines += ['    if [ "$COMP_CWORD" -eq 1 ]; then']
    lines += [f'        mapfile -t COMPREPLY < <(compgen -W "{names} --help --version" -- "$word")']
    lines += ["        return", "    fi", '    case "$command $before" in']
    for command in found:
        for option in command.options:
            if option.value:
                cases = " | ".join(f'"{command.name} {it}"' for it in option.names())
                if option.choices:
                    reply = f'-W "{" ".join(option.choices)}"'
                else:
                    reply = {"files": "-f", "folders": "-d", "": '-W ""'}[option.takes()]
                lines.append(f'        {cases}) mapfile -t COMPREPLY < <(compgen {reply} -- "$word"); return ;;')
    lines += ["    esac", '    case "$command" in']
    for command in found:
        options = " ".join(name for it in command.options for name in it.names())
        lines.append(f'        {command.name}) mapfile -t COMPREPLY < <(compgen -W "{options}" -- "$word") ;;')
    lines += ["    esac", '    case "$word" in -*) ;; *) mapfile -t COMPREPLY < <(compgen -f -- "$word") ;; esac', "}",
              "complete -o filenames -F _mdb mdb"]
    return "\n".join(lines) + "\n"


def quoted(text):
    return text.replace("'", "'\\''").replace("[", "\\[").replace("]", "\\]").replace(":", "\\:")


def zsh(found):
    lines = ["#compdef mdb", "# Completion of mdb for zsh.", "_mdb() {", "    local -a commands", "    commands=("]
    lines += [f"        '{it.name}:{quoted(it.about)}'" for it in found]
    lines += ["    )", "    if (( CURRENT == 2 )); then", "        _describe command commands", "        return"]
    lines += ["    fi", "    shift words", "    (( CURRENT-- ))", '    case "$words[1]" in']
    for command in found:
        lines.append(f"        {command.name})")
        arguments = []
        for option in command.options:
            action = "(" + " ".join(option.choices) + ")" if option.choices else {
                "files": "_files", "folders": "_files -/", "": " ", None: ""}[option.takes()]
            value = f":{option.value}:{action}" if option.value else ""
            arguments += [f"'*{it}[{quoted(option.help)}]{value}'" for it in option.names()]
        arguments.append("'*:file:_files'")
        lines.append("            _arguments " + " \\\n                ".join(arguments))
        lines.append("            ;;")
    lines += ["    esac", "}", '_mdb "$@"']
    return "\n".join(lines) + "\n"


def fish(found):
    lines = ["# Completion of mdb for fish."]
    for command in found:
        about = command.about.replace("'", "\\'")
        lines.append(f"complete -c mdb -n __fish_use_subcommand -f -a {command.name} -d '{about}'")
    for command in found:
        for option in command.options:
            words = ["complete -c mdb", f"-n '__fish_seen_subcommand_from {command.name}'", f"-l {option.long}"]
            words += [f"-s {option.short}"] if option.short else []
            if option.choices:
                words.append(f"-x -a '{' '.join(option.choices)}'")
            elif option.value:
                folders = "-x -a '(__fish_complete_directories)'"
                words.append({"files": "-r -F", "folders": folders, "": "-x"}[option.takes()])
            about = option.help.replace("'", "\\'")
            lines.append(" ".join(words + [f"-d '{about}'"]))
    return "\n".join(lines) + "\n"


# Where the page and the completions lie in a release.
PLACES = {
    "mdb.1": "share/man/man1/mdb.1",
    "mdb.bash": "share/bash-completion/completions/mdb",
    "_mdb": "share/zsh/site-functions/_mdb",
    "mdb.fish": "share/fish/vendor_completions.d/mdb.fish",
}


def made(program):
    """Returns the manual page and the completions by their names."""
    program = os.path.abspath(program)
    found = commands(program)
    return {"mdb.1": manual(program, found), "mdb.bash": bash(found), "_mdb": zsh(found), "mdb.fish": fish(found)}
