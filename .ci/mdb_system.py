"""Rows of .ci/mdb for what sessions cannot show: devices, links, modes, owners, killed runs, terminals, the clock. Used
by .ci/mdb."""
import contextlib
import json
import os
import re
import resource
import shutil
import signal
import stat
import subprocess
import sys
import tempfile
import threading
import time

from library.common import TOP, OutOfReach, Skip

# The key of the hashes by which files are named.
KEY = "0" * 63 + "7"


class Place:
    """A folder with one_file.mdb and both.mdb, and the program to run there."""

    def __init__(self, program, folder, made):
        self.program, self.folder, self.made = program, folder, made
        for name in ("one_file.mdb", "both.mdb", "both_3.mdb"):
            self.write(name, made[name])

    def path(self, name):
        return f"{self.folder}/{name}"

    def write(self, name, data):
        with open(self.path(name), "wb") as file:
            file.write(data)

    def read(self, name):
        with open(self.path(name), "rb") as file:
            return file.read()

    def run(self, *words, **how):
        return subprocess.run(
            [self.program, *words], capture_output=True, cwd=self.folder, timeout=20, check=False, **how
        )

    def merge(self, target, **how):
        return self.run("merge", "both.mdb", "-o", target, **how)

    def names(self):
        return sorted(os.listdir(self.folder))


def wants(said, holds):
    """Raises what is wrong, unless it holds."""
    if not holds:
        raise AssertionError(said)


def needs_root():
    if os.geteuid() != 0:
        raise OutOfReach("it needs root")


def new_file_has_the_mode_of_others(place):
    os.umask(0o022)
    wants("status", place.merge("out.mdb").returncode == 0)
    wants("its bytes", place.read("out.mdb") == place.made["both_3.mdb"])
    wants("its mode", stat.S_IMODE(os.stat(place.path("out.mdb")).st_mode) == 0o644)


def mode_stays(place):
    for mode in (0o600, 0o640, 0o444):
        place.write("out.mdb", b"")
        os.chmod(place.path("out.mdb"), mode)
        wants("status", place.merge("out.mdb").returncode == 0)
        wants("its bytes", place.read("out.mdb") == place.made["both_3.mdb"])
        wants("its mode", stat.S_IMODE(os.stat(place.path("out.mdb")).st_mode) == mode)
        os.remove(place.path("out.mdb"))


def owner_stays(place):
    needs_root()
    place.write("out.mdb", b"")
    os.chown(place.path("out.mdb"), 12345, 12346)
    wants("status", place.merge("out.mdb").returncode == 0)
    there = os.stat(place.path("out.mdb"))
    wants("its owner and group", (there.st_uid, there.st_gid) == (12345, 12346))
    wants("its bytes", place.read("out.mdb") == place.made["both_3.mdb"])


def device_is_written_to(place):
    needs_root()
    os.mknod(place.path("null"), stat.S_IFCHR | 0o666, os.makedev(1, 3))
    before = place.names()
    run = place.merge("null")
    wants("status", (run.returncode, run.stderr) == (0, b""))
    wants("it is a device", stat.S_ISCHR(os.stat(place.path("null")).st_mode))
    wants("nothing else is there", place.names() == before)


def full_device_fails(place):
    run = place.merge("/dev/full")
    wants("status", run.returncode == 1)
    wants("it says why", b"/dev/full: No space left on device" in run.stderr)
    wants("it is a device", stat.S_ISCHR(os.stat("/dev/full").st_mode))


def pipe_is_written_to(place):
    os.mkfifo(place.path("pipe"))
    got = []
    reader = threading.Thread(target=lambda: got.append(place.read("pipe")))
    reader.start()
    run = place.merge("pipe")
    reader.join(20)
    wants("status", (run.returncode, run.stderr) == (0, b""))
    wants("its bytes", got == [place.made["both_3.mdb"]])
    wants("it is a pipe", stat.S_ISFIFO(os.stat(place.path("pipe")).st_mode))


def link_is_followed(place):
    os.mkdir(place.path("far"))
    place.write("far/real.mdb", b"")
    os.chmod(place.path("far/real.mdb"), 0o600)
    os.symlink("far/real.mdb", place.path("near.mdb"))
    os.symlink("near.mdb", place.path("link.mdb"))
    wants("status", place.merge("link.mdb").returncode == 0)
    for name, leads in (("link.mdb", "near.mdb"), ("near.mdb", "far/real.mdb")):
        wants(f"{name} is a link", os.readlink(place.path(name)) == leads)
    wants("its bytes", place.read("far/real.mdb") == place.made["both_3.mdb"])
    wants("its mode", stat.S_IMODE(os.stat(place.path("far/real.mdb")).st_mode) == 0o600)
    wants("nothing else is there", os.listdir(place.path("far")) == ["real.mdb"])


def link_to_nothing_is_refused(place):
    os.symlink("nothing.mdb", place.path("link.mdb"))
    run = place.merge("link.mdb")
    wants("status", run.returncode == 1)
    wants("it is a link", os.readlink(place.path("link.mdb")) == "nothing.mdb")
    wants("nothing else is there", place.names() == ["both.mdb", "both_3.mdb", "link.mdb", "one_file.mdb"])


def folder_is_refused(place):
    os.mkdir(place.path("folder"))
    run = place.merge("folder")
    wants("status", run.returncode == 1)
    wants("it says why", b"folder: Is a directory" in run.stderr)
    wants("nothing else is there", place.names() == ["both.mdb", "both_3.mdb", "folder", "one_file.mdb"])


def taken_names_block_nothing(place):
    for number in range(200):
        place.write(f"out.mdb.new{number}", b"")
    wants("status", place.merge("out.mdb").returncode == 0)
    wants("its bytes", place.read("out.mdb") == place.made["both_3.mdb"])


def limited(room):
    """As `preexec_fn`: a signal ends the process where a file gets longer than this."""
    return lambda: resource.setrlimit(resource.RLIMIT_FSIZE, (room, room))


def refused(room):
    """The same, but a write that makes it longer fails, as on a full disk."""

    def ignore_and_limit():
        signal.signal(signal.SIGXFSZ, signal.SIG_IGN)
        limited(room)()

    return ignore_and_limit


def in_memory_of(room):
    """As `preexec_fn`: the process has no more memory than this."""
    return lambda: resource.setrlimit(resource.RLIMIT_AS, (room, room))


def full_disk_leaves_the_target(place):
    before = place.names()
    run = place.merge("one_file.mdb", preexec_fn=refused(100))
    wants("status", run.returncode == 1)
    wants("it says why", b"one_file.mdb: File too large" in run.stderr)
    wants("the target", place.read("one_file.mdb") == place.made["one_file.mdb"])
    wants("nothing else is there", place.names() == before)


def killed_run_leaves_the_target(place):
    before = place.names()
    # Written bytes past the limit end the process by a signal.
    run = place.merge("one_file.mdb", preexec_fn=limited(100))
    wants("it was killed", run.returncode == -signal.SIGXFSZ)
    wants("the target", place.read("one_file.mdb") == place.made["one_file.mdb"])
    (left,) = set(place.names()) - set(before)
    wants("the name of what is left", re.fullmatch(r"one_file\.mdb\.[0-9a-f]{16}\.new", left))
    run = place.merge("one_file.mdb")
    wants("the next run", run.returncode == 0)
    said = f"{left}: left beside one_file.mdb by a run that was ended, or that still writes\n"
    wants("it is named", run.stderr.decode() == said)
    wants("the target is new", place.read("one_file.mdb") == place.made["both_3.mdb"])
    wants("what is left stays", set(place.names()) - set(before) == {left})


def closed_pipe_ends_quietly(place):
    for words, status in ((("chunks", "both.mdb"), 0), (("merge", "both.mdb", "-o", "-"), 1)):
        reads, writes = os.pipe()
        os.close(reads)
        run = subprocess.run(
            [place.program, *words], stdout=writes, stderr=subprocess.PIPE, cwd=place.folder, timeout=20, check=False
        )
        os.close(writes)
        wants(f"{words[0]}", (run.returncode, run.stderr) == (status, b""))


def terminal_gets_no_shard(place):
    ours, terminal = os.openpty()
    run = subprocess.run(
        [place.program, "merge", "both.mdb", "-o", "-"], stdout=terminal, stderr=subprocess.PIPE, cwd=place.folder,
        timeout=20, check=False,
    )
    os.close(terminal)
    os.close(ours)
    said = b"standard output: it is a terminal: write the shard to a file, by -o, or to a pipe\n"
    wants("it says why", (run.returncode, run.stderr) == (1, said))


def terminal_shows_progress(place):
    os.mkfifo(place.path("slow"))

    def feed():
        with open(place.path("slow"), "wb") as pipe:
            time.sleep(1.2)
            pipe.write(place.made["both.mdb"])

    feeder = threading.Thread(target=feed)
    feeder.start()
    ours, terminal = os.openpty()
    run = subprocess.run(
        [place.program, "merge", "both.mdb", "slow", "both_3.mdb", "-o", "made.mdb"], stderr=terminal,
        cwd=place.folder, timeout=20, check=False,
    )
    feeder.join()
    os.close(terminal)
    said = os.read(ours, 4096)
    os.close(ours)
    wants("status", run.returncode == 0)
    wants("what is made", place.read("made.mdb") == place.made["both_3.mdb"])
    wants("lines", said == b"\r\x1b[K2 of 3 shards read\r\x1b[Kmerging 3 shards\r\x1b[K")


def on_terminal(place, *words):
    """Runs the program with standard error on a terminal. Returns its status, what it prints and what it says."""
    ours, terminal = os.openpty()
    run = subprocess.run(
        [place.program, *words], stdout=subprocess.PIPE, stderr=terminal, cwd=place.folder, timeout=20, check=False
    )
    os.close(terminal)
    said = b""
    # Once the other end is closed, a read fails if nothing is left.
    with contextlib.suppress(OSError):
        while part := os.read(ours, 4096):
            said += part
    os.close(ours)
    return run.returncode, run.stdout, said.replace(b"\r\n", b"\n")


def check_says_how_much_it_looked_at(place):
    place.write("text.mdb", place.made["text.mdb"])
    wrong = b"text.mdb: no shard: its first 32 bytes are no tag\n"
    names = ("both.mdb", "text.mdb", "one_file.mdb")
    counted = (3, wrong, b"3 shards, 1 with findings\n")
    wants("a check", on_terminal(place, "check", *names) == counted)
    wants("of one", on_terminal(place, "check", "both.mdb") == (0, b"", b"1 shard, 0 with findings\n"))
    wants("quietly", on_terminal(place, "check", "-q", *names) == (3, wrong, b""))
    none = b"missing: No such file or directory (os error 2)\n"
    counted = (1, b"", none + b"2 shards, 0 with findings, 1 not read\n")
    wants("a failure", on_terminal(place, "check", "both.mdb", "missing") == counted)
    wants("another command", on_terminal(place, "files", "one_of_each.mdb", "missing")[2].count(b"\n") == 2)
    wants("no terminal", place.run("check", *names).stderr == b"")
    status, printed, said = on_terminal(place, "check", "--json", *names)
    wants("as JSON", (status, len(printed.splitlines()), said) == (3, 1, b""))


def now_is_the_clock(place):
    before = int(time.time())
    wants("status", place.run("minimal", "both.mdb", "-o", "out.mdb").returncode == 0)
    created = json.loads(place.run("info", "--json", "out.mdb").stdout)["created"]["seconds"]
    wants("when it was created", before <= created <= time.time())


def many_shards(place, count):
    """Makes shards of 70 kB in a folder, each of which has half of its records in the one after it."""
    maker = f"{TOP}/bindings/python/examples/made_shards.py"
    words = [sys.executable, maker, place.path("many"), "--shards", str(count)]
    subprocess.run(words, check=True, timeout=120)


def merge_in_parts_is_the_merge(place):
    many_shards(place, 40)
    for words in ((), ("--expiry", "1700000000"), ("--format", "2"), ("--strict",)):
        wants("in one", place.run("merge", "many", *words, "-o", "one.mdb").returncode == 0)
        run = place.run("merge", "many", *words, "--memory", "1M", "-o", "parts.mdb")
        wants("in parts", (run.returncode, run.stderr) == (0, b""))
        wants("the same", place.read("parts.mdb") == place.read("one.mdb"))
    run = place.run("merge", "many", "--memory", "1M", "--by-key", ".")
    wants("by keys", (run.returncode, run.stderr) == (0, b""))
    wants("the same by keys", place.read(f"{'0' * 64}.mdb") == place.read("one.mdb"))
    wants("nothing else is there", len(place.names()) == 7)


def merge_in_parts_takes_little_memory(place):
    many_shards(place, 120)
    # Less than the shards have together, which is over 8 MiB, beside the program itself.
    little_room = in_memory_of(os.path.getsize(place.program) + (8 << 20))
    run = place.run("merge", "many", "-o", "out.mdb", preexec_fn=little_room)
    said = b": out of memory: with --memory SIZE a merge takes about that much\n"
    wants("in one", run.returncode == 1 and run.stderr.endswith(said))
    run = place.run("merge", "many", "--memory", "1M", "-o", "out.mdb", preexec_fn=little_room)
    wants("in parts", (run.returncode, run.stderr) == (0, b""))


def merge_of_more_than_memory_reads_ends_alone(place):
    # Shards of 1 TB together, of which only the ends are on the disk.
    for name in ("one.mdb", "two.mdb"):
        place.write(name, place.made["one_file.mdb"])
        with open(place.path(name), "r+b") as file:
            file.seek(1 << 39)
            file.write(place.made["one_file.mdb"][-200:])
    run = place.run("merge", "one.mdb", "two.mdb", "-o", "out.mdb")
    said = b"one.mdb and two.mdb: out of memory: with --memory SIZE a merge takes about that much\n"
    wants("a refusal", (run.returncode, run.stderr) == (1, said))
    wants("nothing is written", not os.path.exists(place.path("out.mdb")))


def failed_merge_in_parts_leaves_the_target(place):
    many_shards(place, 20)
    before = place.names()
    words = ("merge", "many", "--memory", "1M", "-o", "one_file.mdb")
    run = place.run(*words, preexec_fn=refused(1 << 17))
    wants("status", (run.returncode, run.stderr) == (1, b"one_file.mdb: File too large (os error 27)\n"))
    place.write("many/wrong.mdb", place.read("many/7.mdb")[:-300] + bytes(100) + place.read("many/7.mdb")[-200:])
    place.write("many/cut.mdb", place.read("many/7.mdb")[:40000])
    run = place.run(*words)
    said = b"many/cut.mdb: its last 200 bytes are no footer: it was cut or lengthened\n"
    wants("of a shard that was cut", (run.returncode, run.stderr) == (1, said))
    wants("the target", place.read("one_file.mdb") == place.made["one_file.mdb"])
    wants("nothing else is there", place.names() == before)


def killed_merge_in_parts_leaves_one_file(place):
    many_shards(place, 20)
    before = place.names()
    words = ("merge", "many", "--memory", "1M", "-o", "one_file.mdb")
    run = place.run(*words, preexec_fn=limited(1 << 17))
    wants("it was killed", run.returncode == -signal.SIGXFSZ)
    wants("the target", place.read("one_file.mdb") == place.made["one_file.mdb"])
    (left,) = set(place.names()) - set(before)
    run = place.run(*words)
    said = f"{left}: left beside one_file.mdb by a run that was ended, or that still writes\n"
    wants("it is named", (run.returncode, run.stderr.decode()) == (0, said))


def merge_in_parts_wants_regular_files(place):
    os.mkfifo(place.path("pipe"))
    for words, named in ((("-", "-o", "out.mdb"), "-"), (("pipe", "-o", "out.mdb"), "pipe")):
        run = place.run("merge", "both.mdb", *words, "--memory", "1M")
        said = f"{named}: it is no regular file, which --memory, --to, gc and report need\n"
        wants(named, (run.returncode, run.stderr.decode()) == (1, said))
    for target, named in (("-", "standard output"), ("pipe", "pipe")):
        run = place.run("merge", "both.mdb", "-o", target, "--memory", "1M")
        said = f"{named}: it is no regular file, which --memory needs to write to\n"
        wants(target, (run.returncode, run.stderr.decode()) == (1, said))
    wants("nothing else is there", place.names() == ["both.mdb", "both_3.mdb", "one_file.mdb", "pipe"])


def groups_are_named_by_their_bytes(place):
    many_shards(place, 6)
    words = ("merge", "many", "--to", "store", "--max-size", "150K", "--hash-key", KEY)
    run = place.run(*words)
    wants("no folder", (run.returncode, run.stderr) == (1, b"store: No such file or directory (os error 2)\n"))
    os.mkdir(place.path("store"))
    run = place.run(*words)
    paths = run.stdout.decode().splitlines()
    wants("status", (run.returncode, run.stderr, len(paths)) == (0, b"", 3))
    wants("what is there", sorted(paths) == [f"store/{it}" for it in sorted(os.listdir(place.path("store")))])
    for at, path in enumerate(paths):
        run = place.run("merge", f"many/{2 * at}.mdb", f"many/{2 * at + 1}.mdb", "-o", "out.mdb")
        wants("the merge", run.returncode == 0)
        wants("its bytes", place.read(path) == place.read("out.mdb"))
    run = place.run("check", "--name", "--hash-key", KEY, "store")
    wants("the names", (run.returncode, run.stdout) == (0, b""))
    run = place.run(*words)
    wants("again", (run.returncode, run.stdout.decode().splitlines()) == (0, paths))
    wants("nothing else is there", sorted(paths) == [f"store/{it}" for it in sorted(os.listdir(place.path("store")))])


def closed_streams_get_no_file(place):
    """Messages are not written into an output that got the number of a standard stream."""
    other = bytearray(place.made["one_file.mdb"])
    # The bytes of its segment, whose row begins at 96.
    other[132] += 1
    place.write("other.mdb", other)
    words = ("merge", "one_file.mdb", "other.mdb", "-o", "out.mdb")
    run = place.run(*words)
    wants("a report", (run.returncode, b"a record differs" in run.stderr) == (0, True))
    made = place.read("out.mdb")
    for more in ((), ("--memory", "1M")):
        for streams in ((0,), (1,), (2,), (0, 1, 2)):
            def close(streams=streams):
                for it in streams:
                    os.close(it)

            os.unlink(place.path("out.mdb"))
            run = place.run(*words, *more, preexec_fn=close)
            wants("status", run.returncode == 0)
            wants("what is made", place.read("out.mdb") == made)
    run = place.run("info", "both.mdb", preexec_fn=lambda: os.close(1))
    wants("what is printed to none", run.returncode == 1)


def folder_without_a_name_is_none(place):
    for words in (("--by-key", ""), ("--to", "", "--max-size", "1M", "--hash-key", "7" * 64)):
        run = place.run("merge", "both.mdb", *words)
        wants(words[0], (run.returncode, b"'' is no folder" in run.stderr) == (2, True))


def controls_in_names_that_are_left_are_not_printed(place):
    place.write("t\x1b[31mx.mdb.0123456789abcdef.new", b"")
    run = place.merge("t\x1b[31mx.mdb")
    name = "t\\u{1b}[31mx.mdb"
    said = f"{name}.0123456789abcdef.new: left beside {name} by a run that was ended, or that still writes\n"
    wants("it is named", (run.returncode, run.stderr.decode()) == (0, said))


def file_is_replaced_in_any_folder(place):
    folder = os.path.join(place.folder.encode(), b"d\xff")
    os.mkdir(folder)
    words = [place.program, "merge", "../both.mdb", "-o", "out.mdb"]
    for _ in range(2):
        run = subprocess.run(words, capture_output=True, cwd=folder, timeout=20, check=False)
        wants("status", (run.returncode, run.stderr) == (0, b""))


def garbage_in_little_memory_is_the_same(place):
    many_shards(place, 12)
    run = place.run("gc", "many")
    wants("in one pass", (run.returncode, run.stderr) == (3, b""))
    found = run.stdout.decode().splitlines()
    wants("each once", len(found) > 128 and len(set(found)) == len(found))
    # PATH, "xorb" and 64 digits
    lines = [re.fullmatch(r"(many/\d+\.mdb): xorb ([0-9a-f]{64}): (.*)", it) for it in found]
    wants("in ascending order", found == sorted(found, key=lambda line: line.partition(": ")[2][:69]))
    alone = {name: place.run("gc", f"many/{name}").stdout.decode() for name in os.listdir(place.path("many"))}
    for path, xorb, said in (it.groups() for it in lines):
        first = min(name for name in alone if f"xorb {xorb}: {said}\n" in alone[name])
        wants(f"{xorb} is in {path}", path == f"many/{first}")
    parts = place.run("gc", "many", "--memory", "1")
    wants("in several passes", (parts.returncode, parts.stdout, parts.stderr) == (3, run.stdout, b""))
    wants("nothing is written", place.names() == ["both.mdb", "both_3.mdb", "many", "one_file.mdb"])


def pages_have_all_commands(place):
    subprocess.run([f"{TOP}/.ci/mdb_pages", place.program, place.path("pages")], check=True, timeout=60)
    about = place.run("--help").stdout.decode()
    commands = [it for it in re.findall(r"^  ([a-z]+)  ", about, re.MULTILINE) if it != "help"]
    wants("all commands", len(commands) == 19)
    for page in ("mdb.1", "mdb.bash", "_mdb", "mdb.fish"):
        text = place.read(f"pages/{page}").decode().replace("\\-", "-")
        for command in commands:
            wants(f"{command} in {page}", re.search(rf"\b{command}\b", text))
            for option in re.findall(r"--([a-z-]+)", place.run(command, "--help").stdout.decode()):
                wants(f"{option} of {command} in {page}", re.search(rf"\b{option}\b", text) or option == "help")
    words = "COMP_WORDS=(mdb merge --st); COMP_CWORD=2; _mdb mdb --st merge; echo ${COMPREPLY[@]}"
    run = subprocess.run(
        ["bash", "-c", f". {place.path('pages/mdb.bash')}; {words}"], capture_output=True, check=True, timeout=20
    )
    wants("a word is completed", run.stdout == b"--strict\n")


def shells_read_their_pages(place):
    subprocess.run([f"{TOP}/.ci/mdb_pages", place.program, place.path("pages")], check=True, timeout=60)
    for shell, page in (("zsh", "_mdb"), ("fish", "mdb.fish")):
        if not shutil.which(shell):
            raise Skip(f"{shell} is not there")
        subprocess.run([shell, "-n", place.path(f"pages/{page}")], check=True, timeout=20)


ROWS = (
    new_file_has_the_mode_of_others, mode_stays, owner_stays, device_is_written_to, full_device_fails,
    pipe_is_written_to, link_is_followed, link_to_nothing_is_refused, folder_is_refused, taken_names_block_nothing,
    full_disk_leaves_the_target, killed_run_leaves_the_target, closed_pipe_ends_quietly, terminal_gets_no_shard,
    terminal_shows_progress, check_says_how_much_it_looked_at, now_is_the_clock, merge_in_parts_is_the_merge,
    merge_in_parts_takes_little_memory, merge_of_more_than_memory_reads_ends_alone,
    failed_merge_in_parts_leaves_the_target, killed_merge_in_parts_leaves_one_file,
    merge_in_parts_wants_regular_files, groups_are_named_by_their_bytes, closed_streams_get_no_file,
    folder_without_a_name_is_none, controls_in_names_that_are_left_are_not_printed, file_is_replaced_in_any_folder,
    garbage_in_little_memory_is_the_same, pages_have_all_commands, shells_read_their_pages,
)


def check_rows(program, made, rows):
    """Returns what is wrong with each row, None if nothing is, or the `Skip` of one that was not run."""
    answers = []
    for row in rows:
        with tempfile.TemporaryDirectory() as folder:
            name = row.__name__.replace("_", " ")
            try:
                row(Place(program, folder, made))
                answers.append((name, None))
            except Skip as why:
                answers.append((name, why))
            except (AssertionError, ValueError, OSError, subprocess.TimeoutExpired) as why:
                answers.append((name, f"{type(why).__name__}: {why}"))
    return answers
