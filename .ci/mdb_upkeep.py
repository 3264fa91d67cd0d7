"""Rows of .ci/mdb for the upkeep of a folder of shards: inputs that are removed, runs that are killed at each system call,
locks, and files that are no shards. Used by .ci/mdb."""
import fcntl
import os
import resource
import shutil
import subprocess
import time

from library.common import TOP, OutOfReach, Skip
from mdb_system import KEY, in_memory_of, many_shards, needs_root, on_terminal, wants

# What .ci/kill_at.c ends with.
KILLED, UNTRACED = 99, 98


class Store:
    """A folder `in` of shards, and a folder `store` to which they are merged."""

    # Of the same key, but for the last.
    INPUTS = ("one_file.mdb", "one_of_each.mdb", "two_files.mdb", "keyed.mdb")

    def __init__(self, place):
        self.place = place
        # By this time none has expired.
        self.words = ("merge", "in", "--to", "store", "--max-size", "1M", "--hash-key", KEY, "--remove-inputs", "--now", "8")
        self.fill()

    def fill(self):
        for name in ("in", "store"):
            shutil.rmtree(self.place.path(name), ignore_errors=True)
            os.mkdir(self.place.path(name))
        for name in self.INPUTS:
            self.place.write(f"in/{name}", self.place.made[name])

    def run(self, **how):
        return self.place.run(*self.words, **how)

    def shards(self, folder):
        """The bytes of the files of a folder that have the names of shards."""
        names = [it for it in os.listdir(self.place.path(folder)) if it.endswith(".mdb")]
        return {it: self.place.read(f"{folder}/{it}") for it in names}


def tracer(place):
    """Returns the program of .ci/kill_at.c, made in a folder of its own."""
    made = place.path("kill_at")
    if not shutil.which("cc"):
        raise Skip("cc is not there")
    subprocess.run(["cc", "-O1", "-o", made, f"{TOP}/.ci/kill_at.c"], check=True, timeout=60)
    if subprocess.run([made, "1", "/bin/true"], check=False, timeout=20).returncode == UNTRACED:
        raise OutOfReach("the system lets no process trace another")
    return made


def inputs_are_removed(place):
    store = Store(place)
    run = store.run()
    paths = run.stdout.decode().splitlines()
    wants("status", (run.returncode, run.stderr, len(paths)) == (0, b"", 2))
    wants("no input is left, and no lock", (os.listdir(place.path("in")), len(os.listdir(place.path("store")))) == ([], 2))
    wants("names", place.run("check", "--name", "--hash-key", KEY, "store").returncode == 0)
    merged = [it for it in Store.INPUTS if it != "keyed.mdb"]
    for name in merged:
        place.write(name, place.made[name])
    wants("a merge", place.run("merge", *sorted(merged), "-o", "out.mdb").returncode == 0)
    wants("its bytes", place.read("out.mdb") in store.shards("store").values())
    run = store.run()
    wants("nothing is left to do", (run.returncode, run.stdout, run.stderr) == (0, b"", b""))
    # A folder that is merged to itself keeps its results.
    words = ("merge", "store", "--to", "store", "--max-size", "1M", "--hash-key", KEY, "--remove-inputs")
    before = store.shards("store")
    run = place.run(*words)
    wants("again", (run.returncode, sorted(run.stdout.decode().splitlines()), run.stderr) == (0, sorted(paths), b""))
    wants("the results stay", store.shards("store") == before)


def some_inputs_stay(place):
    store = Store(place)
    os.rename(place.path("in/two_files.mdb"), place.path("far.mdb"))
    os.symlink("../far.mdb", place.path("in/two_files.mdb"))
    run = store.run()
    said = b"in/two_files.mdb: it stays, since it is no regular file\n"
    wants("a link", (run.returncode, run.stderr) == (1, said))
    wants("it stays", sorted(os.listdir(place.path("in"))) == ["two_files.mdb"])
    wants("and what it leads to", place.read("far.mdb") == place.made["two_files.mdb"])
    # An input that has a second name in the folder is a result, so it stays.
    store.fill()
    wants("a run", store.run().returncode == 0)
    (path,) = [it for it, data in store.shards("store").items() if data != place.made["keyed.mdb"]][:1]
    os.link(place.path(f"store/{path}"), place.path("in/again.mdb"))
    run = store.run()
    wants("a result", (run.returncode, run.stderr, os.listdir(place.path("in"))) == (0, b"", ["again.mdb"]))
    # Shards that do not agree are not merged, since one of two records would be lost.
    store.fill()
    place.write("in/other_end.mdb", place.made["other_end.mdb"])
    run = store.run()
    wants("a disagreement", run.returncode == 3 and b"differ" in run.stderr)
    wants("all stay", sorted(os.listdir(place.path("in"))) == sorted((*Store.INPUTS, "other_end.mdb")))
    # Nor is a file replaced that has the name of a merge, but other bytes.
    store.fill()
    place.write(f"store/{path}", b"other")
    run = store.run()
    said = f"store: {path} is there, with other bytes than its name says\n"
    wants("a name that is taken", (run.returncode, run.stderr.decode()) == (1, said))
    wants("its bytes", place.read(f"store/{path}") == b"other")
    wants("inputs", sorted(os.listdir(place.path("in"))) == sorted(Store.INPUTS))


def unreadable_inputs_stay(place):
    store = Store(place)
    wants("a run", store.run().returncode == 0)
    results = store.shards("store")
    store.fill()
    place.write("in/cut.mdb", place.made["one_file.mdb"][:300])
    os.mkdir(place.path("none"))
    store.words = (*store.words, "none", "missing", "--skip-unreadable")
    run = store.run()
    said = b"in/cut.mdb: its last 200 bytes are no footer: it was cut or lengthened; it is left out\n"
    said += b"missing: No such file or directory (os error 2); it is left out\n"
    wants("status", (run.returncode, run.stderr) == (4, said))
    wants("results", store.shards("store") == results)
    wants("what is left", os.listdir(place.path("in")) == ["cut.mdb"])


def killed_at_each_call_loses_nothing(place):
    killer = tracer(place)
    store = Store(place)
    before = store.shards("in")
    wants("a run", store.run().returncode == 0)
    results = store.shards("store")
    held = 0
    for call in range(1, 100000):
        store.fill()
        words = [killer, str(call), place.program, *store.words]
        run = subprocess.run(words, capture_output=True, cwd=place.folder, timeout=20, check=False)
        left, made = store.shards("in"), store.shards("store")
        wants(f"call {call}: no other bytes of an input", all(before[it] == data for it, data in left.items()))
        wants(f"call {call}: no half file", all(results.get(it) == data for it, data in made.items()))
        wants(f"call {call}: no record is lost", left == before or made == results)
        held += left == before and made == results
        again = store.run()
        wants(f"call {call}: the next run", again.returncode == 0)
        wants(f"call {call}: what it leaves", (store.shards("in"), store.shards("store")) == ({}, results))
        wants(f"call {call}: nothing else", sorted(os.listdir(place.path("store"))) == sorted(results))
        if run.returncode != KILLED:
            break
    wants("it ended by itself", (run.returncode, run.stderr) == (0, b""))
    wants("it was killed between all results and the first removal", held > 0)


def changed_inputs_stay(place):
    killer = tracer(place)
    store = Store(place)
    wants("a run", store.run().returncode == 0)
    results = store.shards("store")
    place.write("other.mdb", place.made["left.mdb"])
    stayed = 0
    for call in range(1, 100000):
        store.fill()
        # Once both results are there, an input is replaced by another shard.
        command = f'test "$(ls {place.path("store")} | grep -c mdb$)" -lt 2 || cp other.mdb in/one_of_each.mdb'
        words = [killer, str(call), place.program, *store.words]
        run = subprocess.run(
            words, capture_output=True, cwd=place.folder, timeout=20, check=False, env={**os.environ, "AT": command}
        )
        if store.shards("store") != results or store.shards("in").get("one_of_each.mdb") != place.made["left.mdb"]:
            continue
        said = b"in/one_of_each.mdb: it stays, since it was changed after it was read\n"
        if run.returncode == 0:
            break
        wants(f"call {call}", (run.returncode, run.stderr) == (1, said))
        wants("the others are gone", list(store.shards("in")) == ["one_of_each.mdb"])
        stayed += 1
    wants("it stayed", stayed > 0)


def second_run_finds_the_lock(place):
    store = Store(place)
    with open(place.path("store/.mdb.lock"), "w", encoding="ascii") as lock:
        lock.write("12345\n")
        lock.flush()
        # Left by a run that was killed: it locks nothing.
        wants("a file that is left", store.run().returncode == 0)
    store.fill()
    with open(place.path("store/.mdb.lock"), "w", encoding="ascii") as lock:
        lock.write("12345\n")
        lock.flush()
        fcntl.flock(lock, fcntl.LOCK_EX)
        run = store.run()
        said = b"store: another run works there, process 12345: it has locked .mdb.lock\n"
        wants("a lock", (run.returncode, run.stdout, run.stderr) == (1, b"", said))
        wants("nothing is done", sorted(os.listdir(place.path("in"))) == sorted(Store.INPUTS))
        wants("nor made", os.listdir(place.path("store")) == [".mdb.lock"])
    wants("once it is given back", store.run().returncode == 0)


def runs_at_once_lose_nothing(place):
    store = Store(place)
    wants("a run", store.run().returncode == 0)
    results = store.shards("store")
    for _ in range(20):
        store.fill()
        runs = [
            subprocess.Popen(
                [place.program, *store.words], stdout=subprocess.PIPE, stderr=subprocess.PIPE, cwd=place.folder
            )
            for _ in range(4)
        ]
        said = [it.communicate(timeout=20)[1] for it in runs]
        ended = [it.returncode for it in runs]
        wants("one did all", 0 in ended and (store.shards("in"), store.shards("store")) == ({}, results))
        for status, words in zip(ended, said):
            wants("the others", (status, words) == (0, b"") or b"another run works there" in words)
        wants("no lock is left", ".mdb.lock" not in os.listdir(place.path("store")))


def merge_to_store(place, *words, **how):
    return place.run("merge", "many", "--to", "store", "--max-size", "150K", "--hash-key", KEY, *words, **how)


def lock_is_written_to_nothing_else(place):
    many_shards(place, 2)
    os.mkdir(place.path("store"))
    lock = place.path("store/.mdb.lock")
    said = b"store: .mdb.lock there is not the lock of a run\n"
    for content, put in ((b"1\n", os.symlink), (b"1\n", os.link), (b"more than a number of a process", os.rename)):
        place.write("other", content)
        put(place.path("other"), lock)
        run = merge_to_store(place)
        with open(lock, "rb") as file:
            wants("it stays", (file.read(), run.returncode, run.stderr) == (content, 1, said))
        os.unlink(lock)
    os.symlink("nothing", lock)
    run = merge_to_store(place)
    wants("a link to nothing", (run.returncode, run.stderr) == (1, said))
    wants("nothing is made", not os.path.exists(place.path("store/nothing")))


def lock_of_another_user(place):
    needs_root()
    many_shards(place, 2)
    shutil.copy(place.program, place.path("mdb"))
    os.mkdir(place.path("store"))
    os.chmod(place.path("store"), 0o777)
    os.chmod(place.folder, 0o755)
    place.program = place.path("mdb")
    place.write("store/.mdb.lock", b"1\n")

    def as_nobody():
        os.setgid(65534)
        os.setuid(65534)

    with open(place.path("store/.mdb.lock"), "rb") as file:
        fcntl.flock(file, fcntl.LOCK_EX)
        run = merge_to_store(place, preexec_fn=as_nobody)
        said = b"store: another run works there, process 1: it has locked .mdb.lock\n"
        wants("it keeps a run out", (run.returncode, run.stderr) == (1, said))
    run = merge_to_store(place, preexec_fn=as_nobody)
    wants("that of a killed run does not", (run.returncode, run.stderr) == (0, b""))
    wants("it is removed", ".mdb.lock" not in os.listdir(place.path("store")))


def inputs_are_removed_by_one_run(place):
    """The folders of inputs are locked too: what one run reads may be what another one has written."""
    many_shards(place, 4)
    os.mkdir(place.path("store"))
    before = sorted(os.listdir(place.path("many")))
    place.write("many/.mdb.lock", b"77\n")
    with open(place.path("many/.mdb.lock"), "rb") as file:
        fcntl.flock(file, fcntl.LOCK_EX)
        run = merge_to_store(place, "--remove-inputs")
        said = b"many: another run works there, process 77: it has locked .mdb.lock\n"
        wants("a lock of inputs", (run.returncode, run.stdout, run.stderr) == (1, b"", said))
        wants("nothing is made", os.listdir(place.path("store")) == [])
        wants("a merge that removes nothing", merge_to_store(place).returncode == 0)
    wants("the inputs", sorted(os.listdir(place.path("many"))) == [".mdb.lock", *before])
    run = merge_to_store(place, "--remove-inputs")
    wants("they are removed", (run.returncode, os.listdir(place.path("many"))) == (0, []))
    # Inputs in the target's folder, which this run has locked itself, and by another path.
    store = place.path("store")
    for word in ("store", "store/../store", store):
        words = ("merge", word, "--to", "store", "--max-size", "1M", "--hash-key", KEY, "--remove-inputs")
        run = place.run(*words)
        wants(word, (run.returncode, run.stderr, len(os.listdir(store))) == (0, b"", 1))


def result_that_is_a_pipe_is_refused(place):
    many_shards(place, 2)
    os.mkdir(place.path("store"))
    path = merge_to_store(place).stdout.decode().strip()
    name = os.path.basename(path)
    for put in (os.mkfifo, lambda at: os.symlink("nothing", at), os.mkdir):
        shutil.rmtree(place.path("store"))
        os.mkdir(place.path("store"))
        put(place.path(path))
        run = merge_to_store(place)
        said = f"store: {name} is there, with other bytes than its name says\n"
        wants("it is refused", (run.returncode, run.stderr.decode()) == (1, said))


def opposite_runs_lose_nothing(place):
    """Each of two runs at once reads, and removes, what the other one has written."""
    many_shards(place, 12)
    wants("a merge", place.run("merge", "many", "-o", "wanted.mdb").returncode == 0)
    more = ["--max-size", "150K", "--hash-key", KEY, "--remove-inputs"]
    for turn in range(10):
        os.makedirs(place.path("store"), exist_ok=True)
        runs = []
        for source, target in (("many", "store"), ("store", "many")):
            words = [place.program, "merge", source, "--to", target, *more]
            runs.append(subprocess.Popen(words, stdout=subprocess.DEVNULL, stderr=subprocess.PIPE, cwd=place.folder))
            time.sleep(0.002 * turn)
        for run in runs:
            said = run.communicate(timeout=20)[1]
            wants("how it ends", (run.returncode, said) == (0, b"") or b"another run works there" in said)
        wants("a merge of all", place.run("merge", "many", "store", "-o", "all.mdb").returncode == 0)
        wants("no record is lost", place.read("all.mdb") == place.read("wanted.mdb"))


def what_is_no_shard_is_looked_at_alone(place):
    # A header and 2 GiB of zeros, without a footer; and zeros alone.
    for name, start in (("header.mdb", place.made["one_file.mdb"][:48]), ("zeros.mdb", b"")):
        with open(place.path(name), "wb") as file:
            file.write(start)
            file.truncate(2 << 30)
        commands = [("info",), ("files",), ("xorbs",), ("chunks",), ("check",), ("check", "--hash-key", KEY)]
        commands += [("name", "--hash-key", KEY), ("find", "--hash", KEY), ("query", "--hash", KEY)]
        commands += [("merge", "-o", "out.mdb"), ("merge", "--memory", "1M", "-o", "out.mdb")]
        commands += [("drop", "--hash", KEY, "-o", "out.mdb")]
        if not start:
            # These read all that begins with a header, since they need no footer.
            commands += [("eligible",), ("minimal", "-o", "out.mdb"), ("subset", "-o", "out.mdb")]
        commands += [("export", "--key", KEY, "--valid", "9", "-o", "out.mdb"), ("union", "one_file.mdb", "-o", "out.mdb")]
        for words in commands:
            run, seconds = quickest_in_little_room(place, *words, name)
            said = run.stderr.decode()
            wants(f"{words[0]} of {name}: {said}", run.returncode in (1, 3) and "memory" not in said)
            wants(f"{words[0]} of {name}: {seconds} seconds", seconds < 0.1)
    wants("nothing is written", "out.mdb" not in place.names())


def quickest_in_little_room(place, *words):
    """Returns the quickest of three runs with 16 MiB of memory for all, and its seconds of the processor's time."""

    def used():
        of_all = resource.getrusage(resource.RUSAGE_CHILDREN)
        return of_all.ru_utime + of_all.ru_stime

    found = []
    for _ in range(3):
        begun = used()
        run = place.run(*words, preexec_fn=in_memory_of(16 << 20))
        found.append((used() - begun, run))
    seconds, run = min(found, key=lambda it: it[0])
    return run, seconds


def quiet_says_nothing(place):
    many_shards(place, 6)
    for quiet, says in (((), True), (("-q",), False), (("--quiet",), False)):
        status, _, said = on_terminal(place, "merge", "many", "-o", "out.mdb", *quiet)
        wants(f"what is said with {quiet}", (status, bool(said)) == (0, says))
    # Paths are what is asked for.
    os.mkdir(place.path("to"))
    words = ("merge", "many", "--to", "to", "--max-size", "1M", "--hash-key", KEY)
    loud, quiet = (place.run(*words, *it).stdout for it in ((), ("-q",)))
    wants("paths", loud == quiet != b"")


ROWS = (
    inputs_are_removed, some_inputs_stay, unreadable_inputs_stay, killed_at_each_call_loses_nothing, changed_inputs_stay,
    second_run_finds_the_lock, runs_at_once_lose_nothing, lock_is_written_to_nothing_else, lock_of_another_user,
    inputs_are_removed_by_one_run, result_that_is_a_pipe_is_refused, opposite_runs_lose_nothing,
    what_is_no_shard_is_looked_at_alone, quiet_says_nothing,
)
