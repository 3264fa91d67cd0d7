"""Rows of .ci/mdb for what is read: words, folders, lists and standard input, names that are no text, files that are no
shards or have no footer. Used by .ci/mdb."""
import os
import subprocess
import threading

from mdb_system import wants


def word_that_is_no_text(place):
    run = place.run("info", b"a\xff.mdb", "one_file.mdb")
    wants("status", run.returncode == 1)
    said = b"a\\xff.mdb: the name is not UTF-8, so it can't be opened\n"
    wants("it is named", run.stderr == said)
    wants("the other file", run.stdout.startswith(b"one_file.mdb: version 3"))
    run = place.run("merge", "both.mdb", b"a\xff.mdb", "-o", "out.mdb")
    wants("status of a merge", (run.returncode, run.stderr) == (1, said))
    wants("nothing is written", "out.mdb" not in place.names())
    run = place.run("merge", "both.mdb", b"a\xff.mdb", "--skip-unreadable", "-o", "out.mdb")
    wants("it is left out", (run.returncode, run.stderr) == (4, said) and "out.mdb" in place.names())
    run = place.run("merge", "both.mdb", "--skip-unreadable", "-o", b"a\xff.mdb")
    wants("a target is not", (run.returncode, run.stderr) == (1, said) and "a\\xff.mdb" not in place.names())


def standard_input_is_a_shard(place):
    shard = place.made["one_file.mdb"]
    run = place.run("info", "--brief", "-", input=shard)
    counts = "452 bytes, files 1, xorbs 0, chunks 0, stored 0, materialized 5"
    said = f"-: version 3, {counts}, expires none\ntotal: 1 shards, {counts}\n"
    wants("its summary", (run.returncode, run.stdout.decode(), run.stderr) == (0, said, b""))
    run = place.run("merge", "--by-key", ".", "-", "both.mdb", input=shard)
    wants("a merge", (run.returncode, run.stderr) == (0, b""))
    wants("the same", place.merge("out.mdb").returncode == 0)
    run = place.run("merge", "one_file.mdb", "both.mdb", "-o", "out.mdb")
    wants("of files", place.read("out.mdb") == place.read(f"{'0' * 64}.mdb"))


def lists_name_shards(place):
    os.mkdir(place.path("folder"))
    os.mkdir(place.path("none"))
    for name in ("b.mdb", "a.mdb", ".hidden.mdb", "a.mdb.new", "other"):
        place.write(f"folder/{name}", place.made["one_file.mdb"])
    # What is no regular file is passed over, and a link to one is not.
    os.mkdir(place.path("folder/sub.mdb"))
    os.mkfifo(place.path("folder/pipe.mdb"))
    os.symlink("other", place.path("folder/link.mdb"))
    listed = b"both.mdb\n\nfolder/\nfolder/other\nno\xff\nnone\n"
    place.write("list", listed)
    said = [f"{it}: version" for it in ("both.mdb", "folder/a.mdb", "folder/b.mdb", "folder/link.mdb")]
    said += ["folder/other: version", "total: 5"]
    empty = b"none: it has no .mdb file, and folders in it are read only with -r\n"
    wrong = b"no\\xff: the name is not UTF-8, so it can't be opened\n" + empty
    for words, given in (("list", b""), ("-", listed)):
        run = place.run("info", "--brief", "--files-from", words, input=given)
        wants("status", (run.returncode, run.stderr) == (1, wrong))
        printed = run.stdout.decode().splitlines()
        wants("each", len(printed) == len(said) and all(it.startswith(name) for it, name in zip(printed, said)))
    run = place.run("merge", "--files-from", "list", "-o", "out.mdb")
    said = wrong.removesuffix(empty)
    wants("a merge", (run.returncode, run.stderr) == (1, said) and "out.mdb" not in place.names())
    run = place.run("merge", "none", "-o", "out.mdb")
    said = b"the command line: there are no files to merge\n"
    wants("a merge of nothing", (run.returncode, run.stderr) == (1, said) and "out.mdb" not in place.names())
    run = place.run("find", "none", "--hash", "0" * 64)
    wants("none", (run.returncode, run.stdout.decode(), run.stderr) == (1, f"none {'0' * 64}\n", empty))


def folders_without_shards_are_named(place):
    os.makedirs(place.path("far/near"))
    place.write("far/near/a.mdb", place.made["one_file.mdb"])
    place.write("far/b.txt", b"")
    for words in (
        ("check",), ("gc",), ("info",), ("info", "--brief"), ("files",), ("xorbs",), ("chunks",), ("eligible",),
        ("name", "--hash-key", "7" * 64), ("find", "--hash", "7" * 64), ("query", "--hash", "7" * 64),
        ("report", "-o", "page.html"),
    ):
        run = place.run(*words, "far")
        said = b"far: it has no .mdb file, and folders in it are read only with -r\n"
        wants(" ".join(words), (run.returncode, run.stderr) == (1, said))
    os.remove(place.path("far/near/a.mdb"))
    run = place.run("check", "-r", "far")
    said = b"far: neither it nor a folder in it has a .mdb file\n"
    wants("none at all", (run.returncode, run.stdout, run.stderr) == (1, b"", said))


def folders_in_folders_are_read(place):
    os.makedirs(place.path("in/b.mdb/deep"))
    os.makedirs(place.path("in/a"))
    os.makedirs(place.path("in/.hidden"))
    for name in ("in/z.mdb", "in/b.mdb/deep/1.mdb", "in/a/1.mdb", "in/a/2.mdb", "in/.hidden/1.mdb", "in/a/.1.mdb"):
        place.write(name, place.made["one_file.mdb"])
    # Round in a circle, and to another folder.
    os.symlink("..", place.path("in/a/up"))
    os.mkdir(place.path("other"))
    place.write("other/1.mdb", place.made["one_file.mdb"])
    os.symlink("../other", place.path("in/other"))
    os.symlink("../../other/1.mdb", place.path("in/a/link.mdb"))
    found = [f"in/{it}" for it in ("a/1.mdb", "a/2.mdb", "a/link.mdb", "b.mdb/deep/1.mdb", "z.mdb")]
    for flag in ("-r", "--recursive"):
        run = place.run("info", "--brief", flag, "in")
        wants("each", [it.split(":")[0] for it in run.stdout.decode().splitlines()] == [*found, "total"])
        wants("status", (run.returncode, run.stderr) == (0, b""))
    run = place.run("info", "--brief", "in")
    wants("without", [it.split(":")[0] for it in run.stdout.decode().splitlines()] == ["in/z.mdb", "total"])
    run = place.run("merge", "-r", "in", "-o", "out.mdb")
    wants("a merge", (run.returncode, run.stderr) == (0, b""))
    wants("its bytes", place.run("union", "in/z.mdb", "in/z.mdb", "-o", "one.mdb").returncode == 0)
    wants("the same", place.read("out.mdb") == place.read("one.mdb"))
    # A name that is no UTF-8 may be that of a folder, which can't be opened.
    os.mkdir(os.path.join(os.fsencode(place.path("in")), b"\xff"))
    run = place.run("check", "-r", "in")
    said = b"in/\\xff: the name is not UTF-8, so it can't be opened\n"
    wants("a folder without a text", (run.returncode, run.stdout, run.stderr) == (1, b"", said))


def names_in_folders_are_reported(place):
    os.mkdir(place.path("folder"))
    for name in (b"z\xfe.mdb", b"\xff.mdb", b"\xff.txt"):
        with open(os.path.join(os.fsencode(place.path("folder")), name), "wb") as file:
            file.write(place.made["one_file.mdb"])
    os.symlink("nothing", place.path("folder/link.mdb"))
    place.write("folder/b.mdb", place.made["one_file.mdb"])
    why = "the name is not UTF-8, so it can't be opened\n"
    wrong = f"folder/\\xff.mdb: {why}folder/z\\xfe.mdb: {why}"
    run = place.run("info", "--brief", "folder")
    nothing = "folder/link.mdb: No such file or directory (os error 2)\n"
    wants("what is said", (run.returncode, run.stderr.decode()) == (1, wrong + nothing))
    wants("the others", [it.split(":")[0] for it in run.stdout.decode().splitlines()] == ["folder/b.mdb", "total"])
    run = place.run("merge", "folder", "-o", "out.mdb")
    wants("a merge", (run.returncode, run.stderr.decode()) == (1, wrong) and "out.mdb" not in place.names())


def what_is_no_shard_is_not_read_whole(place):
    wrong = "no shard: its first 32 bytes are no tag\n"
    with open(place.path("sparse.mdb"), "wb") as file:
        file.truncate(1 << 40)
    for words in (("check",), ("eligible",)):
        run = place.run(*words, "sparse.mdb")
        said = run.stdout.decode() + run.stderr.decode()
        wants(words[0], (run.returncode, said) == (3 if words == ("check",) else 1, f"sparse.mdb: {wrong}"))
    run = place.run("merge", "--verbose", "sparse.mdb", "-o", "out.mdb")
    wants("a merge", (run.returncode, run.stderr.decode()) == (1, f"sparse.mdb: {wrong}"))
    run = place.run("info", "/dev/zero")
    wants("a device", (run.returncode, run.stderr.decode()) == (1, f"/dev/zero: {wrong}"))
    endless = subprocess.Popen(["yes"], stdout=subprocess.PIPE)
    run = place.run("info", "-", stdin=endless.stdout)
    endless.stdout.close()
    endless.wait()
    wants("a pipe", (run.returncode, run.stderr.decode()) == (1, f"-: {wrong}"))


def large_file_is_not_read_whole(place):
    # The footer of a shard of 452 bytes, 2 GiB after what is before it.
    shard = place.made["one_file.mdb"]
    with open(place.path("sparse.mdb"), "wb") as file:
        file.write(shard[:252])
        file.seek(2 << 30)
        file.write(shard[252:])
    size = (2 << 30) + 200
    run = place.run("info", "--brief", "sparse.mdb")
    wants("its summary", run.stdout.startswith(b"sparse.mdb: version 3, %d bytes, files 1, " % size))
    for words in (("files", "--long"), ("xorbs",), ("chunks",)):
        wants(words[0], place.run(*words, "sparse.mdb").stdout == place.run(*words, "one_file.mdb").stdout)
    found = "0000000000000064000000000000000100000000000000000000000000000000"
    run, whole = (place.run("find", it, found, "--costs") for it in ("sparse.mdb", "one_file.mdb"))
    wants("a lookup", (run.returncode, run.stdout) == (0, whole.stdout))


def sections_are_read_without_a_footer(place):
    for name in ("one_of_each.mdb", "one_file.mdb", "no_bookend.mdb", "text.mdb"):
        shard = place.made[name]
        # Up to the tables, as the footer says where these begin; cut in a section; and all.
        ends = int.from_bytes(shard[-176:-168], "little"), 100, len(shard)
        for end in ends:
            place.write("cut.mdb", shard[:end])
            os.mkfifo(place.path("pipe"))
            for words in (("eligible",), ("minimal", "-o", "-", "--now", "9"), ("subset", "-o", "-", "--now", "9")):
                runs = [place.run(*words, "cut.mdb"), place.run(*words, "-", input=shard[:end])]
                feeder = threading.Thread(target=place.write, args=("pipe", shard[:end]))
                feeder.start()
                runs.append(place.run(*words, "pipe"))
                feeder.join(20)
                said = [(it.returncode, it.stdout, it.stderr.partition(b": ")[2]) for it in runs]
                wants(f"{words[0]} of {name} to {end}: {said}", said[0] == said[1] == said[2])
                whole = name.startswith("one") and end != 100
                wants(f"status of {words[0]} of {name} to {end}", said[0][0] == int(not whole))
            os.remove(place.path("pipe"))


def controls_are_not_printed(place):
    name = "a\x1b[31m\n\x7f\u009b.mdb"
    shown = "a\\u{1b}[31m\\u{a}\\u{7f}\\u{9b}.mdb"
    run = place.run("info", name)
    wants("it is named", run.stderr.decode() == f"{shown}: No such file or directory (os error 2)\n")
    place.write(name, place.made["one_file.mdb"])
    run = place.run("info", name)
    wants("its summary", run.stdout.decode().startswith(f"{shown}: version 3"))
    run = place.run("check", "--name", name)
    wants("its check", run.stdout.decode().startswith(f"{shown}: its name is not"))


def names_that_are_no_text_are_not_opened(place):
    place.write("\\xff", b"both.mdb\n")
    said = b"\\xff: the name is not UTF-8, so it can't be opened\n"
    for words in (
        ("info", "--files-from", b"\xff"), ("report", "both.mdb", "-o", b"\xff"),
        ("find", "both.mdb", "--hashes-from", b"\xff"),
        ("subset", "both.mdb", "--hashes-from", b"\xff", "-o", "out.mdb"),
    ):
        run = place.run(*words)
        wants(words[0], (run.returncode, run.stdout, run.stderr) == (1, b"", said))
    wants("it stays", place.read("\\xff") == b"both.mdb\n")


def input_is_read_once(place):
    said = b"-: it can be read only once\n"
    place.write("list", b"-\n-\n")
    run = place.run("info", "--brief", "--files-from", "list", input=place.made["both.mdb"])
    wants("named twice in a list", (run.returncode, run.stderr) == (1, said))
    run = place.run("info", "--brief", "--files-from", "-", input=b"-\n")
    wants("named in itself", (run.returncode, run.stderr) == (1, said))


def lists_may_end_with_zero_bytes(place):
    place.write("list", b"both.mdb\0one_file.mdb\0")
    run = place.run("info", "--brief", "--null", "--files-from", "list")
    said = [line.split(":")[0] for line in run.stdout.decode().splitlines()]
    wants("files", (run.returncode, said) == (0, ["both.mdb", "one_file.mdb", "total"]))
    hashes = f"{100:016x}{1:016x}{0:032x}\0{101:016x}{1:016x}{0:032x}".encode()
    run = place.run("find", "one_file.mdb", "--null", "--hashes-from", "-", input=hashes)
    said = [line.split()[0] for line in run.stdout.decode().splitlines()]
    wants("hashes", (run.returncode, said) == (0, ["file", "segment", "none"]))
    run = place.run("find", "one_file.mdb", "--hashes-from", "missing")
    said = b"missing: No such file or directory (os error 2)\n"
    wants("no list", (run.returncode, run.stderr, run.stdout) == (1, said, b""))


ROWS = (
    word_that_is_no_text, standard_input_is_a_shard, lists_name_shards, folders_without_shards_are_named,
    folders_in_folders_are_read, names_in_folders_are_reported, what_is_no_shard_is_not_read_whole,
    large_file_is_not_read_whole, sections_are_read_without_a_footer, controls_are_not_printed,
    names_that_are_no_text_are_not_opened, input_is_read_once, lists_may_end_with_zero_bytes,
)
