"""What no script of shardtool shows, for .ci/vectors: inputs and outputs that fail, and refused allocations."""
import os
import subprocess
import tempfile
from errno import EINTR, EIO, ENOMEM, EPIPE

from library.preload import build

SECONDS = 20
UNREADABLE = "shard s\nfoo\n"
SIZES = "shard s\nwrite s b\nsize b\nsize b\n"
REFUSED = "shard s\nfile s 1 v= 2:0:5:5\n"
FOUND = "shard s\nwrite s b\nfind b 1\n"

# The input of a script fails after so many bytes: what is printed, and the status.
INPUTS = (
    ("", 0, EIO, "", 3),
    ("shard s\n", 8, EIO, "", 3),
    ("shard s\nfoo", 11, EPIPE, "", 3),
    (UNREADABLE, 12, EIO, "line 2: unreadable\n", 2),
    ("shard s\n", 8, ENOMEM, "refused: OutOfMemory\n", 1),
    *((UNREADABLE, left, EINTR, "line 2: unreadable\n", 2) for left in range(13)),
)

# The output fails after so many bytes: what is printed up to then, and the status. An output that is out of memory
# can't print the line that says so either.
OUTPUTS = (
    (SIZES, 8, EIO, "344\n344\n", 0),
    (SIZES, 7, EIO, "344\n344", 3),
    (SIZES, 0, EIO, "", 3),
    ("shard s\n", 0, EIO, "", 0),
    ("foo\n", 19, EIO, "line 1: unreadable\n", 2),
    ("foo\n", 18, EIO, "line 1: unreadable", 3),
    (REFUSED, 26, EIO, "refused: InvalidArguments\n", 1),
    (REFUSED, 25, EIO, "refused: InvalidArguments", 3),
    (FOUND, 5, EIO, "none\n", 0),
    (FOUND, 4, EIO, "none", 3),
    *((SIZES, left, ENOMEM, "344\n344\n"[:left], 3) for left in range(8)),
    *((SIZES, left, EINTR, "344\n344\n", 0) for left in range(8)),
)

# A script whose allocations are refused in turn, and what it prints.
ALLOCATING = """shard s
xorb s 10 21:5
file s 100 v=7 s=3 200:0:5:70
write s b
find b 100
size b
hex b 0 2
"""
ALLOCATED = """file 0000000000000064000000000000000100000000000000000000000000000000 flags 3221225472 segments 1 bytes 70
seg 00000000000000c8000000000000000100000000000000000000000000000000 0 5 70
ver 0000000000000007000000000000000100000000000000000000000000000000
sha 0000000000000003000000000000000100000000000000000000000000000000
672
4846
"""
# It makes more than so many, so that a refusal that nothing shows does not end the runs unseen.
LEAST_ALLOCATIONS = 40
OUT_OF_MEMORY = "refused: OutOfMemory\n"


class Preloaded:
    """A program with streams.c preloaded."""

    def __init__(self, program, folder):
        self.program, self.folder, self.library = program, folder, build("streams", folder)

    def run(self, script, **names):
        environment = {"LD_PRELOAD": self.library, **names}
        return subprocess.run(
            [self.program], input=script, capture_output=True, cwd=self.folder, timeout=SECONDS, text=True,
            check=False, env=environment,
        )

    def fault_of_stream(self, stream, script, left, error, printed, status):
        """Returns what is wrong where a stream fails, or None."""
        ran = self.run(script, STREAM=f"{stream} {left} {error}")
        if (ran.stdout, ran.returncode) == (printed, status):
            return None
        return f"wanted {printed!r} and status {status}, printed {ran.stdout!r}, ended with {ran.returncode}"

    def fault_of_refusals(self):
        """Returns what is wrong where an allocation is refused, or None."""
        for turn in range(1, 10000):
            ran = self.run(ALLOCATING, REFUSED=f"{turn}")
            if not ran.stderr:
                is_right = (ran.stdout, ran.returncode) == (ALLOCATED, 0) and turn > LEAST_ALLOCATIONS
                return None if is_right else f"{turn - 1} allocations, prints {ran.stdout!r}"
            lines = ran.stdout.removesuffix(OUT_OF_MEMORY)
            if ran.returncode != 1 or lines == ran.stdout or not ALLOCATED.startswith(lines):
                return f"allocation {turn} refused: ended with {ran.returncode}, printed {ran.stdout!r}"
        return "the allocations do not end"


def answers(program):
    """Returns a name of each run, and what is wrong with it, or None."""
    with tempfile.TemporaryDirectory() as folder:
        os.chmod(folder, 0o755)
        ran = Preloaded(program, folder)
        found = [("an allocation", ran.fault_of_refusals())]
        for stream, name, rows in ((0, "input", INPUTS), (1, "output", OUTPUTS)):
            for script, left, error, printed, status in rows:
                said = f"the {name} of {script!r} with error {error} after {left} bytes"
                found.append((said, ran.fault_of_stream(stream, script, left, error, printed, status)))
    return found
