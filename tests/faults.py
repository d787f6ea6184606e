"""Makes calls of a program fail: an allocation, a sync, a write to a file, all writes to a disk that is full. See faults.c; it
needs a C compiler."""
import mmap
import os
import struct
import subprocess

from harness import ROOT, Failed

FIELDS = ["allocations", "everywhere", "syncs", "writes", "failed", "synced", "error", "room", "syncs_made", "large", "held"]
SIZE = 8 * len(FIELDS)


class Faults:
    """What is to fail in a program that is started with `variables` in its environment. Nothing fails at first."""

    def __init__(self):
        library, counts = os.path.abspath("faults.so"), os.path.abspath("faults")
        made = subprocess.run(
            ["cc", "-shared", "-fPIC", "-O1", "-o", library, f"{ROOT}/tests/faults.c"], stderr=subprocess.PIPE, text=True
        )
        if made.returncode != 0:
            raise Failed(f"cc can't make faults.so: {made.stderr[:300]}")
        with open(counts, "w+b") as file:
            file.write(bytes(SIZE))
            file.flush()
            self.memory = mmap.mmap(file.fileno(), SIZE)
        self.variables = {"LD_PRELOAD": library, "FAULTS": counts}

    def set(self, field, value):
        struct.pack_into("q", self.memory, 8 * FIELDS.index(field), value)

    def get(self, field):
        return struct.unpack_from("q", self.memory, 8 * FIELDS.index(field))[0]

    def failed(self):
        """How many calls have failed since this was made."""
        return self.get("failed")
