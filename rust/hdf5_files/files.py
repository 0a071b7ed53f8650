"""Real HDF5 files: made with the HDF5 library, and everything in them looked up by it.

    files.py make REAL              makes the files, and a list beside each of what the library says;
                                    a file `library` says where the library is
    files.py look REAL OURS         the library must say the same of each NAME.VARIANT.h5 in OURS
    files.py refuse REAL DAMAGED    the library must say something else of each file, or fail
    files.py grow OURS              adds and removes entries in each file, and makes a list of it
"""

import ctypes
import os
import random
import struct
import subprocess
import sys
from pathlib import Path

import h5py
import numpy as np
from h5py import h5, h5a, h5d, h5f, h5g, h5l, h5p, h5s, h5t

# Kind, entries, size of offsets, size of lengths, what is done when all are made: nothing,
# "thinned" (a third is removed again) or "emptied". What the library cannot read back is "unread",
# and a file that shares the messages of attributes "shared": their flags are not 0 then.
FILES = [
    ("links", 10, 2, 2, "unread"),
    ("links", 10, 4, 4, ""),
    ("links", 10, 8, 8, ""),
    ("links", 1_000, 4, 4, "thinned"),
    ("links", 10_000, 4, 8, ""),
    ("links", 100_000, 8, 8, ""),
    ("attributes", 10, 2, 2, "unread"),
    ("attributes", 10, 4, 4, ""),
    ("attributes", 10, 8, 8, ""),
    ("attributes", 300, 4, 4, "thinned"),
    ("attributes", 300, 8, 8, "shared"),
    ("attributes", 10_000, 8, 4, ""),
    ("attributes", 65_000, 4, 4, ""),
    ("chunks", 10, 8, 8, "emptied"),
    ("chunks", 10, 4, 4, ""),
    ("chunks", 10, 8, 8, ""),
    ("chunks", 1_000, 4, 8, "thinned"),
    ("chunks", 10_000, 8, 4, ""),
    ("chunks", 100_000, 8, 8, ""),
]
LONG_FILES = [
    ("links", 100_000, 4, 4, ""),
    ("attributes", 65_000, 8, 8, ""),
    ("chunks", 100_000, 4, 4, ""),
]

# Files behind a block of so many bytes.
BEHIND_A_BLOCK = [
    ("links", 10, 4, 4, "", 512),
    ("links", 1_000, 8, 8, "thinned", 1_024),
    ("links", 10_000, 8, 4, "", 4_096),
    ("attributes", 10, 8, 8, "", 4_096),
    ("attributes", 300, 4, 8, "thinned", 512),
    ("chunks", 10, 8, 8, "emptied", 1_024),
    ("chunks", 10, 4, 4, "", 4_096),
    ("chunks", 1_000, 8, 8, "thinned", 512),
]

# Two names of one hash, the one that comes later by name first.
EQUAL_HASHES = [78_299, 5_919]

# Entries up to which h5diff and h5repack are run. With attributes their time grows with the square.
LONG = os.environ.get("HDF5_FILES") == "all"
MOST_COPIED = {"links": 10_000, "attributes": 300, "chunks": 10_000}
MOST_COPIED_LONG = {"links": 100_000, "attributes": 1_000, "chunks": 100_000}

# Chunks whose address the library is asked for: each time it goes through all of them.
MOST_ADDRESSES = 1_000

# Entries that are added to a file with our trees.
ADDED = 500

# Links that are found by their places too.
MOST_PLACES = 10_000

ORDERED = h5p.CRT_ORDER_TRACKED | h5p.CRT_ORDER_INDEXED

# H5O_SHMESG_ATTR_FLAG, and the most messages of which the library keeps a list.
SHARED_ATTRIBUTES = 1 << 12
MOST_SHARED = 5_000

# The library that h5py has loaded, for calls that h5py does not offer.
with open("/proc/self/maps") as maps:
    LIBRARY = ctypes.CDLL(min(line.split()[-1] for line in maps if "/libhdf5" in line))


class Links:
    """A group of links: one in ten hard, the others soft."""

    def make(self, file, entries):
        properties = h5p.create(h5p.GROUP_CREATE)
        properties.set_link_creation_order(ORDERED)
        LIBRARY.H5Pset_link_phase_change(ctypes.c_int64(properties.id), 0, 0)
        h5g.create(file, b"site", gcpl=properties)
        h5g.create(file, b"row")
        self.add(file, numbers(entries))

    def add(self, file, bays):
        group = h5g.open(file, b"site")
        for i in bays:
            if i % 10 == 0:
                group.links.create_hard(name(i), file, b"row")
            else:
                group.links.create_soft(name(i), target(i))

    def thin(self, file):
        group = h5g.open(file, b"site")
        for _, link in self.by_order(group)[2::3]:
            group.unlink(link)

    def by_order(self, group):
        found = []
        add = lambda name, info: found.append((info.corder, name))
        group.links.iterate(add, idx_type=h5.INDEX_CRT_ORDER, order=h5.ITER_NATIVE, info=True)
        return found

    def said(self, file):
        group = h5g.open(file, b"site")
        found = self.by_order(group)
        for order, link in found:
            info = group.links.get_info(link)
            due(info.corder, order, link)
            if number(link) % 10:
                due(group.links.get_val(link), target(number(link)), link)
            else:
                due(info.type, h5l.TYPE_HARD, link)
        by_name = []
        group.links.iterate(by_name.append, idx_type=h5.INDEX_NAME, order=h5.ITER_NATIVE)
        due(sorted(by_name), sorted(link for _, link in found), "links by name")
        for place in range(0, len(found), 1 + len(found) // MOST_PLACES):
            due(link_at(group, h5.INDEX_CRT_ORDER, place), found[place][1], "a link by its place")
            due(link_at(group, h5.INDEX_NAME, place), by_name[place], "a link by its place")
        due(group.get_num_objs(), len(found), "number of links")
        due(group.links.exists(b"bay of another site"), False, "a link that is not there")
        return listed(found)


class Attributes:
    """A group with attributes, the value of each its number."""

    def make(self, file, entries):
        properties = h5p.create(h5p.GROUP_CREATE)
        properties.set_attr_creation_order(ORDERED)
        properties.set_attr_phase_change(0, 0)
        h5g.create(file, b"site", gcpl=properties)
        self.add(file, numbers(entries))

    def add(self, file, bays):
        group = h5g.open(file, b"site")
        scalar = h5s.create(h5s.SCALAR)
        for i in bays:
            h5a.create(group, name(i), h5t.STD_I32LE, scalar).write(np.array(i, dtype="<i4"))

    def thin(self, file):
        group = h5g.open(file, b"site")
        for _, attribute in self.by_order(group)[2::3]:
            h5a.delete(group, attribute)

    def by_order(self, group):
        found = []
        add = lambda name, info: found.append((info.corder, name))
        order = {"index_type": h5.INDEX_CRT_ORDER, "order": h5.ITER_NATIVE}
        h5a.iterate(group, add, info=True, **order)
        return found

    def said(self, file):
        group = h5g.open(file, b"site")
        found = self.by_order(group)
        value = np.empty((), dtype="<i4")
        for order, attribute in found:
            due(h5a.get_info(group, attribute).corder, order, attribute)
            h5a.open(group, attribute).read(value)
            due(int(value), number(attribute), attribute)
        by_name = []
        h5a.iterate(group, by_name.append, index_type=h5.INDEX_NAME, order=h5.ITER_NATIVE)
        due(sorted(by_name), sorted(attribute for _, attribute in found), "attributes by name")
        due(h5a.get_num_attrs(group), len(found), "number of attributes")
        due(h5a.exists(group, b"bay of another site"), False, "an attribute that is not there")
        return listed(found)


class Chunks:
    """A dataset without filters and one with a filter, each chunk two equal numbers."""

    WIDTH = 10
    CHUNK = (1, 2)

    def make(self, file, entries):
        shape = (entries // self.WIDTH, self.WIDTH * 2)
        space = h5s.create_simple(shape, (h5s.UNLIMITED, h5s.UNLIMITED))
        for dataset in (b"plain", b"filtered"):
            properties = h5p.create(h5p.DATASET_CREATE)
            properties.set_chunk(self.CHUNK)
            if dataset == b"filtered":
                properties.set_fletcher32()
            h5d.create(file, dataset, h5t.STD_I32LE, space, dcpl=properties)
        plain, filtered = (h5d.open(file, dataset) for dataset in (b"plain", b"filtered"))
        # 7 and the number of entries have no common factor: every chunk, not in order.
        for i in (i * 7 % entries for i in range(entries)):
            plain.write_direct_chunk(self.place(i), struct.pack("<ii", i, i), 0)
        h5py.Dataset(filtered)[...] = np.arange(entries, dtype="<i4").repeat(2).reshape(shape)
        # Some chunks go past the filter, and have another size then.
        for i in range(0, entries, 7):
            filtered.write_direct_chunk(self.place(i), struct.pack("<ii", i, i), 1)

    def place(self, i):
        return (i // self.WIDTH, i % self.WIDTH * 2)

    def add(self, file, bays):
        for dataset, mask in ((b"plain", 0), (b"filtered", 1)):
            opened = h5d.open(file, dataset)
            rows = opened.shape[0]
            opened.set_extent((rows + len(bays) // self.WIDTH, self.WIDTH * 2))
            for i in range(rows * self.WIDTH, rows * self.WIDTH + len(bays)):
                opened.write_direct_chunk(self.place(i), struct.pack("<ii", i, i), mask)

    def thin(self, file, kept=2 / 3):
        for dataset in (b"plain", b"filtered"):
            opened = h5d.open(file, dataset)
            opened.set_extent((int(opened.shape[0] * kept), self.WIDTH * 2))

    def said(self, file):
        lines = []
        for kind, dataset in ((10, b"plain"), (11, b"filtered")):
            opened = h5d.open(file, dataset)
            count = opened.get_num_chunks()
            due(opened.shape, (count // self.WIDTH, self.WIDTH * 2), "shape")
            values = h5py.Dataset(opened)[...]
            due(values.flatten().tolist(), np.arange(count).repeat(2).tolist(), "values")
            lines += [self.chunk(kind, opened, i, count) for i in range(count)]
        return lines

    def chunk(self, kind, dataset, i, count):
        place = self.place(i)
        mask, data = dataset.read_direct_chunk(place)
        due(data[:8], struct.pack("<ii", i, i), f"chunk {i}")
        address = "-"
        if count <= MOST_ADDRESSES:
            info = dataset.get_chunk_info_by_coord(place)
            due((info.filter_mask, info.size), (mask, len(data)), f"chunk {i}")
            address = info.byte_offset
        scaled = [str(p // c) for p, c in zip(place, self.CHUNK)]
        return "\t".join([f"{kind}\t{i}\t{mask}\t{len(data)}\t{address}", *scaled])


KINDS = {"links": Links(), "attributes": Attributes(), "chunks": Chunks()}


def numbers(entries):
    """The numbers of the bays, in the order in which they are made."""
    others = (i for i in range(entries) if i not in EQUAL_HASHES)
    return (EQUAL_HASHES + list(others))[:entries]


def name(i):
    """The name of bay i: one in three is long."""
    return b"bay %d" % i + (b" of the long row beside the river" if i % 3 == 1 else b"")


def number(name):
    """The number of the bay of this name."""
    return int(name.split()[1])


def target(i):
    return b"/row/%d" % i


def link_at(group, index, place):
    """The name of the link at a place of an index's tree, which subtree totals lead to."""
    text = ctypes.create_string_buffer(80)
    where = ctypes.c_int64(group.id), b".", index, h5.ITER_NATIVE, ctypes.c_uint64(place)
    if LIBRARY.H5Lget_name_by_idx(*where, text, ctypes.c_size_t(len(text)), ctypes.c_int64(0)) <= 0:
        raise ValueError(f"no link at place {place}")
    return text.value


def listed(found):
    """The lines of a list: creation order and name."""
    return [f"{order}\t{name.decode()}" for order, name in found]


def due(found, wanted, what):
    if found != wanted:
        raise ValueError(f"{what}: {str(found)[:80]}, due {str(wanted)[:80]}")


def make(folder):
    """Makes every file and its list."""
    alone = [(*file, 0) for file in FILES + (LONG_FILES if LONG else [])]
    for kind, entries, offsets, lengths, then, block in alone + BEHIND_A_BLOCK:
        named = f"{kind}-{entries}-{offsets}-{lengths}" + (then and f"-{then}")
        path = folder / f"{named}{f'-behind-{block}' if block else ''}.h5"
        creation = h5p.create(h5p.FILE_CREATE)
        creation.set_sizes(offsets, lengths)
        creation.set_userblock(block)
        if then == "shared":
            share(creation)
        access = h5p.create(h5p.FILE_ACCESS)
        access.set_libver_bounds(h5f.LIBVER_LATEST, h5f.LIBVER_LATEST)
        file = h5f.create(bytes(path), h5f.ACC_EXCL, creation, access)
        KINDS[kind].make(file, entries)
        if then == "thinned":
            KINDS[kind].thin(file)
        if then == "emptied":
            KINDS[kind].thin(file, kept=0)
        file.close()
        fill(path, block)
        if then == "unread":
            write_list(path, listed(enumerate(map(name, numbers(entries)))))
        else:
            write_list(path, said(path))
    (folder / "library").write_text(LIBRARY._name)
    print(f"HDF5 {h5py.version.hdf5_version}, h5py {h5py.version.version}")


def share(creation):
    """Has a file keep the messages of attributes in one place, which has a list of them."""
    properties = ctypes.c_int64(creation.id)
    LIBRARY.H5Pset_shared_mesg_nindexes(properties, 1)
    LIBRARY.H5Pset_shared_mesg_index(properties, 0, SHARED_ATTRIBUTES, 1)
    LIBRARY.H5Pset_shared_mesg_phase_change(properties, MOST_SHARED, 0)


def fill(path, block):
    """Fills the block before the HDF5 part with noise; the library leaves it to others."""
    with open(path, "r+b") as file:
        file.write(random.Random(block).randbytes(block))


def write_list(path, lines):
    """Writes the list of a file: its kind and sizes, the block's too, and what is in it."""
    kind, _, offsets, lengths = path.name.split(".")[0].split("-")[:4]
    with h5py.File(path, "r") as file:
        first = f"{kind}\t{offsets}\t{lengths}\t{file.userblock_size}"
    path.with_suffix(".txt").write_text("\n".join([first, *lines]) + "\n")


def grow(folder):
    """Has the library add entries to each file and remove others, and makes a list of it."""
    for path in sorted(folder.glob("*.h5")):
        with h5py.File(path, "r+", libver="latest") as file:
            kind = KINDS[path.name.split("-")[0]]
            kind.add(file.id, range(1_000_000, 1_000_000 + ADDED))
            kind.thin(file.id)
        write_list(path, said(path))


def said(path):
    """What the library says of a file, each entry looked up."""
    with h5py.File(path, "r") as file:
        return KINDS[path.name.split("-")[0]].said(file.id)


def run(*command):
    """Runs a program of the library, which must succeed, and returns what it printed."""
    done = subprocess.run([str(part) for part in command], capture_output=True, timeout=100)
    if done.returncode or done.stderr:
        raise ValueError(f"{command[0]}: exit {done.returncode}, {done.stderr[:200]}")
    return done.stdout


def dumped(path):
    """What h5dump prints, without the first line, which has the name of the file."""
    return run("h5dump", path).split(b"\n", 1)[1]


def compare(real, path, dump):
    """Holds a file to the real one: what the library says, prints and copies."""
    lines = real.with_suffix(".txt").read_text().splitlines()[1:]
    due(said(path), lines, "what the library says")
    if dumped(path) != dump:
        raise ValueError("h5dump prints something else")
    kind, entries, _, lengths = real.stem.split("-")[:4]
    if int(entries) > (MOST_COPIED_LONG if LONG else MOST_COPIED)[kind]:
        return
    run("h5diff", real, path)
    # Lengths of 4 bytes make unlimited dimensions limited, and copies of real files unreadable.
    if kind == "chunks" and lengths == "4":
        return
    copy = path.with_suffix(".copy")
    run("h5repack", path, copy)
    run("h5diff", real, copy)
    copy.unlink()


def fault(real, path, dump):
    """The first fault that shows in a file, or none."""
    try:
        compare(real, path, dump)
    except (ValueError, RuntimeError, KeyError, OSError, subprocess.TimeoutExpired) as shown:
        return str(shown)
    return None


def passes_apart(real, path, dump):
    """Whether no fault shows in a file, seen in a process of its own: a damage may end it."""
    child = os.fork()
    if child == 0:
        os._exit(1 if fault(real, path, dump) else 0)
    return os.waitpid(child, 0)[1] == 0


def files(real_folder, folder):
    """Every file of the folder with the real one and what h5dump prints of that."""
    dumps = {}
    for path in sorted(folder.glob("*.h5")):
        real = real_folder / (path.name.split(".")[0] + ".h5")
        if real not in dumps:
            dumps = {real: dumped(real)}
        yield real, path, dumps[real]


def look(real_folder, folder):
    """What is wrong with the files of the folder."""
    shown = ((path, fault(real, path, dump)) for real, path, dump in files(real_folder, folder))
    return [f"{path.name}: {text}" for path, text in shown if text]


def refuse(real_folder, folder):
    """The damaged files that pass."""
    passing = (given[1] for given in files(real_folder, folder) if passes_apart(*given))
    return [f"{path.name}: the damage is not noticed" for path in passing]


def main():
    command, *folders = sys.argv[1:]
    commands = {"make": make, "grow": grow, "look": look, "refuse": refuse}
    wrong = commands[command](*map(Path, folders)) or []
    print("".join(f"{line}\n" for line in wrong), end="")
    return 1 if wrong else 0


if __name__ == "__main__":
    sys.exit(main())
