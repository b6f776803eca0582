"""What `aigtool binary FILE OUT` does to OUT.

OUT as a file that is replaced or written in place, as a link, a descriptor, a device or a FIFO; its
owner, mode and access control list; and what is left after a failed write, a full disk, a limit or
a signal. The shim outs/faults.c, by which calls of the system fail, is built with the C compiler
and loaded by LD_PRELOAD.
"""
from __future__ import annotations

import contextlib
import itertools
import os
import pathlib
import random
import re
import signal
import stat
import struct
import subprocess
import threading
import time
from collections.abc import Callable, Sequence
from typing import Any

import pytest
from aiger import AND, BINARY_AND
from harness import limit_files, run
from room import Room, chain, chain_in_binary

OLD = b"the old bytes"
NOBODY, STRANGER, STRANGERS = 65534, 1234, 4321
PART = re.compile(r"(out\.)?[0-9a-f]{16}\.part")
# A byte that is no UTF-8.
NO_TEXT = os.fsdecode(b"\xff")
# Each run of the program is short, so that many of these signals come while it writes.
KILLS = 60


def deep(room: Room, gates: int) -> bytes:
    """Makes the file `deep` of that text, and gives its binary form."""
    room.write("deep", chain(gates))
    return chain_in_binary(gates)


def is_root() -> bool:
    return os.geteuid() == 0


def without_rights() -> None:
    """Gives up the rights of the root user."""
    if is_root():
        os.setgroups([])
        os.setgid(NOBODY)
        os.setuid(NOBODY)


def give(path: pathlib.Path) -> None:
    """Gives a file or a folder to the user that `without_rights` leaves."""
    if is_root():
        os.chown(path, NOBODY, NOBODY)


class File:
    """A file that is there before the program runs, perhaps by another name too, and what it
    keeps."""

    def __init__(
        self,
        room: Room,
        name: str,
        mode: int = 0o644,
        owner: Sequence[int] | None = None,
        other: str | None = None,
    ) -> None:
        self.room, self.name, self.path = room, name, room.path(name)
        self.path.write_bytes(OLD)
        if owner:
            os.chown(self.path, *owner)
        self.path.chmod(mode)
        if other:
            os.link(self.path, room.path(other))
        self.before = self.path.stat()

    def becomes(self, data: bytes, replaced: bool) -> None:
        """Checks what it holds now, that it kept owner and mode, and whether another file has taken
        its name."""
        after = self.path.stat()
        self.room.holds(self.name, data)
        for name in ("st_uid", "st_gid", "st_mode"):
            was, now = getattr(self.before, name), getattr(after, name)
            self.room.check(was == now, f"{self.name}: {name} was {was:o}, is {now:o}")
        self.room.check(
            (self.before.st_ino != after.st_ino) == replaced,
            f"{self.name}: replaced, {not replaced}",
        )

    def stays(self) -> None:
        """Checks that it is as it was."""
        self.becomes(OLD, replaced=False)

    def is_written(
        self,
        replaced: bool,
        file: str = "and.aag",
        data: bytes = BINARY_AND,
        **how: Callable[..., Any]
    ) -> None:
        """Has the program write it, and checks what becomes of it."""
        self.room.writes(self.name, file, **how)
        self.becomes(data, replaced)


# ---- OUT as a file


def test_a_new_out_is_made(room: Room) -> None:
    for mask in (0o022, 0o027, 0):
        room.makes(f"new{mask:o}", before=lambda: os.umask(mask))
        mode = stat.S_IMODE(room.path(f"new{mask:o}").stat().st_mode)
        room.check(mode == 0o666 & ~mask, f"permissions {mode:o} of a new file under {mask:o}")
    room.has("and.aag", "new22", "new27", "new0")


def test_a_plain_out_is_replaced(room: Room) -> None:
    for mode in (0o644, 0o600, 0o755, 0o666, 0o604):
        File(room, f"out{mode:o}", mode).is_written(replaced=True, before=lambda: os.umask(0o077))
    room.makes("and.aag")
    room.has("and.aag", "out644", "out600", "out755", "out666", "out604")


def test_names_may_be_long(room: Room) -> None:
    """A name of 255 bytes has no room for a longer one beside it."""
    names = ["n" * length for length in (229, 234, 249, 255)]
    for out in (File(room, name) for name in names):
        with room.faults(REFUSE="fsync"):
            room.refuses(b"write failed", out.name)
        out.stays()
        out.is_written(replaced=True)
    room.has("and.aag", *names)


def test_rights_of_the_group_are_kept(room: Room) -> None:
    """They may be the mask of an access control list, which a new file wouldn't have."""
    for mode in (0o640, 0o660, 0o664, 0o770, 0o710):
        File(room, f"out{mode:o}", mode).is_written(replaced=False)


@pytest.mark.acl
def test_access_control_lists_are_kept(room: Room) -> None:
    everyone, name = 0xFFFFFFFF, "system.posix_acl_access"
    # The owner reads and writes, the stranger too, and the owner's group and others do nothing.
    entries = [
        (1, 6, everyone),
        (2, 6, STRANGER),
        (4, 0, everyone),
        (16, 6, everyone),
        (32, 0, everyone),
    ]
    listed = struct.pack("<I", 2) + b"".join(struct.pack("<HHI", *entry) for entry in entries)
    out = File(room, "out", 0o600)
    try:
        os.setxattr(out.path, name, listed)
    except OSError as error:
        pytest.skip(f"no access control lists here: {error.strerror}")
    out.before = out.path.stat()
    out.is_written(replaced=False)
    kept = os.getxattr(out.path, name) if name in os.listxattr(out.path) else None
    room.check(kept == listed, f"the list is {kept!r}")
    room.has("and.aag", "out")


@pytest.mark.root
def test_files_of_others_stay_theirs(room: Room) -> None:
    """Also where the root user writes them, and where their bits run a program as its owner."""
    if not is_root():
        pytest.skip("only the root user can make files of others")
    of_a_stranger = [(mode, STRANGER, STRANGERS) for mode in (0o644, 0o6777, 0o4755, 0o2755)]
    for mode, *owner in [*of_a_stranger, (0o644, 0, STRANGERS), (0o644, STRANGER, 0)]:
        File(room, f"out{mode:o}{owner}", mode, owner).is_written(replaced=False)


def test_special_bits_stay(room: Room) -> None:
    """Bits that run a program as its owner or its group go where its bytes change, unless the root
    user changes them."""
    for mode in (0o4755, 0o2755, 0o1644):
        out = File(room, f"out{mode:o}", mode)
        room.makes(out.name)
        room.check(out.path.stat().st_ino == out.before.st_ino, f"{mode:o} is written in place")
        if is_root():
            out.becomes(BINARY_AND, replaced=False)


def test_hard_links_stay_one_file(room: Room) -> None:
    File(room, "out", other="other").is_written(replaced=False)
    room.holds("other", BINARY_AND)
    room.has("and.aag", "out", "other")


def test_a_longer_out_is_cut(room: Room) -> None:
    """An OUT that is written in place ends where the new bytes end, and grows where they are
    more."""
    room.write("deep", chain(5_000))
    for length in (0, 1, len(BINARY_AND), 10 * len(BINARY_AND), 100_000):
        room.write("out", bytes(length))
        os.link(room.path("out"), room.path("other"))
        for file, data in [("and.aag", BINARY_AND), ("deep", chain_in_binary(5_000))]:
            room.writes("out", file)
            room.holds("other", data)
        room.path("other").unlink()
    room.has("and.aag", "deep", "out")


def test_outs_that_are_kept(room: Room) -> None:
    """An OUT that may not be written stays, and one in a folder that takes no new file is written
    in place."""
    folder = room.path("folder")
    folder.mkdir()
    for name, mode in [("kept", 0o444), ("mine", 0o644)]:
        room.write(f"folder/{name}", OLD * 10, mode)
        give(folder / name)
    give(folder)
    room.refuses(b"cannot create", "folder/kept", before=without_rights)
    room.holds("folder/kept", OLD * 10)
    folder.chmod(0o555)
    room.makes("folder/mine", before=without_rights)
    room.refuses(b"cannot create", "folder/new", before=without_rights)
    room.has("kept", "mine", below="folder")
    folder.chmod(0o755)


@pytest.mark.root
def test_sticky_folders(room: Room) -> None:
    """In a folder where everybody makes files, and nobody replaces another's, it is written in
    place."""
    if not is_root():
        pytest.skip("only the root user can make files of others")
    room.path("folder").mkdir()
    room.path("folder").chmod(0o1777)
    File(room, "folder/out", 0o666).is_written(replaced=False, before=without_rights)
    room.has("out", below="folder")


def test_outs_that_cannot_be_made(room: Room) -> None:
    room.refuses(b"cannot create", "nowhere/out", ".", "", "new/", "n" * 256, "and.aag/below")
    room.holds("and.aag", AND)
    room.has("and.aag")


# ---- OUT as a link


def test_links_are_followed(room: Room) -> None:
    room.path("folder").mkdir()
    for name, text in [
        ("link", "target"),
        ("absolute", str(room.path("target"))),
        ("dangling", "made"),
        ("folder/link", "../link"),
        ("up", "folder/link"),
    ]:
        room.path(name).symlink_to(text)
    for name in ("link", "absolute", "folder/link", "up"):
        file = File(room, "target")
        room.writes(name)
        file.becomes(BINARY_AND, replaced=True)
        room.check(room.path(name).is_symlink(), f"{name} stays a link")
    room.writes("dangling")
    room.holds("made", BINARY_AND)
    room.check(room.path("dangling").is_symlink(), "dangling stays a link")
    room.has("and.aag", "target", "folder", "link", "absolute", "dangling", "up", "made")


def test_links_come_to_an_end(room: Room) -> None:
    """The system follows 40 links, and no more."""
    target = File(room, "0")
    for name, text in [*((str(n), str(n - 1)) for n in range(1, 42)), ("a", "b"), ("b", "a")]:
        room.path(name).symlink_to(text)
    room.refuses(b"cannot create", "41", "a")
    target.stays()
    room.writes("40")
    target.becomes(BINARY_AND, replaced=True)
    room.check(all(room.path(str(n)).is_symlink() for n in range(1, 42)), "links stay")
    room.has("and.aag", "a", "b", *map(str, range(42)))


def test_links_to_names_that_are_no_text(room: Room) -> None:
    room.write(f"r{NO_TEXT}", OLD)
    for name, target in [("link", f"r{NO_TEXT}"), ("dangling", f"made{NO_TEXT}")]:
        room.path(name).symlink_to(target)
        room.writes(name)
        room.holds(target, BINARY_AND)
    room.check(room.path("link").is_symlink() and room.path("dangling").is_symlink(), "links stay")
    room.has("and.aag", "link", "dangling", f"r{NO_TEXT}", f"made{NO_TEXT}")


def test_links_in_folders_without_a_path(room: Room) -> None:
    """A working folder whose path is no text, and one whose path is longer than the system
    takes."""
    for folders in [[NO_TEXT], ["f" * 200] * 25]:
        place = room.folder
        for folder in folders:
            (place / folder).mkdir()
            place = pathlib.Path(f"/proc/self/fd/{os.open(place / folder, os.O_RDONLY)}")
        (place / "target").touch()
        (place / "link").symlink_to("target")
        for name in ("link", "new"):
            room.writes(name, room.path("and.aag"), before=lambda: os.chdir(place))
        for name in ("target", "new"):
            room.holds(place / name, BINARY_AND)
        room.has("link", "new", "target", below=place)
        room.check((place / "link").is_symlink(), "the link stays")


# ---- OUT as a descriptor, a device or a FIFO


def test_standard_output_goes_on(room: Room) -> None:
    room.path("link").symlink_to("/dev/stdout")
    room.path("other").symlink_to("link")
    for name in ("/dev/stdout", "/dev/fd/1", "/proc/self/fd/1", "link", "other"):
        room.shell('(printf head; "$0" binary and.aag "$1"; printf tail) > log', name)
        room.holds("log", b"head" + BINARY_AND + b"tail")
        room.shell('printf head > log; "$0" binary and.aag "$1" >> log', name)
        room.holds("log", b"head" + BINARY_AND)
        room.writes(name, out=BINARY_AND)
        with open("/dev/full", "wb") as full:
            room.refuses(b"write failed", name, stdout=full)
    room.refuses(b"write failed", "/dev/stdout", before=lambda: os.close(1), stdout=None)
    room.holds("and.aag", AND)
    room.has("and.aag", "link", "other", "log")


def test_other_descriptors_are_appended_to(room: Room) -> None:
    for name in ("/dev/fd/3", "/proc/self/fd/3", "/proc/thread-self/fd/3"):
        for script, tail in [
            ('(printf head; "$0" binary and.aag "$1" 3>&1; printf tail) >> log', b"tail"),
            ('printf head > log; "$0" binary and.aag "$1" 3<> log', b""),
        ]:
            room.shell(script, name)
            room.holds("log", b"head" + BINARY_AND + tail)
            room.path("log").unlink()
    room.shell('"$0" binary and.aag /dev/fd/3 3>&1 | cat > log')
    room.holds("log", BINARY_AND)
    room.write("log", OLD)
    with open(room.path("log"), "ab") as file:
        given = file.fileno()
        with subprocess.Popen(["sleep", "100"], stdout=file, pass_fds=[given]) as other:
            for n in (1, given):
                room.writes(f"/proc/{other.pid}/fd/{n}")
            other.kill()
    room.holds("log", OLD + 2 * BINARY_AND)
    room.has("and.aag", "log")


def test_a_descriptor_that_is_none(room: Room) -> None:
    """FILE becomes the next descriptor, and isn't taken for OUT."""
    room.refuses(
        b"cannot create",
        *(f"{folder}/{n}" for folder in ("/dev/fd", "/proc/self/fd") for n in (3, 4, 9)),
    )
    room.refuses(b"cannot create", "/dev/fd/3", file="missing")
    room.holds("and.aag", AND)
    room.has("and.aag")


def test_devices_and_fifos(room: Room) -> None:
    room.writes("/dev/null")
    room.refuses(b"write failed", "/dev/full")
    room.writes("/dev/null", before=limit_files(10, ignore=False))
    source, sink = room.path("in"), room.path("out")
    os.mkfifo(source)
    os.mkfifo(sink)
    taken = []
    giver = threading.Thread(target=source.write_bytes, args=[AND], daemon=True)
    taker = threading.Thread(target=lambda: taken.append(sink.read_bytes()), daemon=True)
    giver.start()
    taker.start()
    room.writes("out", "in")
    taker.join(10)
    room.check(taken == [BINARY_AND], f"the FIFO got {taken}")
    room.check(sink.is_fifo(), "the FIFO stays")
    room.has("and.aag", "in", "out")


# ---- what fails while OUT is written


def test_a_refused_file_leaves_out(room: Room) -> None:
    room.write("bad", AND[:-1])
    out = File(room, "out")
    room.refuses(b"bad line in gates", "out", "new", file="bad")
    out.stays()
    room.has("and.aag", "bad", "out")


def test_limits_on_files_are_told(room: Room) -> None:
    """Whether the signal that comes with them is ignored or not."""
    whole = deep(room, 20_000)
    out, linked = File(room, "out"), File(room, "linked", other="other")
    for ignore, count in itertools.product((True, False), (10_000, len(whole) - 1)):
        room.refuses(
            b"write failed", "out", "deep", "new", "linked", file="deep",
            before=limit_files(count, ignore),
        )
        out.stays()
        linked.stays()
        room.holds("deep", chain(20_000))
    room.has("and.aag", "deep", "out", "linked", "other")
    out.is_written(True, "deep", whole, before=limit_files(len(whole), ignore=False))


def test_the_limit_of_now_counts(room: Room) -> None:
    """Not the one that the process may raise it to."""
    deep(room, 20_000)
    room.refuses(
        b"write failed", "out", file="deep", before=limit_files(10_000, ignore=False, most=1 << 30)
    )
    room.has("and.aag", "deep")


def test_what_a_descriptor_has_counts(room: Room) -> None:
    """Bytes are appended to the file, which may then be as long as the limit, and no longer."""
    whole = deep(room, 20_000)
    room.write("log", OLD)
    with open(room.path("log"), "ab") as log:
        name = f"/dev/fd/{log.fileno()}"
        for count, status in [(len(OLD + whole) - 1, 1), (len(OLD + whole), 0)]:
            log.truncate(len(OLD))
            found, _, error = room.run(
                "binary", "deep", name, before=limit_files(count, ignore=False),
                pass_fds=[log.fileno()],
            )
            wanted = (status, b"aigtool: write failed\n" * status)
            room.check((found, error) == wanted, f"limit {count}: status {found}, {error!r}")
    room.holds("log", OLD + whole)
    room.has("and.aag", "deep", "log")


def test_full_disks_leave_out(room: Room) -> None:
    """A disk that is full before the new bytes are there, and one that has room for them, but not
    twice."""
    data = deep(room, 20_000)
    whole, out, linked = len(data), File(room, "out"), File(room, "linked", other="other")
    for full in (0, 10_000, whole - 1, whole, whole + 10_000, 2 * whole - len(OLD) - 1):
        with room.faults(FULL=full):
            room.refuses(b"write failed", "linked", *["out", "new"] * (full < whole), file="deep")
    out.stays()
    linked.stays()
    room.has("and.aag", "deep", "out", "linked", "other")
    with room.faults(FULL=2 * whole):
        linked.is_written(False, "deep", data)


@pytest.mark.root
def test_a_real_disk_that_is_full(room: Room) -> None:
    folder, size, whole = room.path("disk"), 128 << 10, deep(room, 20_000)
    folder.mkdir()
    if (
        not is_root()
        or run(["mount", "-t", "tmpfs", "-o", f"size={size},mode=755", "none", folder])[0] != 0
    ):
        pytest.skip("no right to mount a small disk")
    try:
        room.check(
            len(whole) < size < 2 * len(whole), f"{len(whole)} bytes fit once, and not twice"
        )
        linked = File(room, "disk/linked", other="disk/other")
        room.refuses(b"write failed", "disk/linked", file="deep")
        linked.stays()
        room.holds("disk/other", OLD)
        (folder / "other").unlink()
        with contextlib.suppress(OSError):
            room.write("disk/fill", bytes(size // 2))
        room.refuses(b"write failed", "disk/linked", "disk/new", file="deep")
        linked.stays()
        (folder / "fill").unlink()
        room.makes("disk/linked", file="deep", data=whole)
        room.has("linked", below="disk")
    finally:
        room.check(run(["umount", folder])[0] == 0, "the disk goes again")


def test_short_writes_go_on(room: Room) -> None:
    """A write that takes a few bytes is followed by one of the rest."""
    whole = deep(room, 2_000)
    room.write("out", OLD)
    File(room, "linked", other="other")
    for most in (1, 7, 1_000):
        with room.faults(MOST=most):
            room.makes("out", "linked", "new", file="deep", data=whole)
            room.shell('"$0" binary and.aag /dev/fd/3 3> log')
            room.holds("log", BINARY_AND)


def test_renames_that_are_refused(room: Room) -> None:
    """As where OUT is a mount point: it is written in place."""
    with room.faults(REFUSE="rename"):
        File(room, "out", 0o604).is_written(replaced=False)
        room.makes("new")
    room.has("and.aag", "new", "out")


def test_failed_writes_and_syncs_are_told(room: Room) -> None:
    out, linked = File(room, "out"), File(room, "linked", other="other")
    for call in ("write", "fsync"):
        with room.faults(REFUSE=call):
            room.refuses(b"write failed", "out", "linked", "new")
            room.shell('"$0" binary and.aag /dev/fd/3 3> log', status=1)
    out.stays()
    linked.stays()
    # The bytes behind the old ones are kept, and then those in their place.
    with room.faults(REFUSE="fsync", AFTER=1):
        room.refuses(b"write failed", "linked")
    linked.becomes(BINARY_AND, replaced=False)
    room.has("and.aag", "linked", "log", "other", "out")


# ---- signals


def test_what_a_killed_run_leaves(room: Room) -> None:
    """A file beside OUT, of a name of its own, which no later run looks at; and nothing where OUT
    is written in place."""
    out = File(room, "out")
    for call in ("fsync", "fsync", "rename", "rename"):
        with room.faults(KILL=call):
            room.writes("out", status=-signal.SIGKILL)
    left = set(room.names()) - {"and.aag", "out"}
    room.check(len(left) == 4 and all(map(PART.fullmatch, left)), f"left are {left}")
    out.stays()
    for n in range(100):
        room.write(f"out.{n}.part", b"mine")
        room.write(f"out.{n:016x}.part", b"mine")
    before = room.names()
    out.is_written(replaced=True)
    room.check(room.names() == before, "what is left stays")
    room.holds("out.0.part", b"mine")
    for path in room.folder.glob("*.part"):
        path.unlink()
    File(room, "out", other="other")
    with room.faults(KILL="fsync"):
        room.writes("out", status=-signal.SIGKILL)
    room.has("and.aag", "other", "out")


def test_parts_are_private(room: Room) -> None:
    """What is left of an OUT that is there is its owner's alone; of a new one it is as OUT would
    be."""
    room.write("out", OLD)
    for name, mode in [("out", 0o600), ("new", 0o644)]:
        with room.faults(KILL="write"):
            room.writes(name, status=-signal.SIGKILL, before=lambda: os.umask(0o022))
        (left,) = room.folder.glob("*.part")
        found = stat.S_IMODE(left.stat().st_mode)
        room.check(found == mode, f"{name} left a file of mode {found:o}")
        left.unlink()


def test_kills_leave_the_old_or_the_new(room: Room) -> None:
    """Kills come later where runs were killed too early, so that they come while OUT is written,
    however fast the machine is."""
    new, span, chance, seen = deep(room, 50_000), 0.05, random.Random(1), []
    for _ in range(KILLS):
        room.write("out", OLD)
        with subprocess.Popen([room.tool, "binary", "deep", "out"], cwd=room.folder) as running:
            time.sleep(chance.uniform(0, span))
            running.kill()
        found = room.path("out").read_bytes()
        room.check(found in (OLD, new), f"a kill leaves {len(found)} bytes")
        seen.append(found == new)
        span *= 0.8 if seen[-1] else 1.25
    left = set(room.names()) - {"and.aag", "deep", "out"}
    room.check(all(map(PART.fullmatch, left)), f"left are {left}")
    room.check(set(seen) == {False, True}, f"{sum(seen)} of {len(seen)} runs ended")
