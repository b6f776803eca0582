"""A fresh root: a system with a layer on top of it, without network, toolchain and repository.

The system is this one, or another in a folder, such as debootstrap makes one (`--root` of pytest).

What a script writes there is in the layer, which is in memory, and gone when the script has ended.
Only root can make one, and the kernel has to know overlayfs."""
from __future__ import annotations

import os
import pathlib
import shutil

import harness

# Mounts the layer at $ROOM/root, with nothing in the folders that are named. There $INSIDE is the
# home, where $GIVEN is the folder `given`, and the script in it is run. Then $GIVEN/left gets the
# paths of all that is left in the layer.
ENTER = """
mount -t tmpfs tmpfs "$ROOM"
mkdir "$ROOM/upper" "$ROOM/work" "$ROOM/root"
mount -t overlay overlay -o "lowerdir=$LOWER,upperdir=$ROOM/upper,workdir=$ROOM/work" "$ROOM/root"
for hidden in "$@"; do
  mkdir -p "$ROOM/root$hidden"
  mount -t tmpfs tmpfs "$ROOM/root$hidden"
done
mount -t tmpfs tmpfs "$ROOM/root$INSIDE"
mkdir "$ROOM/root$INSIDE/given"
mount --bind "$GIVEN" "$ROOM/root$INSIDE/given"
mount -t proc proc "$ROOM/root/proc"
mount --rbind /dev "$ROOM/root/dev"
status=0
chroot "$ROOM/root" /usr/bin/env -i PATH="$INNER" HOME="$INSIDE" LANG=C.UTF-8 \\
  sh -ec 'cd && . ./given/script' || status=$?
cd "$ROOM/upper"
find . ! -type d > "$GIVEN/left"
exit "$status"
"""
# The system below the layer.
lower = pathlib.Path("/")
NAMESPACES = ["unshare", "--mount", "--net", "--pid", "--fork", "--kill-child"]


def hidden() -> list[str]:
    """Returns the folders that aren't there: the repository and the toolchain."""
    found = shutil.which("rt")
    tools = [str(pathlib.Path(found).resolve().parent.parent)] if found else []
    return [str(harness.TOP), *tools]


# Where programs of the system are.
PATH = "/usr/bin:/bin:/usr/sbin:/sbin"


def enter(script: str, given: pathlib.Path, path: str = PATH,
          seconds: int = 600) -> tuple[int | None, bytes, bytes]:
    """Runs a script in a fresh root with this PATH, where the given folder is `given` in the home.

    Returns its status and what it prints. What it left is then listed in the file `left` there."""
    (given / "script").write_text(script, encoding="utf-8")
    with harness.new_folder() as room:
        places = {"ROOM": str(room), "GIVEN": str(given), "INSIDE": "/tmp", "INNER": path,
                  "LOWER": str(lower)}
        environment = {**os.environ, **places}
        words = [*NAMESPACES, "sh", "-ec", ENTER, "enter", *hidden()]
        return harness.run(words, env=environment, timeout=seconds)


def why_not() -> str:
    """Returns why there can be no fresh root here; nothing if there can."""
    if os.geteuid() != 0:
        return "only root can mount a layer"
    with harness.new_folder() as folder:
        status, _, said = enter("true", folder)
    return "" if status == 0 else f"no fresh root can be made: {said.decode(errors='replace')}"
