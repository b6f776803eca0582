"""Runs programs in process groups, which are stopped, continued and killed as a whole, also if
aigprove itself is killed."""
from __future__ import annotations

import contextlib
import os
import resource
import signal
import subprocess
import threading
import time
from collections.abc import Callable, Collection, Iterator, Sequence
from typing import TYPE_CHECKING, Any, Generic, TypeVar

from aigprove.processes.files import Sealed, Word

if TYPE_CHECKING:
    from aigprove.processes.files import Folder
    from aigprove.processes.scheduler import Task

T = TypeVar("T")
SUBREAPER = 36
# The seconds that a call has for ending after its programs were killed.
SOON = 0.2
# The size in bytes of a file for which the progress of reading is shown.
LONG = 1 << 22


class BackgroundCall(threading.Thread, Generic[T]):
    """A call in another thread. Unlike a pool of threads, it is imported quickly."""

    def __init__(self, call: Callable[..., T], *arguments: object) -> None:
        super().__init__()
        self.call, self.arguments = call, arguments
        self.given: list[T] = []
        self.error: BaseException | None = None
        self.start()

    def run(self) -> None:
        """Runs the call, and records its result or its exception."""
        try:
            self.given.append(self.call(*self.arguments))
        except BaseException as error:
            self.error = error

    def result(self) -> T:
        """Waits for the end of the call, and returns or raises what the call returned or raised."""
        self.join()
        if self.error:
            raise self.error
        return self.given[0]

    def give_up(self) -> None:
        """Waits a little for the end of the call, whose programs were killed."""
        self.join(SOON)


def adopt() -> None:
    """Makes this process the parent of all processes that its programs leave behind, so that `bury`
    finds them."""
    # Only the main process needs this module.
    import ctypes

    ctypes.CDLL(None).prctl(SUBREAPER, 1, 0, 0, 0)


def children() -> Iterator[int]:
    """Yields the child processes of all threads of this process."""
    for task in os.listdir("/proc/self/task"):
        with contextlib.suppress(OSError), open(f"/proc/self/task/{task}/children") as file:
            yield from map(int, file.read().split())


def end(process: int) -> None:
    """Kills a child process."""
    # Another thread may have waited for it.
    with contextlib.suppress(ProcessLookupError, ChildProcessError):
        if os.waitpid(process, os.WNOHANG)[0] == 0:
            os.kill(process, signal.SIGKILL)
            os.waitpid(process, 0)


def bury(kept: Collection[int] = ()) -> None:
    """Kills all child processes except those in `kept`, and then what these leave behind."""
    while left := [process for process in children() if process not in kept]:
        for process in left:
            end(process)


def remove(path: str) -> None:
    """Removes a folder, whatever its depth and access rights are."""
    # `os.walk` fails if a folder is too deep, and skips folders that it may not read.
    with contextlib.suppress(RecursionError):
        for folder, folders, files in os.walk(path, topdown=False):
            for name in folders + files:
                with contextlib.suppress(OSError):
                    os.unlink(os.path.join(folder, name))
            with contextlib.suppress(OSError):
                os.rmdir(folder)
    for words in [["rm", "-rf"], ["chmod", "-R", "u+rwx"], ["rm", "-rf"]]:
        if os.path.lexists(path):
            subprocess.run([*words, "--", path], stdin=subprocess.DEVNULL,
                           stdout=subprocess.DEVNULL, stderr=subprocess.DEVNULL)


Words = Sequence[Word]


def signal_group(group: int, number: int) -> None:
    """Sends a signal to a process group, if there is one."""
    with contextlib.suppress(ProcessLookupError):
        os.killpg(group, number)


def read_of(process: int, file: Sealed) -> int:
    """Returns how many bytes of a file a process has read, as far as that can be found out."""
    places, descriptor = [0], file.fileno()
    own = os.fstat(descriptor)
    with contextlib.suppress(OSError):
        # The offset of the inherited descriptor is at the end of the file.
        for name in set(os.listdir(f"/proc/{process}/fd")) - {str(descriptor)}:
            if os.path.samestat(os.stat(f"/proc/{process}/fd/{name}"), own):
                with open(f"/proc/{process}/fdinfo/{name}", encoding="ascii") as lines:
                    places.append(int(lines.readline().split()[1]))
    return max(places)


class Group:
    """A program that was started in a session of its own, for a task. `folder` is the one whose
    limits it has."""

    def __init__(self, task: Task, words: Words, folder: Folder | None, **streams: Any) -> None:
        # The folder whose limit it has, and until when its running time is counted.
        self.task, self.folder, self.counted = task, folder, time.monotonic()
        # The long files among its arguments.
        sealed = [word for word in words if isinstance(word, Sealed)]
        self.reads = [file for file in sealed if file.size() >= LONG]
        path = folder.path if folder else None
        environment = {**os.environ, "TMPDIR": path} if path else None
        options: dict[str, Any] = {"stdin": subprocess.DEVNULL, **streams}
        self.process = subprocess.Popen(list(map(str, words)), cwd=path, env=environment,
                                        start_new_session=True, **options)
        if folder:
            folder.limit_process(self.process.pid)

    def reading(self) -> list[str]:
        """Returns how far it has read each long file, as text."""
        pid = self.process.pid
        return [f"{100 * read_of(pid, file) // file.size()} % of {file.size() >> 20} MiB read"
                for file in self.reads]

    def signal(self, number: int) -> None:
        """Sends a signal to all its processes."""
        signal_group(self.process.pid, number)

    def kill(self) -> None:
        """Ends all its processes."""
        self.signal(signal.SIGKILL)

    def wait(self) -> None:
        """Waits until the program has ended, without reaping it."""
        with contextlib.suppress(ChildProcessError):
            os.waitid(os.P_PID, self.process.pid, os.WEXITED | os.WNOWAIT)

    def limit_memory(self, most: int) -> None:
        """Limits its memory, and that of each process that it starts, to a number of bytes."""
        with contextlib.suppress(OSError):
            resource.prlimit(self.process.pid, resource.RLIMIT_AS, (most, most))


class Keeper:
    """A process that kills the running groups if this process is killed.

    It is forked before there are threads."""

    def __init__(self) -> None:
        listening, self.telling = os.pipe()
        self.process = os.fork()
        if self.process == 0:
            # Whatever fails here, the parent process goes on.
            try:
                os.close(self.telling)
                os.setsid()
                for stream in range(3):
                    os.dup2(os.open(os.devnull, os.O_RDWR), stream)
                end_left(listening)
            finally:
                os._exit(0)
        os.close(listening)

    def tell(self, number: int) -> None:
        """Reports that a group has started, by its number, or has ended, by the negative number."""
        with contextlib.suppress(BrokenPipeError):
            os.write(self.telling, b"%d\n" % number)


def end_left(listening: int) -> None:
    """Kills the groups that have started and not ended, once the pipe is closed."""
    groups: set[int] = set()
    with open(listening, "rb") as lines:
        for number in map(int, lines):
            groups = groups | {number} if number > 0 else groups - {-number}
    for group in groups:
        signal_group(group, signal.SIGKILL)
