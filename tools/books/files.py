"""Reading and writing files. A file named - is standard input or output.

A file is written beside its target, synced and renamed, so that a write that fails leaves what was there. What may be replaced is
judged in kept.
"""

import errno
import fcntl
import itertools
import os
import shutil
import stat
import sys
import tempfile
from contextlib import contextmanager

from . import saved
from .words import Trouble

IMAGE_MOST = 8192           # more than any image has: a longer file is refused for its length anyway


def reason(problem):
    known = {errno.ENOENT: "there is no such file", errno.EISDIR: "this is a folder, not a file",
             errno.ENOTDIR: "there is no such folder", errno.ENOSPC: "the disk is full", errno.EEXIST: "a file of that name is there",
             errno.EFBIG: "the file would be larger than allowed here", errno.EACCES: "no permission"}
    if not isinstance(problem, OSError):        # a NUL in the name
        return "this is not a file name"
    return known.get(problem.errno, (problem.strerror or str(problem)).lower())


def read_bytes(path, most=-1):
    try:
        if path == "-":
            return sys.stdin.buffer.read(most)
        with open(path, "rb") as file:
            return file.read(most)
    except (OSError, ValueError) as problem:
        raise Trouble(f"{path}: {reason(problem)}") from None


def kind_of(data):
    """What the first bytes of a file look like."""
    if not data:
        return "empty"
    if data.startswith(b"RBK"):
        return "a book image"
    if data.startswith(saved.MARK):
        return "a saved book with its lines"
    controls = bytes(set(range(32)) - set(b"\t\n\r\f"))
    return "bytes" if any(byte in controls for byte in data) else "text"


def read_image(path):
    """The image in a file, or in the file that a server keeps image and lines in (docs/FORMAT.md)."""
    data = read_bytes(path, IMAGE_MOST)
    return saved.image_of(path, data) if data.startswith(saved.MARK) else data


def read_text(path):
    """The text of a file in UTF-8. A byte order mark at its start is dropped, with a note."""
    data = read_bytes(path)
    if data.startswith((b"\xff\xfe", b"\xfe\xff")):
        raise Trouble(f"{path}: the text is in UTF-16; save it as UTF-8")
    if data.startswith(b"RBK"):
        raise Trouble(f"{path}: this is a book image, not a text (`book.py text {path}` makes a text of it)")
    if b"\0" in data:
        raise Trouble(f"{path}: this is not a text file")
    try:
        text = data.decode("utf-8")
    except UnicodeDecodeError as problem:
        line = data[:problem.start].count(b"\n") + 1
        raise Trouble(f"{path}, line {line}: byte {data[problem.start]:#04x} is not UTF-8; save the text as UTF-8") from None
    if text.startswith("\ufeff"):
        print(f"note: {path} begins with a byte order mark, which is ignored", file=sys.stderr)
        text = text[1:]
    return text


def keep_inputs(output, *inputs):
    """Refuses an output that is one of the inputs, by its name or through a link."""
    for path in inputs:
        try:
            same = "-" not in (output, path) and os.path.samefile(output, path)
        except (OSError, ValueError):       # one of them is not there
            same = False
        if same:
            raise Trouble(f"{output}: this is the file {path} itself, which would be lost; give another name for the output")


def write_bytes(path, data, lost, over):
    """Writes the file. `lost` tells from the first bytes of a file that is there what would be lost with it, or None. Such a file is
    replaced only with `over`, which keeps it under another name; one that has these very bytes stays."""
    if path == "-":
        sys.stdout.buffer.write(data)
        return
    try:
        there = what_is_there(path)
        if there and not stat.S_ISREG(there.st_mode):      # a device or a pipe
            with open(path, "wb") as file:
                file.write(data)
            return
        place = os.path.realpath(path)                      # a link stays, and its target is written
        if there:
            replace(path, place, there, data, lost, over)
        else:
            write_beside(place, data, 0o666 & ~umask(), new=True)
    except (OSError, ValueError) as problem:
        why = "there is no such folder" if isinstance(problem, FileNotFoundError) else reason(problem)
        kept = "; the file that was there is as it was" if os.path.lexists(path) else ""
        raise Trouble(f"{path}: not written: {why}{kept}") from None


def replace(path, place, there, data, lost, over):
    with open(place, "rb") as file:
        first = file.read(max(IMAGE_MOST, len(data) + 1))
    if first == data:
        return
    what = lost(first)
    if what and not over:
        raise Trouble(f"{path}: {what}; give another name, or --over, which keeps what is there as {os.path.basename(place)}.old")
    old = keep_old(place) if over else None
    try:
        write_beside(place, data, stat.S_IMODE(there.st_mode))
    except BaseException:
        if old:
            os.unlink(old)      # a second name, or a copy, of what is still there
        raise
    if old:
        print(f"{path}: the file that was there is kept as {old}", file=sys.stderr)


def keep_old(place):
    """Gives a file a second name, NAME.old, or where that is taken NAME.old.2 and so on."""
    old = free_name(f"{place}.old")
    try:
        os.link(place, old)
    except FileExistsError:
        raise
    except OSError:                             # a file system without links
        copy_new(place, old)
    return old


def free_name(name):
    """The name, or where that is taken the name with .2 behind it, and so on."""
    return next(each for each in itertools.chain([name], (f"{name}.{count}" for count in itertools.count(2))) if not os.path.lexists(each))


def copy_new(source, target):
    with open(source, "rb") as file, open(target, "xb") as copy:
        try:
            shutil.copyfileobj(file, copy)
            copy.flush()
            os.fsync(copy.fileno())
        except BaseException:
            os.unlink(target)
            raise


def what_is_there(path):
    """The state of the file, or None if there is none."""
    if path.endswith(os.sep):
        raise Trouble(f"{path}: this names a folder, not a file")
    there = os.stat(path) if os.path.exists(path) else None
    if there and stat.S_ISDIR(there.st_mode):
        raise Trouble(f"{path}: this is a folder, not a file")
    return there


def write_beside(place, data, mode, new=False):
    """Writes a new file in the same folder, syncs it, and gives it its name."""
    folder, name = os.path.split(place)
    handle, beside = tempfile.mkstemp(prefix=f".{name[:100]}.", dir=folder or ".")
    try:
        with open(handle, "wb") as file:
            file.write(data)
            file.flush()
            os.fchmod(handle, mode)
            os.fsync(handle)
        if not (new and linked(beside, place)):
            os.replace(beside, place)
    except BaseException:
        os.unlink(beside)
        raise
    sync_folder(folder or ".")


def linked(beside, place):
    """Gives the file its name unless another file has come to that name; False where the file system has no links."""
    try:
        os.link(beside, place)
    except FileExistsError:
        raise
    except OSError:
        return False
    os.unlink(beside)
    return True


def umask():
    mask = os.umask(0)
    os.umask(mask)
    return mask


def sync_folder(folder):
    """So that the new name is on the disk too, where the file system can do that."""
    try:
        handle = os.open(folder, os.O_RDONLY)
    except OSError:
        return
    try:
        os.fsync(handle)
    except OSError:
        pass
    finally:
        os.close(handle)


@contextmanager
def alone_in(folder):
    """Keeps other servers, and `close`, out of a folder. The system gives it up when this process ends, however it ends."""
    try:
        handle = os.open(folder, os.O_RDONLY | os.O_DIRECTORY)
    except OSError as problem:
        raise Trouble(f"{folder}: {'there is no such folder' if problem.errno == errno.ENOENT else reason(problem)}") from None
    try:
        try:
            fcntl.flock(handle, fcntl.LOCK_EX | fcntl.LOCK_NB)
        except BlockingIOError:
            raise Trouble(f"{folder}: a server is running in this folder, or a day is being closed there; end that first") from None
        except OSError:
            print(f"note: {folder} cannot be locked on this file system; take care that no second server is started in it", file=sys.stderr)
        yield
    finally:
        os.close(handle)
