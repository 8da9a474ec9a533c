"""What a checkpoint does to the files that its name, and its name with `.new`, name already."""
import os, stat

STORE_FAILED = ("", "dressline: store failed\n", 4)
OTHER = "what another file holds\n"
WORDS = "catalogue 1 --checkpoint f"


def kept_in(path):
    """Returns what a name names: the kind of file, and what a link, a folder or a plain file holds."""
    kind = stat.S_IFMT(os.lstat(path).st_mode)
    if kind == stat.S_IFLNK:
        return kind, os.readlink(path)
    if kind == stat.S_IFDIR:
        return kind, os.listdir(path)
    return kind, text_in(path) if kind == stat.S_IFREG else ""


def text_in(path):
    with open(path, encoding="utf-8") as it:
        return it.read()


def write(path, text):
    with open(path, "w", encoding="utf-8") as it:
        it.write(text)


def remove(path):
    if os.path.isdir(path) and not os.path.islink(path):
        os.rmdir(path)
    elif os.path.lexists(path):
        os.remove(path)


def device(path):
    """Makes a device that is as /dev/null is. Only root may do so."""
    os.mknod(path, stat.S_IFCHR | 0o666, os.makedev(1, 3))


def lead_away(path):
    """Makes a link that leads to nothing."""
    os.symlink("nowhere", path)


def lead_to_other(path):
    os.symlink("g", path)


NO_PLAIN_FILES = (("a link", lead_to_other), ("a link to nothing", lead_away), ("a queue", os.mkfifo), ("a folder", os.mkdir), ("a device", device))
PLAIN = ("a plain file", lambda path: write(path, OTHER))


def begin(checks, make, name):
    """Makes a name name something, and nothing else is there but the other file. Returns whether it could be made."""
    for it in ("f", "f.new", "nowhere"):
        remove(f"{checks.room}/{it}")
    write(f"{checks.room}/g", OTHER)
    try:
        make(f"{checks.room}/{name}")
    except PermissionError:
        return False
    return True


def files_in_the_way(checks):
    """What is no plain file is not replaced. `NAME.new` is made anew if it is a plain file or a link."""
    lines = checks.written("catalogue 1")
    for what, make in NO_PLAIN_FILES:
        if begin(checks, make, "f"):
            before = kept_in(f"{checks.room}/f")
            checks.same(f"{what} as checkpoint", checks.go_on(WORDS), STORE_FAILED)
            checks.same(f"{what} as checkpoint stays", kept_in(f"{checks.room}/f"), before)
            checks.same(f"{what} as checkpoint: no new file", os.path.lexists(f"{checks.room}/f.new"), False)
    for what, make in (PLAIN, *NO_PLAIN_FILES[:2]):
        begin(checks, make, "f.new")
        checks.same(f"{what} as new file", checks.go_on(WORDS), (lines, "", 0))
        checks.same(f"{what} as new file: what is put", text_in(f"{checks.room}/f")[:23], "dressline checkpoint 2\n")
        checks.same(f"{what} as new file is a plain file", kept_in(f"{checks.room}/f")[0], stat.S_IFREG)
        checks.same(f"{what} as new file is gone", os.path.lexists(f"{checks.room}/f.new"), False)
        checks.same(f"{what} as new file: the file that it leads to", text_in(f"{checks.room}/g"), OTHER)
        checks.same(f"{what} as new file: nothing is made", os.path.lexists(f"{checks.room}/nowhere"), False)
    for what, make in NO_PLAIN_FILES[2:]:
        if begin(checks, make, "f.new"):
            write(f"{checks.room}/f", OTHER)
            before = kept_in(f"{checks.room}/f.new")
            checks.same(f"{what} as new file", checks.go_on(WORDS), STORE_FAILED)
            checks.same(f"{what} as new file stays", kept_in(f"{checks.room}/f.new"), before)
            checks.same(f"{what} as new file: the checkpoint stays", text_in(f"{checks.room}/f"), OTHER)
    for it in ("f", "f.new", "g"):
        remove(f"{checks.room}/{it}")
