"""The crates that the program stands on, and what a build keeps of them.

The library of a crate is kept in crates/NAME/out/rlib. There rt keeps it too, and the gate leaves it.
The file `sum` beside it is a checksum of all that the library was built from, and of the toolchain. So
a crate that is proved is not proved again, whenever its files were written and wherever they were copied.
"""
import fcntl, hashlib, os, pathlib, shutil

TOP = pathlib.Path(__file__).resolve().parent.parent
PROGRAM = "dressline"
PARTS = ("src", "specs", "proofs")


def text_of(file):
    return file.read_text(encoding="utf-8") if file.is_file() else ""


def link(file, to):
    """Makes a hard link, or a copy if that is on another disk."""
    try:
        os.link(file, to)
    except OSError:
        shutil.copy2(file, to)


class Crate:
    """A crate as a folder has it, with what is kept of it in the checkout."""

    def __init__(self, name, line, uses, kit, top):
        self.name, self.line, self.uses, self.kit = name, line, uses, kit
        self.below = list(dict.fromkeys(it for use in uses for it in [*use.below, use]))
        self.home, self.out = TOP / "crates" / name, TOP / "crates" / name / "out"
        self.lines, self.newest, self.since = 0, 0, None
        whole = hashlib.sha256(repr((kit, line.split(), [it.sum for it in uses])).encode())
        folder = top / "crates" / name
        for file in sorted(it for part in PARTS for it in (folder / part).rglob("*") if it.is_file()):
            text = file.read_bytes()
            self.lines += text.count(b"\n") if file.suffix == ".rt" else 0
            self.newest = max(self.newest, file.stat().st_mtime_ns)
            whole.update(repr((str(file.relative_to(folder)), text)).encode())
        self.sum = whole.hexdigest()
        library = self.out / "rlib"
        self.is_done = (library / f"{name}.rlib").is_dir() and text_of(library / "sum") == self.sum

    def has_work(self):
        """Returns whether rt has kept anything of the crate, even if it is of other contents."""
        return (self.out / "rlib").is_dir() or (self.out / "incremental").is_dir()

    def lend(self, out, *parts):
        """Brings parts of what is kept to a folder. Rt replaces these files and never writes into one."""
        for part in parts:
            if (self.out / part).is_dir():
                shutil.copytree(self.out / part, out / part, copy_function=link)

    def keep(self, out):
        """Keeps what rt has built in a folder: the library, and `incremental` if rt has kept that here before."""
        if (self.out / "incremental").is_dir():
            shutil.rmtree(self.out / "incremental")
            shutil.move(out / "incremental", self.out)
        shutil.rmtree(self.out / "rlib", ignore_errors=True)
        last = shutil.ignore_patterns("stamp", "sum")
        shutil.copytree(out / "rlib", self.out / "rlib", copy_function=link, ignore=last)
        # what says that the library is whole is written when the library is on the disk
        os.sync()
        if (out / "rlib" / "stamp").is_file():
            link(out / "rlib" / "stamp", self.out / "rlib" / "stamp")
        (self.out / "rlib" / "sum").write_text(self.sum)

    def keep_program(self, out):
        self.out.mkdir(exist_ok=True)
        shutil.copy2(out / self.name, self.out / f"{self.name}.new")
        os.sync()
        os.replace(self.out / f"{self.name}.new", self.out / self.name)
        (self.out / "sum").write_text(self.sum_of_program())

    def sum_of_program(self):
        return f"{self.kit}\n{self.sum}\n{hashlib.sha256((self.out / self.name).read_bytes()).hexdigest()}\n"


def crates_of(kit, top=TOP):
    """Returns the crates that the program stands on and the program, lowest first."""
    rows = [it.partition("#")[0].partition(":") for it in text_of(top / "crates.txt").splitlines()]
    rows, found = {it[0].split()[0]: it for it in rows if it[1]}, {}

    def add(name):
        uses = [it for it in rows[name][2].split() if it in rows]
        for it in uses:
            if it not in found:
                add(it)
        found[name] = Crate(name, "".join(rows[name]), [found[it] for it in uses], kit, top)

    add(PROGRAM)
    return list(found.values())


def is_built(crates):
    """Returns whether the program was built from these crates. A program without a checksum comes from
    the gate, and is accepted if it is newer than every source."""
    program = crates[-1]
    file, kept = program.out / PROGRAM, program.out / "sum"
    newest = max((TOP / "crates.txt").stat().st_mtime_ns, *(it.newest for it in crates))
    if file.is_file() and not kept.is_file() and file.stat().st_mtime_ns > newest:
        kept.write_text(program.sum_of_program())
    return file.is_file() and text_of(kept) == program.sum_of_program()


def hold(crates):
    """Waits until no other rt or build works in these crates, and then keeps them out, as rt does."""
    for folder in sorted(os.path.realpath(it.home) for it in crates):
        held = os.open(folder, os.O_RDONLY)
        try:
            fcntl.flock(held, fcntl.LOCK_EX | fcntl.LOCK_NB)
        except BlockingIOError:
            print(f"dressline: waiting for another build, or another rt, in {folder}", flush=True)
            fcntl.flock(held, fcntl.LOCK_EX)
