"""Shards that GNU parallel, xargs, make and Slurm start, and that are killed on their way."""
import glob, os, shutil, signal, subprocess, time

TOP = os.path.dirname(os.path.dirname(os.path.realpath(__file__)))
SHARDS = f"{TOP}/examples/shards"
TRIALS = 20  # to kill something that may end first


def without(command, path, room):
    """A PATH without a command: each folder that has it becomes a folder of links to its other commands."""
    folders = []
    for place, folder in enumerate(path.split(":")):
        if os.path.exists(f"{folder}/{command}"):
            links = f"{room}/path{place}"
            os.mkdir(links)
            for it in os.listdir(folder):
                if it != command:
                    os.symlink(f"{folder}/{it}", f"{links}/{it}")
            folder = links
        folders.append(folder)
    return ":".join(folders)


def environment(checks, path=os.environ["PATH"]):
    """The program that is checked, and a stand-in for `sbatch` before the commands of a PATH."""
    return {**os.environ, "DRESSLINE": checks.program, "PATH": f"{TOP}/tests/standins:{path}"}


def kill_part(checks, out, words, how):
    """Starts a part, and kills it with its program when the first lines are written. A part that ends before it is
    killed is begun again."""
    part = f"{checks.room}/{out}.{words.split()[0]}"
    for _ in range(TRIALS):
        run = subprocess.Popen([f"{SHARDS}/part", out, *words.split()], start_new_session=True, **how)
        while run.poll() is None and not (os.path.exists(f"{part}.run1") and os.path.getsize(f"{part}.run1")):
            time.sleep(0.001)
        if run.poll() is None:
            os.killpg(run.pid, signal.SIGKILL)
        if run.wait() == -signal.SIGKILL:
            break
        for it in glob.glob(f"{glob.escape(part)}*"):
            os.remove(it)
    checks.same(f"{out}: a part is killed on its way", run.returncode, -signal.SIGKILL)


def text_in(room, name):
    if not os.path.exists(f"{room}/{name}"):
        return "no file"
    with open(f"{room}/{name}", encoding="utf-8") as it:
        return it.read()


def by_parallel(checks, whole):
    """`parallel.sh` by GNU parallel, if that is there, and by xargs. A blank in the name is kept."""
    path = os.environ["PATH"]
    forms = [("x args.ds", without("parallel", path, checks.room))] + ([("para llel.ds", path)] if shutil.which("parallel") else [])
    for out, path in forms:
        how = {"cwd": checks.room, "env": environment(checks, path), "stdout": subprocess.DEVNULL}
        kill_part(checks, out, "2 4 12 --round 8", how)
        words = [out, "4", "12", "--round", "8"]
        checks.same(f"the status of {out}", subprocess.run([f"{SHARDS}/parallel.sh", *words], check=False, **how).returncode, 0)
        checks.same(f"{out} after a part was killed", text_in(checks.room, out), whole)


def by_slurm(checks, whole):
    """`slurm.sh` with a task that is killed and put back into the queue, and the job that joins. If the task ends before
    it is killed, both jobs are submitted again in another folder."""
    stopped = {"STOP_TASK": "3", "STOP_WHEN": "s.ds.3.run1"}
    submit = "job=$(sbatch --parsable examples/shards/slurm.sh s.ds 12 --round 8) && echo $job &&"
    submit += " sbatch --dependency=afterok:$job --wrap 'examples/shards/join s.ds 8'"
    for trial in range(TRIALS):
        room = f"{checks.room}/slurm{trial}"
        os.mkdir(room)
        os.symlink(f"{TOP}/examples", f"{room}/examples")
        how = {"cwd": room, "env": environment(checks) | stopped, "capture_output": True, "encoding": "utf-8"}
        ran = subprocess.run(["sh", "-c", submit], check=False, **how)
        if ran.stderr or text_in(room, "slurm-1_3.out"):
            break
    checks.same("slurm.sh", (ran.stdout, ran.stderr), ("1\nSubmitted batch job 2\n", ""))
    checks.same("what the task says", text_in(room, "slurm-1_3.out"), "cancelled and put back into the queue\n")
    checks.same("slurm.sh after a task was put back into the queue", text_in(room, "s.ds"), whole)


def by_make(checks):
    """The Makefile, with other shards and limits."""
    how = {"cwd": checks.room, "env": environment(checks), "stdout": subprocess.DEVNULL}
    words = ["OUT=m.ds", "SHARDS=3", "WORDS=12 --minimal"]
    subprocess.run(["make", "-s", "-j", "3", "-f", f"{SHARDS}/Makefile", *words], check=True, **how)
    checks.same("make of three shards", text_in(checks.room, "m.ds"), checks.written("catalogue 12 --minimal"))


def two_calls(checks):
    """A part that is being written is not written by a second call, which waits and then finds it whole."""
    how = {"cwd": checks.room, "env": environment(checks)}
    runs = [subprocess.Popen([f"{SHARDS}/part", "two.ds", "1", "2", "10", "--round", "8"], **how) for _ in range(3)]
    checks.same("calls of one part", [it.wait() for it in runs], [0, 0, 0])
    checks.same("a part of three calls", text_in(checks.room, "two.ds.1"), checks.written("shard 1 2 10"))


def shared_catalogues(checks):
    """`examples/shards`: the shards of a catalogue, of which one is killed on its way, are resumed and joined."""
    whole = checks.written("catalogue 12")
    by_parallel(checks, whole)
    by_slurm(checks, whole)
    by_make(checks)
    two_calls(checks)
    # the tool for long catalogues writes a shard too
    words = ["t.ds", "shard", "2", "3", "8"]
    for pause in (["--pause", "30"], []):
        subprocess.run([f"{TOP}/tools/catalogue", *words, *pause], cwd=checks.room, check=False, stdout=subprocess.DEVNULL, stderr=subprocess.DEVNULL)
    checks.same("tools/catalogue of a shard", text_in(checks.room, "t.ds"), checks.written("shard 2 3 8"))
