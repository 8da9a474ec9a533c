"""What a person sees on a terminal after a call that failed, the commands of the man page, and what is installed."""
import os, pty, re, shutil, subprocess

# words of a call, a file `f`, its status, and what standard error has after the program's line if it is a terminal
HELP = (
    ("catalogu 3", "", 2, "'catalogu' is no command; did you mean catalogue?"),
    ("catalogue 37", "", 2, "'37' is not a number from 1 to 36"),
    ("catalogue 3 --tile 2", "", 2, "--tile is no option of catalogue; did you mean --tiles?"),
    ("catalogue 3 --faces 3,,4", "", 2, "--faces is a set such as 3-6,8 of numbers from 1 to 216, and not '3,,4'"),
    ("draw f --cell oct", "", 2, "--cell is one of square, hex, own, and not 'oct'"),
    ("canon f f", "", 2, "canon has 1 argument, and 2 are given"),
    ("lines f", "# squares\n<1.1:1:1,1,1:4,x>\n", 1, "f, line 2, column 16"),
    ("lines g", "", 4, "g: there is no such file"),
    ("catalogue 1 --checkpoint nowhere/c", "", 4, "nowhere/c: there is no folder nowhere"),
)
INSTALLED = (
    "bin/dressline",
    "share/man/man1/dressline.1",
    "share/bash-completion/completions/dressline",
    "share/zsh/site-functions/_dressline",
    "share/fish/vendor_completions.d/dressline.fish",
)
MAN_PAGE = ("93\n", "", "", "", "<1.1:3:1 2 3,1 3,2 3:4 8,3>\n")


def on_terminal(words, folder, script):
    """Calls the script with a terminal as standard error. Returns what it wrote there, and the status."""
    ours, theirs = pty.openpty()
    run = subprocess.Popen([script, *words.split()], cwd=folder, stdout=subprocess.DEVNULL, stderr=theirs)
    os.close(theirs)
    said = b""
    try:
        while part := os.read(ours, 4096):
            said += part
    except OSError:
        pass  # the terminal is closed
    os.close(ours)
    return said.decode().replace("\r\n", "\n").splitlines(), run.wait()


def help_on_terminals(checks):
    """The program's line comes first, then help. Into a pipe only the program's line goes. The script runs the program
    of the source tree, so it is not called if another one is named."""
    if "DRESSLINE" in os.environ:
        return
    script = f"{checks.top}/dressline"
    for words, file, status, wanted in HELP:
        _, line, _ = checks.run(words, file)
        said, found = on_terminal(words, checks.room, script)
        checks.same(f"{words} on a terminal", (found, said[:2]), (status, [line.rstrip("\n"), f"  {wanted}"]))
    said, found = on_terminal("catalogue 1", checks.room, script)
    checks.same("a call that succeeds says nothing", (found, said), (0, []))


def man_page(checks):
    """Each command of the man page writes what it says."""
    with open(f"{checks.top}/docs/dressline.1", encoding="utf-8") as it:
        examples = it.read().partition(".SH EXAMPLES")[2]
    commands = re.findall(r"^(?!\.)(?:dressline|echo) .*", examples, re.M)
    checks.same("commands of the man page", len(commands), len(MAN_PAGE))
    os.symlink(checks.program, f"{checks.room}/dressline")
    path = f"{checks.room}:{os.environ['PATH']}"
    for command, wanted in zip(commands, MAN_PAGE):
        ran = subprocess.run(["sh", "-c", command.replace("\\-", "-")], cwd=checks.room, capture_output=True, encoding="utf-8", env={**os.environ, "PATH": path}, check=False)
        checks.same(f"man page: {command}", ran.stdout, wanted)
    with open(f"{checks.room}/some.ds", encoding="utf-8") as it:
        checks.same("the resumed catalogue of the man page", it.read(), checks.written("catalogue 16"))
    os.remove(f"{checks.room}/dressline")


def said(*words):
    """Calls a command. Returns its status and what it wrote."""
    ran = subprocess.run(words, capture_output=True, encoding="utf-8", check=False)
    return ran.returncode, ran.stdout, ran.stderr


def installed(checks):
    """`tools/install`: the program runs, the man page has no warning, and bash completes a word. The script installs
    the program of the source tree, so it is not called if another one is named."""
    if "DRESSLINE" in os.environ:
        return
    files = [f"{checks.room}/prefix/{it}" for it in INSTALLED]
    found = said(f"{checks.top}/tools/install", f"{checks.room}/prefix")
    checks.same("tools/install", found[:2], (0, "".join(f"{it}\n" for it in files)))
    checks.same("the installed program", said(files[0], "catalogue", "1"), (0, checks.written("catalogue 1"), ""))
    if shutil.which("man"):
        _, _, warnings = said("man", "--warnings", "--local-file", files[1])
        checks.same("warnings on the man page", warnings, "")
    if shutil.which("bash"):
        call = "COMP_WORDS=(dressline catalogue --ti) COMP_CWORD=2; _dressline dressline --ti catalogue"
        words = said("bash", "-c", f'. "$0"; {call}; echo "${{COMPREPLY[@]}}"', files[2])
        checks.same("a word that bash completes", words, (0, "--tiles\n", ""))
