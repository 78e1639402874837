#!/usr/bin/env python3
"""Runs the script `deruvain` as people do and as they do by mistake: each time its status, and all that it writes.

Runs after `rt ci`, on the programs that it built: an rt stands first on the PATH that refuses to build.
What a build does is tried in small repositories of the test's own, with an rt and programs that are a few lines each."""
import glob
import os
import pty
import re
import shutil
import signal
import subprocess
import sys
import tempfile
import termios
import time

ROOT = os.path.dirname(os.path.dirname(os.path.abspath(__file__)))
SAMPLES = os.path.join(ROOT, "samples")
HOLDER = tempfile.TemporaryDirectory()
WORK = os.path.join(HOLDER.name, "a folder")
TOOLS = os.path.join(WORK, "tools")
TEMP = os.path.join(WORK, "temp")
ENV = {"PATH": TOOLS + ":" + os.environ["PATH"], "TMPDIR": TEMP, "HOME": WORK, "LC_ALL": "C"}
USED = "sh chmod cat awk sed find head tail wc cmp rm cp mkdir mktemp touch sleep dirname readlink flock setsid".split()
ENDS = "something could not be read, written or built"
runs = 0


def write(path, text, mode=0o644):
    os.makedirs(os.path.dirname(path), exist_ok=True)
    with open(path, "w") as out:
        out.write(text)
    os.chmod(path, mode)
    return path


def read(*parts):
    with open(os.path.join(*parts), "rb") as data:
        return data.read()


def sample(name):
    return os.path.join(SAMPLES, name)


def call(arguments, script=os.path.join(ROOT, "deruvain"), **how):
    how = {"stdin": subprocess.DEVNULL, "stdout": subprocess.PIPE, "stderr": subprocess.PIPE, "env": ENV, "cwd": WORK, "timeout": 60, **how}
    if "input" in how:
        del how["stdin"]
    done = subprocess.run([script] + arguments, **how)
    return done.returncode, done.stdout or b"", os.fsdecode(done.stderr or b"")


def expect(name, got, status, out, err):
    global runs
    if got != (status, out, err):
        sys.exit("command: %s: not as expected; status %d, and it wrote %r and %r" % ((name,) + got))
    if os.listdir(TEMP):
        sys.exit("command: %s: left %s behind" % (name, os.listdir(TEMP)))
    runs += 1


def fails(name, arguments, status, line, **how):
    """One line on standard error, and nothing on standard output."""
    expect(name, call(arguments, **how), status, b"", line + "\n")


def refreshed(read_, skipped, silent, working, late):
    text = "refresh: records read: %d, of these from the future and skipped: %d\nrefresh: boards silent: %d, working: %d, late: %d\n"
    return text % (read_, skipped, silent, working, late)


# ---- what is asked for


def helped():
    usage = call([])
    if usage[0] != 0 or usage[2] or not usage[1].startswith(b"deruvain: routing") or ENDS.encode() not in usage[1]:
        sys.exit("command: the usage: not as expected: %r" % (usage,))
    for arguments in (["help"], ["--help"], ["-h"], ["help", "help"]):
        expect("usage by %s" % arguments, call(arguments), *usage)
    for command in ("listing", "refresh", "cases", "check"):
        about = call(["help", command])
        if about[0] != 0 or about[2] or not about[1].startswith(b"./deruvain " + command.encode()) or b"\nStatus: 0 " not in about[1]:
            sys.exit("command: help on %s: not as expected: %r" % (command, about))
        expect(command + " --help", call([command, "--help"]), *about)
        expect(command + " -h", call([command, "-h"]), *about)
    expect("the version", call(["--version"]), 0, b"deruvain " + read(ROOT, "VERSION"), "")


def answered():
    for path in sorted(glob.glob(sample("*.record"))):
        record = read(path)
        text = subprocess.run([os.path.join(ROOT, "crates", "listing", "out", "listing")], input=record, stdout=subprocess.PIPE).stdout
        expect(path, call(["listing", path]), 0, text, "")
        expect(path + " on standard input", call(["listing"], input=record), 0, text, "")
    expect("-", call(["listing", "-"], input=record), 0, text, "")
    expect("a file and a closed input", call(["listing", path], preexec_fn=lambda: os.close(0)), 0, text, "")
    cabinet = read(sample("cabinet-f.record"))
    made = call(["refresh", "2", sample("cabinet-f.log")], input=cabinet)
    expect("refresh", (made[0], made[1][:5] + made[1][21:], made[2]), 0, cabinet[:5] + cabinet[21:], refreshed(27, 1, 2, 12, 2))
    lost = call(["refresh", "27", sample("cabinet-f.log")], input=cabinet)
    warning = "refresh: warning: no board works at sweep 27; is that the present sweep?\n"
    expect("a mistyped sweep", (lost[0], b"", lost[2]), 0, b"", refreshed(27, 0, 1, 0, 15) + warning)
    expect("cases", call(["cases"]), 0, read(ROOT, "crates", "cases_run", "stdout"), "")
    link = os.path.join(WORK, "a link")
    os.symlink(os.path.relpath(os.path.join(ROOT, "deruvain"), WORK), link)
    expect("by a link", call(["listing", path], script=link), 0, text, "")
    named = os.path.join(WORK, "-a record-")
    shutil.copy(path, named)
    expect("a name with spaces", call(["listing", "./-a record-"]), 0, text, "")


def documents():
    """Each command of the two READMEs, and the lines that the first one shows."""
    text = read(ROOT, "README.md").decode()
    commands = re.findall(r"^    (\./deruvain (?!check).*)$", text, re.M)
    commands += re.findall(r"`([^`\n]*samples/[^`\n]* ./deruvain [^`\n]*|\./deruvain [^`\n]*samples/[^`\n]*)`", read(SAMPLES, "README.md").decode())
    if len(commands) < 7:
        sys.exit("command: the READMEs have only these commands: %s" % commands)
    for word, value in (("\\|", "|"), ("SWEEP", "2"), ("LOG", "samples/cabinet-f.log"), ("RECORD", '"$W/today"'), ("NEW", '"$W/new"')):
        commands = [command.replace(word, value) for command in commands]
    shutil.copy(sample("cabinet-f.record"), os.path.join(WORK, "today"))
    for command in commands:
        status, out, err = call(["-c", command], script="/bin/sh", cwd=ROOT, env={**ENV, "W": WORK})
        said = "".join(line for line in err.splitlines(True) if not re.match("refresh: (records read|boards silent): ", line))
        short = command.startswith("head ")
        cut = "listing: refused 10: the record's first two bytes announce 3075 bytes after them, and 98 came\n"
        expect("`%s`" % command, (status, out, said), *((1, b"refused 10\n", cut) if short else (0, out, "")))
    shown = re.search(r"^    (\./deruvain listing .*)\n(?:.*\n)*?((?:    .*\n)+)    \.\.\n", text, re.M)
    printed = call(["-c", shown.group(1)], script="/bin/sh", cwd=ROOT)[1].decode()
    if not printed.startswith(shown.group(2).replace("    ", "")):
        sys.exit("command: README.md shows %r, and it prints %r" % (shown.group(2), printed))


# ---- mistakes


def wrong():
    record = sample("cabinet-f.record")
    log = sample("cabinet-f.log")
    more = "; ./deruvain help %s says more"
    fails("no such command", ["list"], 2, "deruvain: there is no command 'list'; ./deruvain help says what there is")
    fails("no such option", ["--list"], 2, "deruvain: there is no command '--list'; ./deruvain help says what there is")
    fails("an empty command", [""], 2, "deruvain: there is no command ''; ./deruvain help says what there is")
    fails("help on nothing known", ["help", "list"], 2, "deruvain: there is no command 'list'; ./deruvain help says what there is")
    fails("help on two", ["help", "listing", "refresh"], 2, "deruvain: help takes one command, and was given 2: listing refresh")
    fails("--help on two", ["--help", "listing", "refresh"], 2, "deruvain: help takes one command, and was given 2: listing refresh")
    fails("--version and more", ["--version", "x"], 2, "deruvain: --version takes no arguments, and was given 'x'")
    fails("listing two", ["listing", record, record], 2, "listing: give one file or none" + more % "listing")
    fails("listing by an option", ["listing", "-a"], 2, "listing: there is no option '-a'" + more % "listing")
    fails("listing --help and more", ["listing", "--help", record], 2, "listing: give one file or none" + more % "listing")
    fails("listing no name", ["listing", ""], 2, "listing: the file's name is empty")
    give = "refresh: give the present sweep and the log's file name" + more % "refresh"
    for arguments in ([], ["2"], ["2", log, record], ["--help", "2", log]):
        fails("refresh %s" % arguments, ["refresh"] + arguments, 2, give)
    for sweep in ("", "two", "-1", "65536"):
        fails("sweep %r" % sweep, ["refresh", sweep, log], 2, "refresh: the present sweep is a number from 0 to 65535", input=read(record))
    fails("refresh with no name", ["refresh", "2", ""], 2, "refresh: the log's file name is empty", input=read(record))
    for command in ("cases", "check"):
        for arguments in (["x"], ["--list"], ["--help", "x"]):
            fails("%s %s" % (command, arguments), [command] + arguments, 2, command + ": takes no arguments, and was given '%s'" % arguments[0] + more % command)


def refused():
    cut = read(sample("full-1024.record"))[:100]
    meaning = "refused 10: the record's first two bytes announce 3075 bytes after them, and 98 came\n"
    expect("a record cut short", call(["listing"], input=cut), 1, b"refused 10\n", "listing: " + meaning)
    expect("a record cut short for refresh", call(["refresh", "2", sample("cabinet-f.log")], input=cut), 1, b"", "refresh: " + meaning)
    lacks = "refresh: refused 12: the log's record 1 names node 4, which a cabinet of 4 boards lacks\n"
    expect("another cabinet's log", call(["refresh", "2", sample("cabinet-f.log")], input=read(sample("four-boards.record"))), 1, b"", lacks)
    expect("nothing", call(["listing"]), 1, b"refused 10\n", "listing: refused 10: no bytes came\n")


def unread():
    record = read(sample("cabinet-f.record"))
    log = sample("cabinet-f.log")
    fails("a missing file", ["listing", "none"], 3, "listing: none: there is no such file")
    fails("a folder", ["listing", WORK], 3, "listing: %s: that is a folder" % WORK)
    fails("a missing log", ["refresh", "2", "none"], 3, "refresh: the log none: No such file or directory", input=record)
    fails("a folder for a log", ["refresh", "2", WORK], 3, "refresh: the log can't be read", input=record)
    fails("a long name", ["refresh", "2", "x" * 5000], 3, "refresh: the log's file name is too long", input=record)
    fails("a name that is not UTF-8", ["refresh", "2", b"\xff.log"], 3, "refresh: the log %s: its name is not UTF-8" % os.fsdecode(b"\xff.log"), input=record)
    for command in (["listing"], ["listing", "-"], ["refresh", "2", log]):
        line = command[0] + ": standard input can't be read"
        fails("%s with a closed input" % command, command, 3, line, preexec_fn=lambda: os.close(0))
        folder = os.open(WORK, os.O_RDONLY)
        fails("%s on a folder" % command, command, 3, line, stdin=folder)
        os.close(folder)
    none = os.path.join(WORK, "no temp")
    line = "listing: no folder can be made in %s for what the program writes" % none
    fails("no folder for temporary files", ["listing"], 3, line, env={**ENV, "TMPDIR": none})


def unwritten():
    record = read(sample("full-1024.record"))
    cabinet = read(sample("cabinet-f.record"))
    wants = [(["listing"], record, "listing"), (["listing"], b"", "listing"), (["refresh", "2", sample("cabinet-f.log")], cabinet, "refresh")]
    wants += [(["cases"], b"", "cases"), ([], b"", "deruvain"), (["help", "check"], b"", "deruvain"), (["--version"], b"", "deruvain")]
    for arguments, given, name in wants:
        line = name + ": standard output can't be written"
        with open("/dev/full", "wb") as full:
            fails("%s to a full disk" % arguments, arguments, 3, line, input=given, stdout=full)
        fails("%s to a closed output" % arguments, arguments, 3, line, input=given, stdout=None, preexec_fn=lambda: os.close(1))
    gone, end = os.pipe()
    os.close(gone)
    fails("a reader that has gone", ["listing"], 3, "listing: standard output can't be written", input=record, stdout=end)
    os.close(end)


def kept():
    """The record that a newcomer lost."""
    record = shutil.copy(sample("cabinet-f.record"), os.path.join(WORK, "rec"))
    line = '"%s/deruvain" refresh 2 "%s" < rec > new && mv new rec'
    for log, status in (("nolog", 3), (sample("cabinet-f.record"), 1), (sample("cabinet-f.log"), 0)):
        done = call(["-c", line % (ROOT, log)], script="/bin/sh")
        if done[0] != status or len(read(record)) != 53 or (status and read(record) != read(sample("cabinet-f.record"))):
            sys.exit("command: the record was lost by the log %s: %r" % (log, done))
    pipe = '"%s/deruvain" refresh 2 nolog < rec | "%s/deruvain" listing' % (ROOT, ROOT)
    err = "refresh: the log nolog: No such file or directory\nlisting: refused 10: no bytes came\n"
    expect("a pipe that breaks", call(["-c", pipe], script="/bin/sh"), 1, b"refused 10\n", err)


# ---- terminals and signals


def until(what, seconds=10):
    end = time.time() + seconds
    while not what():
        if time.time() > end:
            return False
        time.sleep(0.01)
    return True


def alive(pid):
    """Whether a process runs: neither gone nor a zombie."""
    try:
        return read("/proc/%d/stat" % pid).rsplit(b")", 1)[1].split()[0] != b"Z"
    except OSError:
        return False


def of_process(pid, name):
    """A file of /proc about a process, empty where it has ended."""
    try:
        return read("/proc/%d/%s" % (pid, name))
    except OSError:
        return b""


def below(pid, words):
    """The processes that a process started, and those that they started, whose command has these words."""
    found = []
    for child in (int(x) for x in of_process(pid, "task/%d/children" % pid).split()):
        if words in of_process(child, "cmdline").replace(b"\0", b" "):
            found.append(child)
        found += below(child, words)
    return found


def stopped(script, words, number):
    """Once a command with these words runs below a script, a signal to the script alone ends both: its status and what it wrote."""
    started = []
    until(lambda: started.extend(below(script.pid, words)) or started)
    script.send_signal(number)
    status = script.wait(timeout=10)
    if not started or not until(lambda: not any(alive(p) for p in started)):
        sys.exit("command: signal %d left %s running: %s" % (number, words, started))
    return status, script.stdout.read(), script.stderr.read().decode()


def heard():
    """Undoes what a gate in the background hands down: signals that are ignored."""
    for number in (signal.SIGTERM, signal.SIGINT, signal.SIGHUP):
        signal.signal(number, signal.SIG_DFL)


def start(words, **how):
    pipe = subprocess.PIPE
    return subprocess.Popen(words, stdin=pipe, stdout=pipe, stderr=pipe, preexec_fn=heard, **how)


def signals():
    for number in (signal.SIGTERM, signal.SIGINT, signal.SIGHUP):
        script = start([os.path.join(ROOT, "deruvain"), "listing"], env=ENV)
        expect("signal %d" % number, stopped(script, b"listing/out/listing", number), -number, b"", "")


def terminal(keys):
    """The script at a terminal that echoes nothing, and these keys after its hint: its status and what it wrote."""
    pid, master = pty.fork()
    if pid == 0:
        heard()
        os.execve(os.path.join(ROOT, "deruvain"), ["deruvain", "listing"], ENV)
    modes = termios.tcgetattr(master)
    modes[3] &= ~termios.ECHO
    termios.tcsetattr(master, termios.TCSANOW, modes)
    seen = b""
    until(lambda: len(os.listdir(TEMP)) > 0)
    time.sleep(0.1)
    os.write(master, keys)
    while True:
        try:
            piece = os.read(master, 4096)
        except OSError:
            break
        if not piece:
            break
        seen += piece
    os.close(master)
    status = os.waitstatus_to_exitcode(os.waitpid(pid, 0)[1])
    return status, b"", seen.decode().replace("\r\n", "\n")


def keyboard():
    hint = "listing: reading a record from the keyboard; Ctrl-D ends it, and < FILE reads a file\n"
    expect("Ctrl-D", terminal(b"\4"), 1, b"", hint + "refused 10\nlisting: refused 10: no bytes came\n")
    expect("Ctrl-C", terminal(b"\3"), -signal.SIGINT, b"", hint)


# ---- builds, in repositories of a few lines

RT = """#!/bin/sh
root=../.. program=out/${PWD##*/}
echo "rt $*" >> $root/calls
[ ! -e $root/slow ] || sleep "$(cat $root/slow)"
[ ! -e $root/broken ] || { echo 'rt: what is wrong'; exit 1; }
mkdir -p out ../below/out/rlib
touch ../below/out/rlib/stamp
cp src/main.rt "$program" && chmod +x "$program"
echo "rt done" >> $root/calls
"""
LISTS = "#!/bin/sh\ncat > /dev/null\nprintf 'cube 1\\n0 working 1\\n1 working 1\\n'\n"
LISTED = b"cube 1\n0 working 1\n1 working 1\n"


def repository(name, program=LISTS):
    """A repository with two programs over a crate of 20,000 bytes, and the script."""
    root = os.path.join(WORK, name)
    write(os.path.join(root, "crates.txt"), "below:\nlisting: below io # a program\ncases_run: below\narchive staticlib: below\n")
    write(os.path.join(root, "crates", "below", "src", "lib.rt"), "// x\n" * 4000)
    write(os.path.join(root, "crates", "listing", "src", "main.rt"), program)
    write(os.path.join(root, "crates", "cases_run", "src", "main.rt"), "#!/bin/sh\nread -r x\necho \"case $x\"\n")
    write(os.path.join(root, "crates", "cases_run", "stdin"), "7\n")
    write(os.path.join(root, "crates", "cases_run", "stdout"), "case 7\n")
    write(os.path.join(root, ".ci", "run"), "#!/bin/sh\necho gate\nexit 1\n", 0o755)
    shutil.copy(os.path.join(ROOT, "deruvain"), root)
    return root, os.path.join(root, "deruvain")


def older(path):
    """Makes a file older than all sources."""
    os.utime(path, (1, 1))


def builds():
    bare = os.path.join(WORK, "no rt")
    os.makedirs(bare)
    for tool in USED:
        os.symlink(shutil.which(tool), os.path.join(bare, tool))
    with_rt = os.path.join(WORK, "an rt")
    write(os.path.join(with_rt, "rt"), RT, 0o755)
    lacking, having = {**ENV, "PATH": bare}, {**ENV, "PATH": with_rt + ":" + bare}
    absent = "the command rt of the Rattle kit isn't on the PATH"
    root, script = repository("first")
    program = os.path.join(root, "crates", "listing", "out", "listing")
    fails("no rt and no program", ["listing"], 3, "listing: the program listing is not built, and " + absent, script=script, env=lacking)
    fails("check with no rt", ["check"], 3, "check: " + absent, script=script, env=lacking)
    building = "listing: proving and building the program listing, about %s\n"
    expect("the first build", call(["listing"], script=script, env=having), 0, LISTED, building % "40 seconds")
    expect("no build", call(["listing"], script=script, env=having), 0, LISTED, "")
    expect("a program where there is no rt", call(["listing"], script=script, env=lacking), 0, LISTED, "")
    older(program)
    warning = "listing: warning: the program listing is older than its sources, and %s; it is run as it is\n"
    expect("an old program where there is no rt", call(["listing"], script=script, env=lacking), 0, LISTED, warning % absent)
    expect("the next build", call(["listing"], script=script, env=having), 0, LISTED, building % "a few seconds")
    older(program)
    write(os.path.join(root, "broken"), "")
    got = call(["listing"], script=script, env=having)
    log = os.path.join(root, "target", "build-listing.log")
    lines = "listing: the program listing could not be built; the last lines of %s:\nrt: what is wrong\n" % log
    expect("a build that fails", got, 3, b"", building % "a few seconds" + lines)
    os.remove(os.path.join(root, "target", "build.lock"))
    os.mkdir(os.path.join(root, "target", "build.lock"))
    cannot = os.path.join(root, "target") + " can't be written"
    expect("an old program that can't be built", call(["listing"], script=script, env=having), 0, LISTED, warning % cannot)
    os.remove(program)
    fails("a checkout that can't be written", ["listing"], 3, "listing: the program listing is not built, and " + cannot, script=script, env=having)
    fails("wrong arguments before any build", ["listing", "a", "b"], 2, "listing: give one file or none; ./deruvain help listing says more", script=script, env=having)
    got = call(["check"], script=script, env=having)
    expect("the gate", got, 1, b"gate\n", "")
    fails("no version", ["--version"], 3, "deruvain: %s/VERSION: it can't be read" % root, script=script)


def turns():
    """Two builds in a pipe take turns, and a signal within one ends rt with all that it started."""
    root, script = repository("turns")
    with_rt = {**ENV, "PATH": os.path.join(WORK, "an rt") + ":" + ENV["PATH"]}
    write(os.path.join(root, "slow"), "0.3")
    got = call(["-c", './deruvain cases | ./deruvain listing'], script="/bin/sh", cwd=root, env=with_rt)
    calls = read(root, "calls").decode().splitlines()
    if got[:2] != (0, LISTED) or len(calls) != 4 or calls[1::2] != ["rt done"] * 2:
        sys.exit("command: two builds didn't take turns: %r, %s" % (got, calls))
    root, script = repository("stopped")
    write(os.path.join(root, "slow"), "60")
    building = start([script, "listing"], env=with_rt)
    line = "listing: proving and building the program listing, about 40 seconds\n"
    expect("a signal within a build", stopped(building, b"sleep 60", signal.SIGTERM), -signal.SIGTERM, b"", line)


def programs():
    """What a program may do when something fails, and what the script makes of it."""
    with_rt = {**ENV, "PATH": os.path.join(WORK, "an rt") + ":" + ENV["PATH"]}
    half, script = repository("half", LISTS.replace("1 working 1\\n'", "'"))
    call(["listing"], script=script, env=with_rt)
    fails("half a listing", ["listing"], 3, "listing: the program ended without an answer", script=script, env=with_rt)
    dying, script = repository("dying", "#!/bin/sh\nkill -s KILL $$\n")
    call(["listing"], script=script, env=with_rt)
    fails("a program that dies", ["listing"], 3, "listing: the program listing ended by itself with status 137", script=script, env=with_rt)
    root, script = repository("cases")
    call(["cases"], script=script, env=with_rt)
    expect("cases", call(["cases"], script=script, env=with_rt), 0, b"case 7\n", "")
    write(os.path.join(root, "crates", "cases_run", "stdout"), "case 8\n")
    call(["cases"], script=script, env=with_rt)
    differs = "cases: the answers are not those in crates/cases_run/stdout\n"
    expect("other cases", call(["cases"], script=script, env=with_rt), 1, b"case 7\n", differs)


# ---- samples


def samples():
    """The committed samples are what make.py writes."""
    folder = os.path.join(WORK, "samples")
    os.makedirs(folder)
    shutil.copy(sample("make.py"), folder)
    done = call([os.path.join(folder, "make.py")], script=sys.executable)
    expect("samples/make.py", done, 0, b"", "")
    made = set(os.listdir(folder)) | {"README.md"}
    if made != set(os.listdir(SAMPLES)):
        sys.exit("command: samples/ has other files than make.py writes: %s" % sorted(made ^ set(os.listdir(SAMPLES))))
    for name in sorted(made - {"README.md"}):
        if read(folder, name) != read(SAMPLES, name):
            sys.exit("command: samples/%s is not what make.py writes" % name)


os.makedirs(TEMP)
write(os.path.join(TOOLS, "rt"), "#!/bin/sh\necho 'tests/command.py builds nothing: run rt ci first'\nexit 1\n", 0o755)
for test in (helped, answered, documents, wrong, refused, unread, unwritten, kept, signals, keyboard, builds, turns, programs, samples):
    test()
print("command: %d runs as expected" % runs)
