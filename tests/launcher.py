#!/usr/bin/env python3
"""Runs the launcher `muleminute` in checkouts of a few empty crates, with a command `rt` that only pretends to build:
when it builds and when not, links to it, checkouts that cannot be written, two at once, builds that end early.

    tests/launcher.py      (needs nothing built)"""
import os
import pty
import shutil
import signal
import subprocess
import sys
import tempfile
import time
from concurrent.futures import ProcessPoolExecutor

TOP = os.path.realpath(os.path.join(os.path.dirname(os.path.abspath(__file__)), ".."))
CRATES = """# One line a crate: NAME: the crates it stands on.
low:
middle staticlib: low
aside: low
fast: low
pass: middle serde_json
bench: aside low
"""
USAGE = "usage: muleminute pass [OPTION]... FILE...\n"
# Builds a program that says which build it is of, where it runs and how it is called. RT_FAILS makes the build fail,
# RT_SLOW lets it begin to write the program and then take long, and RT_GATE lets it wait until there is such a file.
RT = """#!/bin/sh
if [ "$*" = version ]; then
    echo "toolchain 7"
    echo "and more"
    exit
fi
[ "$*" = "run -- --version" ] || exit 9
echo $$ >>"$RT_RUNS"
name=$(basename "$PWD")
mkdir -p out
echo "checked low::first, 3 of 14"
if [ -n "${RT_FAILS-}" ]; then
    echo "error: low is not proved"
    exit 1
fi
if [ -n "${RT_SLOW-}" ]; then
    printf '#!/bin/sh\\necho half\\n' >"out/$name"
    chmod +x "out/$name"
    exec sleep "$RT_SLOW"
fi
tries=0
until [ -z "${RT_GATE-}" ] || [ -e "$RT_GATE" ]; do
    tries=$((tries + 1))
    [ $tries -lt 50 ] || exit 8
    sleep 1
done
build=$(wc -l <"$RT_RUNS" | tr -d ' ')
cat >"out/$name.new" <<END
#!/bin/sh
printf "$name"
[ \\$# -eq 0 ] || printf " <%s>" "\\$@"
echo " by build $build in \\$PWD"
exit 5
END
chmod +x "out/$name.new"
mv "out/$name.new" "out/$name"
"""


def same(got, want, what):
    assert got == want, "%s:\ngot  %r\nwant %r" % (what, got, want)


def write(path, text, mode=0o644):
    os.makedirs(os.path.dirname(path), exist_ok=True)
    with open(path, "w") as f:
        f.write(text)
    os.chmod(path, mode)


class Checkout:
    """A checkout in a new folder, whose name has a blank, and the command `rt`."""

    def __init__(self, room, name="check out"):
        self.room = room
        self.top = os.path.join(room, name)
        self.launcher = os.path.join(self.top, "muleminute")
        self.runs = os.path.join(room, "runs")
        write(os.path.join(room, "bin", "rt"), RT, 0o755)
        self.path = os.path.join(room, "bin") + os.pathsep + os.environ["PATH"]
        self.file("crates.txt", CRATES)
        for crate in ("low", "middle", "aside", "fast", "pass", "bench"):
            top = "main" if crate in ("pass", "bench") else "lib"
            self.file("crates/%s/src/%s.rt" % (crate, top), "// %s\n" % crate)
            self.file("crates/%s/specs/Lib.antt" % crate, "")
        self.file("crates/low/proofs/first/Answers.antt", "-- first\n")
        shutil.copy(os.path.join(TOP, "muleminute"), self.launcher)

    def at(self, name):
        return os.path.join(self.top, name)

    def file(self, name, text):
        write(self.at(name), text)

    def begin(self, *arguments, launcher=None, before=(), **more):
        environment = {**os.environ, "PATH": self.path, "RT_RUNS": self.runs, **more.pop("env", {})}
        how = {"cwd": self.room, "stdin": subprocess.DEVNULL, "stdout": subprocess.PIPE, "stderr": subprocess.PIPE}
        return subprocess.Popen([*before, launcher or self.launcher, *arguments], env=environment, **{**how, **more})

    def run(self, *arguments, **more):
        with self.begin(*arguments, **more) as begun:
            out, err = begun.communicate(timeout=60)
        return begun.returncode, out.decode(), err.decode()

    def builds(self):
        if not os.path.exists(self.runs):
            return 0
        with open(self.runs) as f:
            return f.read().count("\n")

    def expect(self, builds, program="pass", by=None, what="", **more):
        """The program runs, and by then there were that many builds; it is of the last one, if not told."""
        status, out, err = self.run(program, "a b", "-c", **more)
        where = more.get("cwd", self.room)
        want = "%s <a b> <-c> by build %d in %s\n" % (program, by or builds, where)
        same((status, out), (5, want), "%s (%s)" % (what, err))
        same(self.builds(), builds, what)
        return err

    def old(self, name, seconds=100000):
        """Gives a file a time long ago, or with seconds below 0 one to come."""
        time_ = time.time() - seconds
        os.utime(self.at(name), (time_, time_))

    def everything(self):
        """All files with their times and contents, to see that nothing is written."""
        found = {}
        for at, folders, names in os.walk(self.top):
            for name in folders + names:
                path = os.path.join(at, name)
                status = os.lstat(path)
                found[path] = status.st_mtime_ns, status.st_size, status.st_mode
        return found


def check_words(room):
    """What is printed without a build: help, version, usage."""
    checkout = Checkout(room)
    for option in ("--help", "-h"):
        status, out, err = checkout.run(option)
        assert status == 0 and err == "" and out.startswith(USAGE), (option, status, out, err)
        for word in ("\n  pass ", "\n  bench ", "--version"):
            assert word in out, (word, out)
    for option in ("--version", "-V"):
        same(checkout.run(option), (0, "muleminute 0.1.0\n", ""), option)
    status, out, err = checkout.run()
    assert status == 2 and out == "" and err.startswith(USAGE), (status, out, err)
    for wrong in ("path", "--wrong", "", "../pass", "pass bench"):
        status, out, err = checkout.run(wrong)
        said = "muleminute: unknown %s '%s'\n" % ("option" if wrong.startswith("-") else "program", wrong)
        assert status == 2 and out == "" and err.startswith(said + USAGE), (wrong, status, out, err)
    same(checkout.builds(), 0, "words")
    checkout.expect(1)
    of_pass, of_bench = "pass: built with toolchain 7\n", "bench: built with toolchain 7\n"
    same(checkout.run("--version"), (0, "muleminute 0.1.0\n" + of_pass, ""), "--version")
    checkout.expect(2, "bench")
    same(checkout.run("-V"), (0, "muleminute 0.1.0\n" + of_pass + of_bench, ""), "-V")
    # What something else built since is not told of.
    write(checkout.at("crates/pass/out/pass"), "#!/bin/sh\n", 0o755)
    same(checkout.run("-V"), (0, "muleminute 0.1.0\n" + of_bench, ""), "-V")


def check_building(room):
    """The first run builds and says so, the second one does not; the log stands in target/."""
    checkout = Checkout(room)
    err = checkout.expect(1)
    want = "muleminute: building pass; the first build proves everything it stands on and takes a few minutes\n"
    same(err, want, "first")
    with open(checkout.at("target/build-pass.log")) as log:
        same(log.read(), "checked low::first, 3 of 14\n", "log")
    same(checkout.expect(1), "", "second")
    # Arguments reach the program as they are.
    status, out, _ = checkout.run("pass", "--help")
    assert status == 5 and out.startswith("pass <--help> by build 1"), out


def check_sources(room):
    """It builds again when what the program is built from changed, and else not."""
    checkout = Checkout(room)
    checkout.expect(1)
    builds = 1

    def changed(what):
        nonlocal builds
        builds += 1
        err = checkout.expect(builds, what=what)
        assert "building pass anew, as it is not built from the sources as they are" in err, (what, err)
        same(checkout.expect(builds, what=what), "", what)

    def unchanged(what):
        same(checkout.expect(builds, what=what), "", what)

    for name in ("pass/src/main.rt", "middle/specs/Lib.antt", "low/src/lib.rt", "low/proofs/first/Answers.antt"):
        name = "crates/" + name
        checkout.old(name, -100000)
        unchanged("only the time of %s is new" % name)
        checkout.file(name, "// other\n")
        checkout.old(name)
        changed("%s with an old time" % name)
    checkout.file("crates/low/src/more.rt", "")
    changed("a new file")
    os.rename(checkout.at("crates/low/src/more.rt"), checkout.at("crates/low/src/most.rt"))
    changed("a file of another name")
    os.remove(checkout.at("crates/low/src/most.rt"))
    changed("a file removed")
    checkout.file("crates.txt", CRATES.replace("middle serde", "middle aside serde"))
    changed("crates.txt")
    checkout.file("crates/aside/src/lib.rt", "// other\n")
    changed("a crate that it stands on since")
    checkout.file("crates.txt", CRATES)
    changed("crates.txt")
    checkout.file("crates.txt", CRATES + "# the end\n")
    changed("crates.txt, with the same crates")
    for name in ("aside/src/lib.rt", "fast/src/lib.rt", "bench/src/main.rt", "other/src/lib.rt"):
        checkout.file("crates/" + name, "// for another program\n")
        unchanged(name)
    for name in ("main.rt~", ".#main.rt", ".main.rt.swp", "#main.rt#", "main.swp", "main.rt.orig", ".hidden.rt"):
        checkout.file("crates/pass/src/" + name, "left")
        unchanged(name)
    os.remove(checkout.at("crates/pass/src/.#main.rt"))
    os.symlink("someone@host.1", checkout.at("crates/pass/src/.#main.rt"))
    unchanged("a lock of an editor")
    for name in ("crates/pass/data/x.rt", "crates/pass/must-fail/x.edit", "crates/low/out/x.rt", "docs/x.antt"):
        checkout.file(name, "// no source\n")
        unchanged(name)
    checkout.expect(builds + 1, "bench")
    checkout.expect(builds + 1, "pass", by=builds)


def check_stamp(room):
    """What something else built is taken if no source is newer; a program that is not the stamp's is built anew."""
    checkout = Checkout(room)
    program = "#!/bin/sh\necho \"pass <$1> <$2> by build 70 in $PWD\"\nexit 5\n"
    for at, _, names in os.walk(checkout.top):
        for name in names:
            checkout.old(os.path.join(at, name))
    write(checkout.at("crates/pass/out/pass"), program, 0o755)
    same(checkout.expect(0, by=70), "", "built by something else")
    checkout.old("crates/bench/src/main.rt", -100000)
    checkout.file("crates/pass/src/main.rt~", "left")
    checkout.old("crates/pass/src/main.rt~", -100000)
    same(checkout.expect(0, by=70), "", "another program's source is newer")
    checkout.old("crates/low/src/lib.rt", -100000)
    checkout.expect(1, what="a source is newer")
    same(checkout.expect(1), "", "built since")
    write(checkout.at("crates/pass/out/pass"), program, 0o755)
    checkout.expect(2, what="another program than the stamp's")
    os.chmod(checkout.at("crates/pass/out/pass"), 0o644)
    checkout.expect(3, what="a program that cannot be run")
    # A checkout that is moved stays built.
    os.rename(checkout.top, os.path.join(room, "moved"))
    moved = os.path.join(room, "moved", "muleminute")
    same(checkout.expect(3, launcher=moved), "", "moved")
    # What changes while the build runs is built by the next one.
    checkout = Checkout(room, "changing")
    before = checkout.builds()
    with checkout.begin("pass", env={"RT_GATE": checkout.at("gate")}) as begun:
        wait_until(lambda: checkout.builds() == before + 1)
        checkout.file("crates/low/src/lib.rt", "// changed\n")
        checkout.file("gate", "")
        begun.communicate(timeout=60)
    checkout.expect(before + 2, what="changed while it was built")


def check_links(room):
    """It is run through symbolic links, from any folder."""
    checkout = Checkout(room)
    far = os.path.join(room, "far", "off")
    os.makedirs(far)
    os.makedirs(os.path.join(room, "near"))
    links = {
        "whole": checkout.launcher,
        "near/relative": "../check out/muleminute",
        "far/off/chain": "../../near/relative",
        "far/longer": "off/chain",
        "-dash": "far/longer",
        # A folder that is a link: what stands above it is where it leads.
        "into": "far/off",
    }
    for link, to in links.items():
        os.symlink(to, os.path.join(room, link))
    checkout.expect(1, launcher=os.path.join(room, "far/off/chain"))
    for cwd in (room, far, checkout.top, "/"):
        for link in ("whole", "near/relative", "far/off/chain", "far/longer", "-dash", "into/chain", "into/../longer"):
            for start in (room, os.path.relpath(room, os.path.realpath(cwd))):
                name = os.path.join(start, link)
                checkout.expect(1, launcher=name, cwd=cwd, what=name)
    checkout.expect(1, launcher="./muleminute", cwd=checkout.top)
    # By its name alone: from the PATH, or given to sh.
    named = {"PATH": os.path.join(room, "near") + os.pathsep + checkout.path}
    status, out, err = checkout.run("-c", "relative pass x", launcher="sh", env=named, cwd="/")
    assert status == 5 and out.startswith("pass <x> by build 1 in /"), (status, out, err)
    status, out, err = checkout.run("muleminute", "pass", "x", launcher="sh", cwd=checkout.top)
    assert status == 5 and out.startswith("pass <x> by build 1 "), (status, out, err)
    # CDPATH does not lead elsewhere.
    os.makedirs(os.path.join(far, "near"))
    os.makedirs(os.path.join(far, "check out"))
    checkout.expect(1, launcher="near/relative", env={"CDPATH": far})
    # A copy elsewhere says what is wrong.
    lost = os.path.join(room, "lost")
    shutil.copy(checkout.launcher, lost)
    status, out, err = checkout.run("pass", launcher=lost)
    assert status == 2 and out == "" and "muleminute: %s/crates.txt cannot be read" % room in err, (status, out, err)
    # Without `readlink -f`.
    only = {"PATH": tools(room, ("readlink",)) + os.pathsep + os.path.join(room, "bin")}
    write(os.path.join(room, "tools", "readlink"),
          "#!/bin/sh\ncase $1 in -f) exit 1 ;; --) shift ;; esac\nexec %s \"$1\"\n" % shutil.which("readlink"), 0o755)
    checkout.expect(1, launcher=os.path.join(room, "far/longer"), env=only, what="readlink")


def tools(room, but):
    """A folder with the commands that the launcher may use, but those."""
    folder = os.path.join(room, "tools")
    os.makedirs(folder, exist_ok=True)
    for name in ("awk", "basename", "cat", "chmod", "cksum", "find", "flock", "head", "ln", "mkdir", "mv", "ps",
                 "readlink", "rm", "rmdir", "sed", "sh", "sleep", "sort", "tail", "tr", "wc"):
        to = os.path.join(folder, name)
        if os.path.lexists(to):
            os.remove(to)
        found = shutil.which(name)
        if found and name not in but:
            os.symlink(found, to)
    return folder


def text_of(path):
    with open(path) as f:
        return f.read()


def wait_until(is_so, seconds=30):
    end = time.time() + seconds
    while not is_so():
        assert time.time() < end, "it did not come to this"
        time.sleep(0.02)


def locks(room):
    """Both kinds of lock: by flock where there is one, and without it."""
    without = {"PATH": os.path.join(room, "bin") + os.pathsep + tools(room, ("flock",))}
    return ([("flock", {})] if shutil.which("flock") else []) + [("link", without)]


def check_two(room):
    """Of two that begin together one builds, and the other waits and then runs what was built."""
    for kind, environment in locks(room):
        checkout = Checkout(room, "two " + kind)
        before = checkout.builds()
        gated = {**environment, "RT_GATE": checkout.at("gate")}
        said = [os.path.join(room, "said %s %d" % (kind, it)) for it in range(2)]
        both = [checkout.begin("pass", "x", env=gated, stderr=open(it, "w")) for it in said]
        try:
            wait_until(lambda: any("waiting" in text_of(it) for it in said))
        finally:
            checkout.file("gate", "")
        for it in both:
            out, _ = it.communicate(timeout=60)
            same((it.returncode, out.decode()), (5, "pass <x> by build %d in %s\n" % (before + 1, room)), kind)
        said = sorted(map(text_of, said))
        same(checkout.builds(), before + 1, kind)
        assert said[0].startswith("muleminute: building pass; ") and said[0].count("\n") == 1, (kind, said)
        assert said[1].startswith("muleminute: waiting for the build in %s of process " % checkout.top), (kind, said)
        # (who has just got the lock may not have written its number yet)
        numbers = ["" if kind == "flock" else "none"] + [" of process %d" % it.pid for it in both]
        assert any(said[1].split("\n")[0].split(" (")[0].endswith(checkout.top + it) for it in numbers), (kind, said)
        same(said[1].count("\n"), 1, kind)
        same(left(checkout), [], kind)
        # Who waits for a build that fails tries it too.
        failing = {**environment, "RT_FAILS": "1"}
        both = [checkout.begin("bench", env=failing) for _ in range(2)]
        for it in both:
            out, err = it.communicate(timeout=60)
            assert it.returncode == 2 and out == b"" and b"the build failed" in err, (kind, err)
        same(left(checkout), [], kind)


def left(checkout):
    """What is left of locks that are links."""
    return [it for it in os.listdir(checkout.at("target")) if it.startswith("build.owner")]


def check_killed(room):
    """A build that is cut short keeps nobody away, and what it left is not run."""
    for kind, environment in locks(room):
        for how in (signal.SIGKILL, signal.SIGTERM):
            checkout = Checkout(room, "%s %d" % (kind, how))
            before = checkout.builds()
            begun = checkout.begin("pass", env={**environment, "RT_SLOW": "50"}, start_new_session=True)
            wait_until(lambda: os.access(checkout.at("crates/pass/out/pass"), os.X_OK))
            os.killpg(begun.pid, how)
            begun.communicate(timeout=30)
            same(len(left(checkout)), 1 if (kind, how) == ("link", signal.SIGKILL) else 0, (kind, how))
            begin = time.time()
            err = checkout.expect(before + 2, env=environment, what=(kind, how))
            assert time.time() - begin < 20 and "waiting" not in err, (kind, how, err)
            same(left(checkout), [], (kind, how))
        # The launcher alone is ended: it ends the build.
        checkout = Checkout(room, "%s alone" % kind)
        before = checkout.builds()
        begun = checkout.begin("pass", env={**environment, "RT_SLOW": "50"})
        wait_until(lambda: checkout.builds() == before + 1)
        with open(checkout.runs) as f:
            building = int(f.read().split()[-1])
        begun.terminate()
        begun.communicate(timeout=30)
        same(begun.returncode, 143, kind)
        wait_until(lambda: not is_running(building))
        same(left(checkout), [], kind)
    # The launcher alone is killed, and its build goes on: that has the lock until it ends.
    if shutil.which("flock"):
        checkout = Checkout(room, "going on")
        before = checkout.builds()
        gated, said = {"RT_GATE": checkout.at("gate")}, os.path.join(room, "said")
        begun = checkout.begin("pass", env=gated, stdout=subprocess.DEVNULL, stderr=subprocess.DEVNULL)
        wait_until(lambda: checkout.builds() == before + 1)
        begun.kill()
        begun.wait(timeout=30)
        begun = checkout.begin("pass", stderr=open(said, "w"))
        try:
            wait_until(lambda: text_of(said).startswith("muleminute: waiting for the build in "))
            same(checkout.builds(), before + 1, "its build goes on")
        finally:
            checkout.file("gate", "")
        out, _ = begun.communicate(timeout=60)
        assert begun.returncode == 5 and out.startswith(b"pass by build %d " % (before + 2)), out


def is_running(process):
    said = subprocess.run(["ps", "-o", "stat=", "-p", str(process)], capture_output=True).stdout.strip()
    return said != b"" and not said.startswith(b"Z")


def check_failing(room):
    """A build that fails shows the end of its log; so does one that leaves no program. A missing `rt` is told."""
    checkout = Checkout(room)
    status, out, err = checkout.run("pass", env={"RT_FAILS": "1"})
    log = checkout.at("target/build-pass.log")
    want = "muleminute: the build failed; the end of %s:\nchecked low::first, 3 of 14\nerror: low is not proved\n" % log
    assert status == 2 and out == "" and err.endswith(want), (status, out, err)
    checkout.expect(2, what="after one that failed")
    # What was built before is not run either.
    checkout.file("crates/low/src/lib.rt", "// wrong\n")
    status, out, err = checkout.run("pass", env={"RT_FAILS": "1"})
    assert status == 2 and out == "" and "the build failed" in err, (status, out, err)
    status, out, err = checkout.run("pass", env={"RT_FAILS": "1"})
    assert status == 2 and out == "" and checkout.builds() == 4, (status, out, err)
    write(os.path.join(room, "bin", "rt"), "#!/bin/sh\necho nothing done\n", 0o755)
    status, out, err = checkout.run("bench")
    assert status == 2 and out == "" and err.endswith(":\nnothing done\n"), (status, out, err)
    status, out, err = checkout.run("pass", env={"PATH": tools(room, ())})
    want = "the command 'rt' of the Rattle toolchain is not on the PATH; README.md says which version is needed"
    same((status, out, err), (2, "", "muleminute: %s\n" % want), "no rt")


def check_terminal(room):
    """On a terminal one line says what is done, and is gone in the end."""
    for terminal in ("xterm", "dumb"):
        checkout = Checkout(room, terminal)
        ours, theirs = pty.openpty()
        gate = checkout.at("gate")
        begun = checkout.begin("pass", env={"RT_GATE": gate, "TERM": terminal}, stderr=theirs)
        if terminal == "dumb":
            # (it would show something after one second)
            time.sleep(3)
            checkout.file("gate", "")
        os.close(theirs)
        shown = b""
        while True:
            try:
                more = os.read(ours, 4096)
            except OSError:
                break
            if not more:
                break
            shown += more
            if b"3 of 14" in shown:
                checkout.file("gate", "")
        os.close(ours)
        out, _ = begun.communicate(timeout=60)
        assert begun.returncode == 5 and out.startswith(b"pass "), (begun.returncode, out, shown)
        first, rest = shown.decode().split("\n", 1)
        assert first.startswith("muleminute: building pass; "), shown
        if terminal == "dumb":
            same(rest, "", terminal)
        else:
            clear = "\r\033[K"
            lines = rest.split(clear)
            assert lines[0] == "" and lines[-1] == "" and "\n" not in rest, shown
            # (the log may have been empty at first)
            assert lines[-2] == "muleminute: building pass: low, 3 of 14", shown


def readers(room):
    """What to put before a command so that it cannot write where others must not, or None if there is no such thing."""
    probe = os.path.join(room, "probe")
    os.makedirs(probe)
    os.chmod(probe, 0o555)
    for before in ((), ("setpriv", "--reuid=65534", "--regid=65534", "--clear-groups", "--")):
        try:
            done = subprocess.run([*before, "sh", "-c", "ls . && ! (: >probe/x)"], cwd=room, capture_output=True)
        except OSError:
            continue
        if done.returncode == 0:
            return before
    return None


def check_read_only(room):
    """Where nothing can be written it runs what is built, writing nothing, and says what is wrong if nothing is."""
    os.chmod(room, 0o755)
    before = readers(room)
    if before is None:
        print("launcher: this user can write everywhere, so read-only checkouts are left out", file=sys.stderr)
        return
    checkout = Checkout(room)

    def close(is_closed):
        for at, _, names in os.walk(checkout.top):
            for name in names:
                path = os.path.join(at, name)
                os.chmod(path, os.stat(path).st_mode & 0o111 | (0o444 if is_closed else 0o644))
            os.chmod(at, 0o555 if is_closed else 0o755)

    def refused(word):
        files = checkout.everything()
        status, out, err = checkout.run("pass", before=before)
        same(checkout.everything(), files, "files")
        want = "pass %s, and it cannot be built here, as nothing can be written in %s\n" % (word, checkout.top)
        assert status == 2 and out == "" and err.startswith("muleminute: " + want), (status, out, err)
        assert "run '%s pass --version' once" % checkout.launcher in err and err.count("\n") == 2, err

    close(True)
    refused("is not built")
    same(checkout.builds(), 0, "read-only")
    close(False)
    checkout.expect(1)
    close(True)
    files = checkout.everything()
    same(checkout.expect(1, before=before, what="read-only"), "", "read-only")
    status, out, _ = checkout.run("--version", before=before)
    same((status, out), (0, "muleminute 0.1.0\npass: built with toolchain 7\n"), "read-only")
    same(checkout.everything(), files, "files")
    close(False)
    os.remove(checkout.at("crates/pass/out/pass.sources"))
    close(True)
    files = checkout.everything()
    same(checkout.expect(1, before=before, what="read-only"), "", "read-only, without a stamp")
    same(checkout.everything(), files, "files")
    close(False)
    checkout.file("crates/low/src/lib.rt", "// changed\n")
    checkout.old("crates/low/src/lib.rt", -100000)
    close(True)
    refused("is not built from the sources as they are")
    same(checkout.builds(), 1, "read-only")
    close(False)


def check_real(room):
    """The crates of this repository: each program is built from those that it stands on by crates.txt, and no other."""
    below = {}
    with open(os.path.join(TOP, "crates.txt")) as f:
        for line in f:
            name, colon, rest = line.partition("#")[0].partition(":")
            if colon:
                below[name.split()[0]] = rest.split()
    for program in ("pass", "bench"):
        checkout = Checkout(room, program)
        shutil.copy(os.path.join(TOP, "crates.txt"), checkout.top)
        for name in below:
            checkout.file("crates/%s/src/lib.rt" % name, "// %s\n" % name)
        checkout.run(program)
        with open(checkout.at("crates/%s/out/%s.sources" % (program, program))) as f:
            got = {line.split("/")[1] for line in f if "/src/lib.rt" in line}
        want, todo = set(), [program]
        while todo:
            name = todo.pop()
            if name in below and name not in want:
                want.add(name)
                todo += below[name]
        same(sorted(got), sorted(want), program)


def in_room(check):
    with tempfile.TemporaryDirectory() as room:
        check(os.path.realpath(room))


def main():
    checks = (check_words, check_building, check_sources, check_stamp, check_links, check_two, check_killed,
              check_failing, check_terminal, check_read_only, check_real)
    with ProcessPoolExecutor(4) as pool:
        # (each mostly waits)
        for ended in [pool.submit(in_room, check) for check in checks]:
            ended.result()
    print("the launcher builds when it has to, and only then: %d groups of checks" % len(checks))


if __name__ == "__main__":
    sys.exit(main())
