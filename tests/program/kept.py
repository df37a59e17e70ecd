"""Looks at every file of a folder before and after commands that write, or are refused: no file is emptied, removed or
written but the one that was named, and what cannot be written is told before anybody is asked.

    ZMETA=PROGRAM python3 tests/program/kept.py"""

import os
import resource
import shutil
import signal
import socket
import stat
import subprocess
import sys
import tempfile
import threading
import time

HERE = os.path.dirname(os.path.abspath(__file__))
# a program that is refused before it asks has ended after so many seconds
SOON = 60
# merges of two pairs of files into one, side by side
RACES = 12


def octets_at(path):
    with open(path, "rb") as file:
        return file.read()


def make(path, octets):
    with open(path, "wb") as file:
        file.write(octets)


def looked_at(folder):
    """Each name below a folder, with what is there: its kind and mode, its time, its octets or where it leads."""
    found = {}
    for place, folders, names in os.walk(folder):
        for name in folders + names:
            path = os.path.join(place, name)
            it = os.lstat(path)
            if stat.S_ISLNK(it.st_mode):
                held = os.readlink(path)
            else:
                held = octets_at(path) if stat.S_ISREG(it.st_mode) else None
            # a folder has another time once a draft was in it, and a pipe once it was opened
            when = it.st_mtime_ns if stat.S_ISREG(it.st_mode) else None
            found[os.path.relpath(path, folder)] = it.st_mode, when, held
    return found


def run(zmeta, room, *words):
    how = {"stdin": subprocess.DEVNULL, "capture_output": True, "cwd": room, "timeout": SOON, "check": False}
    ran = subprocess.run([zmeta, *words], **how)
    return ran.returncode, ran.stdout, ran.stderr


class Room:
    """A folder with files, and what is not as it should be in it."""

    def __init__(self, zmeta, folder):
        self.zmeta, self.folder, self.found = zmeta, folder, []
        shutil.copytree(os.path.join(HERE, "files"), folder)
        os.makedirs(self.at("folder"), exist_ok=True)

    def at(self, name):
        return os.path.join(self.folder, name)

    def due(self, words, answer, changed=()):
        """Runs a command. It has to answer so, and to change no file but these."""
        before = looked_at(self.folder)
        try:
            told = run(self.zmeta, self.folder, *words)
        except subprocess.TimeoutExpired:
            told = "it has not ended"
        after = looked_at(self.folder)
        if told != answer:
            self.found.append(f"kept: {words}: {told}, and {answer} is due")
        other = {it for it in before.keys() | after.keys() if before.get(it) != after.get(it)} - set(changed)
        if other:
            self.found.append(f"kept: {words} changed {sorted(other)}")

    def holds(self, name, octets):
        if not os.path.exists(self.at(name)) or octets_at(self.at(name)) != octets:
            self.found.append(f"kept: {name} has other octets, or is lost")


def refused(told):
    return 3, b"", b"zmeta: " + told + b"\n"


def asked_host():
    """A port, and whom it was connected by."""
    door, came = socket.create_server(("127.0.0.1", 0)), []

    def take():
        while True:
            try:
                came.append(door.accept()[0])
            except OSError:
                return

    threading.Thread(target=take, daemon=True).start()
    return door, came


def links(room, merged):
    """A link is followed to the file that it names."""
    shutil.copy(room.at("count.saved"), room.at("one.saved"))
    os.symlink("one.saved", room.at("link"))
    os.symlink("none.saved", room.at("dangling"))
    words = ["join", "--quiet", "--save", "link"]
    room.due([*words, "one.saved", "cut.saved"], refused(b"knowledge refused: NotKnowledge at 1"))
    room.due([*words, "one.saved", "none"], refused(b"cannot read none"))
    room.due([*words, "one.saved", "record.saved"], (0, b"", b""), ["one.saved"])
    room.holds("one.saved", merged)
    room.due(["join", "--quiet", "--save", "dangling", "count.saved", "record.saved"], (0, b"", b""), ["none.saved"])
    room.holds("none.saved", merged)
    os.symlink("round", room.at("round"))
    room.due(["run", "three.world", "--save", "round"], refused(b"cannot write round"))


def neighbours(room, merged):
    """A file beside the one that is made is nobody's draft."""
    shutil.copy(room.at("count.saved"), room.at("x.part"))
    room.due(["join", "--quiet", "--save", "x", "x.part", "record.saved"], (0, b"", b""), ["x"])
    room.holds("x", merged)
    shutil.copy(room.at("three.world"), room.at("z.part"))
    listed = octets_at(room.at("three.list"))
    room.due(["run", "z.part", "--save", "z"], (0, listed, b""), ["z"])
    room.holds("z", octets_at(room.at("three.saved")))
    # the file is one of those that are joined
    shutil.copy(room.at("count.saved"), room.at("own.saved"))
    os.chmod(room.at("own.saved"), 0o640)
    room.due(["join", "--quiet", "--save", "./own.saved", "own.saved", "record.saved"], (0, b"", b""), ["own.saved"])
    room.holds("own.saved", merged)
    if stat.S_IMODE(os.stat(room.at("own.saved")).st_mode) != 0o640:
        room.found.append("kept: a file has another mode")
    # only its name is short enough
    long = "n" * 255
    room.due(["join", "--quiet", "--save", long, "count.saved", "record.saved"], (0, b"", b""), [long])


def one_file(room):
    """A file is not written over another of the command."""
    door, came = asked_host()
    port = door.getsockname()[1]
    make(room.at("w.world"), b"host one 127.0.0.1:%d\nask one d - 1 dune\n" % port)
    os.link(room.at("w.world"), room.at("hard.world"))
    os.symlink("w.world", room.at("soft.world"))
    os.symlink("new", room.at("soft-new"))
    over = lambda name: refused(b"would overwrite " + name.encode())
    for name in ("w.world", "./w.world", "hard.world", "soft.world", room.at("w.world")):
        room.due(["ask", "w.world", "--trace", name], over(name))
        room.due(["ask", "w.world", "--save", name], over(name))
        room.due(["loop", "w.world", "--save", name], over(name))
    for one, other in (("new", "new"), ("new", "./new"), ("./new", "../" + os.path.basename(room.folder) + "/new"),
                       ("new", "soft-new"), ("three.saved", "./three.saved")):
        room.due(["ask", "w.world", "--save", one, "--trace", other], over(other))
    room.due(["run", "three.world", "--save", "./three.world"], over("./three.world"))
    make(room.at("t.trace"), b"{}\n")
    room.due(["replay", "t.trace", "--save", "t.trace"], over("t.trace"))
    # what is no regular file is nobody's
    room.due(["run", "three.world", "--save", "/dev/null"], (0, octets_at(room.at("three.list")), b""))
    # what cannot be written is told before anybody is asked
    make(room.at("plain"), b"a file")
    os.mkfifo(room.at("pipe"))
    for name in ("none/x", "plain/x", "folder", "none/", "x" * 300):
        told = refused(b"cannot write " + name.encode())
        room.due(["ask", "w.world", "--save", name], told)
        room.due(["ask", "w.world", "--trace", name], told)
        room.due(["ask", "w.world", "--save", "good", "--trace", name], told)
        room.due(["run", "three.world", "--save", name], told)
        room.due(["join", "count.saved", "--save", name], told)
        room.due(["join", "--quiet", "count.saved", "--save", name], told)
    time.sleep(0.2)
    door.shutdown(socket.SHUT_RDWR)
    door.close()
    if came:
        room.found.append("kept: a host was asked by a command that is refused")
    # a trace does not wait for a reader
    answer = b"zmeta: target \"one\": Connect\n"
    words = ["ask", "w.world", "--connect", "1", "--trace", "pipe"]
    room.due(words, (3, b"", answer + b"zmeta: cannot write pipe\n"))


def refusals(room):
    """Each kind of refused command leaves all files as they were."""
    make(room.at("kept.out"), b"an older file")
    save = ["--save", "kept.out"]
    room.due(["run", "step.world", *save], refused(b"line 1 refused"))
    room.due(["run", "none", *save], refused(b"cannot read none"))
    room.due(["loop", "step.world", *save], refused(b"line 1 refused"))
    room.due(["ask", "step.world", *save, "--trace", "cut.saved"], refused(b"line 1 refused"))
    room.due(["ask", "none", *save, "--trace", "cut.saved"], refused(b"cannot read none"))
    room.due(["ask", "hosts.world", "--only", "nobody", *save, "--trace", "cut.saved"], refused(b"no question nobody"))
    room.due(["replay", "three.world", *save], refused(b"line 1 refused"))
    room.due(["join", "count.saved", "other.saved", *save], refused(b"names differ"))
    room.due(["join", "--quiet", "count.saved", "other.saved", *save], refused(b"names differ"))
    room.due(["join", "--quiet", "count.saved", "folder", *save], refused(b"cannot read folder"))
    room.due(["run", "three.world", "--save", "/dev/full"],
             (3, octets_at(room.at("three.list")), b"zmeta: cannot write /dev/full\n"))


def full_disk(room):
    """A disk that is full is told at the end: the answers are printed, and the older file stays."""
    small = 100

    def limit():
        signal.signal(signal.SIGXFSZ, signal.SIG_IGN)
        resource.setrlimit(resource.RLIMIT_FSIZE, (small, small))

    make(room.at("kept.out"), b"an older file")
    before = looked_at(room.folder)
    ran = subprocess.run([room.zmeta, "run", "three.world", "--save", "kept.out"], cwd=room.folder, timeout=SOON,
                         capture_output=True, preexec_fn=limit, check=False)
    told = ran.returncode, ran.stdout, ran.stderr
    due = 3, octets_at(room.at("three.list")), b"zmeta: cannot write kept.out\n"
    if told != due or looked_at(room.folder) != before:
        room.found.append(f"kept: a full disk: {told}, and {due} is due")


def races(room):
    """Of two merges to one file at the same time each leaves it whole, at each moment."""
    saved = [octets_at(room.at(it)) for it in ("count.saved", "record.saved")]
    seen, going = set(), True

    def watch():
        while going:
            if os.path.exists(room.at("raced")):
                seen.add(octets_at(room.at("raced")))

    watcher = threading.Thread(target=watch, daemon=True)
    watcher.start()
    for _ in range(RACES):
        words = lambda it: [room.zmeta, "join", "--quiet", "--save", "raced", it]
        both = [subprocess.Popen(words(it), cwd=room.folder) for it in ("count.saved", "record.saved")]
        if [it.wait(SOON) for it in both] != [0, 0]:
            room.found.append("kept: of two merges one failed")
    going = False
    watcher.join()
    if not seen <= set(saved):
        room.found.append("kept: a file was seen that no merge made")
    left = [it for it in os.listdir(room.folder) if it.startswith("zmeta-")]
    if left:
        room.found.append(f"kept: drafts were left: {left}")


def faults(zmeta):
    """What is not as it should be of the files of folders."""
    found = []
    with tempfile.TemporaryDirectory() as place:
        whole = Room(zmeta, os.path.join(place, "whole"))
        run(zmeta, whole.folder, "join", "--quiet", "--save", "whole", "count.saved", "record.saved")
        merged = octets_at(whole.at("whole"))
        trials = {"links": lambda it: links(it, merged), "neighbours": lambda it: neighbours(it, merged),
                  "one": one_file, "refusals": refusals, "full": full_disk, "races": races}
        for name, trial in trials.items():
            room = Room(zmeta, os.path.join(place, name))
            trial(room)
            found += room.found
    return found


def main():
    found = faults(os.path.abspath(os.environ["ZMETA"]))
    print("files of a folder", *found, sep="\n")
    return 1 if found else 0


if __name__ == "__main__":
    sys.exit(main())
