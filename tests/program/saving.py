"""Saves where it may fail, and looks at the file: an older one is whole or replaced, a link is followed to the file that
it names, and what is no regular file is written as it is.

    ZMETA=PROGRAM python3 tests/program/saving.py"""

import os
import resource
import shutil
import signal
import stat
import subprocess
import sys
import tempfile
import threading

HERE = os.path.dirname(os.path.abspath(__file__))
# no file may be larger than so many octets: the saved file is
SMALL = 100
OLDER = b"an older file"
SAVED = ["run", "three.world", "--save"]


def limited():
    """The disk is full for a program: it may write no more than `SMALL` octets into a file."""
    signal.signal(signal.SIGXFSZ, signal.SIG_IGN)
    resource.setrlimit(resource.RLIMIT_FSIZE, (SMALL, SMALL))


def saved(zmeta, room, path, full=False, output=subprocess.PIPE):
    """The status of a command that saves at a path, and what it tells."""
    ran = subprocess.run(
        [zmeta, *SAVED, path], stdin=subprocess.DEVNULL, stdout=output, stderr=subprocess.PIPE, cwd=room, timeout=60,
        preexec_fn=limited if full else None, check=False)
    return ran.returncode, ran.stderr


def octets_at(path):
    with open(path, "rb") as file:
        return file.read()


def make(path, octets):
    with open(path, "wb") as file:
        file.write(octets)


def into_pipe(zmeta, room):
    """What a named pipe brings of a saved file."""
    path, found = os.path.join(room, "saves", "pipe"), []
    os.mkfifo(path)
    reader = threading.Thread(target=lambda: found.append(octets_at(path)), daemon=True)
    reader.start()
    end = saved(zmeta, room, "saves/pipe")
    reader.join(60)
    return end, found, stat.S_ISFIFO(os.stat(path).st_mode)


def faults(zmeta, room):
    """What is not as it should be of saved files."""
    due = octets_at(os.path.join(room, "three.saved"))
    folder = os.path.join(room, "saves")
    os.mkdir(folder)
    at = lambda name: os.path.join(folder, name)
    done, refused = (0, b""), lambda name: (3, b"zmeta: cannot write saves/%s\n" % name.encode())

    def unlike(label, found, meant):
        if found != meant:
            yield f"saving, {label}: {found}, and {meant} is due"

    yield from unlike("new", (saved(zmeta, room, "saves/new"), octets_at(at("new"))), (done, due))
    make(at("older"), OLDER)
    os.chmod(at("older"), 0o640)
    yield from unlike("full disk", (saved(zmeta, room, "saves/older", full=True), octets_at(at("older"))),
                      (refused("older"), OLDER))
    yield from unlike("older", (saved(zmeta, room, "saves/older"), octets_at(at("older"))), (done, due))
    yield from unlike("permissions", stat.S_IMODE(os.stat(at("older")).st_mode), 0o640)
    found = saved(zmeta, room, "saves/none", full=True), os.path.exists(at("none"))
    yield from unlike("full disk, no older file", found, (refused("none"), False))
    # a file beside the one that is made is no draft of it
    make(at("again.part"), OLDER)
    found = saved(zmeta, room, "saves/again"), octets_at(at("again")), octets_at(at("again.part"))
    yield from unlike("again", found, (done, due, OLDER))
    make(at("file"), OLDER)
    os.symlink("file", at("link"))
    found = saved(zmeta, room, "saves/link"), octets_at(at("file")), os.path.islink(at("link"))
    yield from unlike("link", found, (done, due, True))
    yield from unlike("pipe", into_pipe(zmeta, room), (done, [due], True))
    yield from unlike("device", saved(zmeta, room, "/dev/null"), done)
    yield from unlike("full device", saved(zmeta, room, "/dev/full"), (3, b"zmeta: cannot write /dev/full\n"))
    # nobody reads the list
    here, there = os.pipe()
    os.close(here)
    found = saved(zmeta, room, "saves/unread", output=there), octets_at(at("unread"))
    os.close(there)
    yield from unlike("a list that nobody reads", found, ((3, b"zmeta: cannot write -\n"), due))
    yield from unlike("left", [it for it in sorted(os.listdir(folder)) if it.startswith("zmeta-")], [])


def main():
    with tempfile.TemporaryDirectory() as room:
        shutil.copytree(os.path.join(HERE, "files"), room, dirs_exist_ok=True)
        found = [*faults(os.path.abspath(os.environ["ZMETA"]), room)]
    print("saved files", *found, sep="\n")
    return 1 if found else 0


if __name__ == "__main__":
    sys.exit(main())
