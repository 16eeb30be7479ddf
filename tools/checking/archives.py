"""Tries tools/archive around a stand-in for rt that compiles a line of C for a crate: what it makes, when it makes it anew, and what it leaves where
a crate is not proved."""
import os
import shutil

# writes down what it is asked for; changes a source while it runs where CHANGED is set; does not prove the crate REFUSED, which it tells late
STAND_IN = """#!/bin/sh
crate=${PWD##*/}
echo "$1 $crate" >>../../asked
[ -z "${CHANGED-}" ] || echo changed >../source
mkdir -p out
echo "int ${crate}_call(void) { return 0; }" | gcc -x c -c - -o "out/$crate.o"
rm -f "out/lib$crate.a"
ar rcs "out/lib$crate.a" "out/$crate.o"
[ "$crate" != "${REFUSED-}" ] || {
    echo "$crate NOT PROVED"
    exit 1
}
"""


class Root:
    """A repository with tools/archive, one source and the stand-in."""

    def __init__(self, folder, tools, run):
        self.path, self.run = os.path.join(folder, "archives"), run
        for name in "crates/exports", "crates/board_c", "tools", "bin":
            os.makedirs(os.path.join(self.path, name))
        shutil.copy(os.path.join(tools, "archive"), os.path.join(self.path, "tools"))
        for name, text in ("crates/source", ""), ("crates.txt", ""), ("bin/rt", STAND_IN):
            with open(os.path.join(self.path, name), "w") as file:
                file.write(text)
        os.chmod(os.path.join(self.path, "bin", "rt"), 0o755)

    def archive(self, *words, **settings):
        """What tools/archive does, and the crates that it had proved."""
        asked = os.path.join(self.path, "asked")
        open(asked, "w").close()
        environment = {**os.environ, "PATH": os.path.join(self.path, "bin") + ":" + os.environ["PATH"], **settings}
        ended = self.run(["tools/archive", *words], where=self.path, env=environment)
        with open(asked) as file:
            return ended, file.read().splitlines()

    def library(self, name):
        return os.path.join(self.path, "target", "staticlib", f"lib{name}.a")

    def contents(self, name):
        with open(self.library(name), "rb") as file:
            return file.read()

    def there(self):
        return [name for name in ("station", "board") if os.path.exists(self.library(name))]


def check_archives(expect, run, tools, folder):
    root, both, proving = Root(folder, tools, run), ["lib exports", "lib board_c"], b"archive: proving and compiling the libraries"

    def made(what, words, wanted, name):
        ended, asked = root.archive(*words)
        told = ended.stdout.decode().strip() == os.path.realpath(root.library(name)) and ended.stderr.startswith(proving) == bool(wanted)
        expect(f"tools/archive, {what}", ended.returncode == 0 and asked == wanted and told and root.there() == ["station", "board"], (ended, asked))

    made("the first time", [], both, "station")
    first = root.contents("station")
    members = run(["ar", "t", root.library("station")]).stdout.split()
    expect("both members in libstation.a", members == [b"exports.o", b"board.o"], members)
    members = [run(["ar", "p", root.library(name), "board.o"]).stdout for name in ("station", "board")]
    expect("one board.o in both", members[0] == members[1] != b"", members)
    made("again", [], [], "station")
    made("the board's", ["board"], [], "board")
    for name in "station", "board":
        os.remove(root.library(name))
        made(f"without lib{name}.a", ["board"], both, "board")
    expect("the same bytes from the same members", root.contents("station") == first)
    os.utime(os.path.join(root.path, "crates", "source"))
    made("after a change", [], both, "station")
    for name in "exports", "board_c":
        os.utime(os.path.join(root.path, "crates.txt"))
        ended, asked = root.archive(REFUSED=name)
        expect(f"{name} not proved", ended.returncode == 1 and f"{name} NOT PROVED".encode() in ended.stderr and not ended.stdout and not root.there(), ended)
    root.archive(CHANGED="yes")
    made("after a change during the proof", [], both, "station")
    for words in ["station"], ["board", "board"], ["--help"]:
        ended, asked = root.archive(*words)
        expect(f"tools/archive {words}", ended.returncode == 2 and ended.stderr == b"usage: tools/archive [board]\n" and not asked, ended)
