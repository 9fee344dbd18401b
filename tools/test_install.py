"""Tests of tools/install: what it puts below a prefix, and a C program that is built and run against that alone, with the archive and with the shared object. They need the archive, and
call no `rt`."""

import os
import pathlib
import re
import shutil
import subprocess
import tempfile
import unittest

ROOT = pathlib.Path(__file__).resolve().parent.parent
CC = os.environ.get("CC", "cc")
ARCHIVES = os.environ.get("VANECITRON_LIB_DIR") or str(ROOT / "crates/vanecitron/out")
VERSION = re.search(r'^version = "(.*)"$', (ROOT / "host/Cargo.toml").read_text(), re.M)[1]
SHARED = f"lib/libvanecitron.so.{VERSION}"
FILES = ["bin/vanecitron", "include/vanecitron.h", "include/vanecitron_book.h", "lib/libvanecitron.a", "lib/pkgconfig/vanecitron.pc"]
LINKS = ["lib/libvanecitron.so", f"lib/libvanecitron.so.{VERSION.rpartition('.')[0]}"]

# the version of the archive beside that of the header, and a comparison
PROGRAM = r"""
#include <stdio.h>
#include "vanecitron_book.h"

int main(void)
{
    static const uint8_t u[] = {0, 1, 3, 2}, v[] = {2, 0, 3, 1};
    uint8_t bytes[VANECITRON_BOOK_MOST];
    vanecitron_book book = vanecitron_book_begin(bytes, sizeof bytes, 4);
    vanecitron_book_rule(&book, u, sizeof u, v, sizeof v);
    vanecitron_compare_result r = vanecitron_compare(book.bytes, book.length, u, sizeof u, v, sizeof v, 262144);
    puts(vanecitron_version() == VANECITRON_VERSION && r.outcome == VANECITRON_SAME ? "same" : "wrong");
    return 0;
}
"""


def run(*words, **variables):
    return subprocess.run(words, env={**os.environ, **variables}, stdin=subprocess.DEVNULL, capture_output=True, text=True, check=False)


class Install(unittest.TestCase):
    def setUp(self):
        folder = tempfile.TemporaryDirectory()
        self.addCleanup(folder.cleanup)
        self.folder = pathlib.Path(folder.name)
        self.prefix = self.folder / "prefix"

    def install(self, status=0, **variables):
        done = run(str(ROOT / "tools/install"), **{"PREFIX": str(self.prefix), "DESTDIR": "", "VANECITRON_LIB_DIR": ARCHIVES, **variables})
        self.assertEqual(done.returncode, status, done)
        return done

    def installed(self, below):
        return sorted(str(path.relative_to(below)) for path in below.rglob("*") if path.is_symlink() or path.is_file())

    def program(self, *words):
        """Builds the program with the flags of the pkg-config file and these words."""
        (self.folder / "program.c").write_text(PROGRAM)
        flags = self.flags()
        built = run(CC, "-std=c99", "-Wall", "-Werror", "-o", str(self.folder / "program"), str(self.folder / "program.c"), *words, *flags)
        self.assertEqual(built.returncode, 0, built)
        return str(self.folder / "program")

    def flags(self):
        """As pkg-config tells them, or, where there is none, as the file says."""
        folder = self.prefix / "lib/pkgconfig"
        if shutil.which("pkg-config"):
            told = run("pkg-config", "--cflags", "--libs", "vanecitron", PKG_CONFIG_PATH=str(folder))
            self.assertEqual(told.returncode, 0, told)
            return told.stdout.split()
        text = (folder / "vanecitron.pc").read_text()
        return f"-I{self.prefix}/include -L{self.prefix}/lib -lvanecitron".split() if "-lvanecitron" in text else []

    def test_a_program_against_what_is_installed(self):
        self.install()
        self.assertEqual(self.installed(self.prefix), sorted([*FILES, SHARED, *LINKS]))
        shared = run(self.program(), LD_LIBRARY_PATH=str(self.prefix / "lib"))
        self.assertEqual((shared.stdout, shared.returncode), ("same\n", 0), shared)
        needed = run("readelf", "-d", str(self.folder / "program")).stdout
        self.assertIn(pathlib.Path(LINKS[1]).name, needed)
        archive = run(self.program(str(self.prefix / "lib/libvanecitron.a")))
        self.assertEqual((archive.stdout, archive.returncode), ("same\n", 0), archive)

    def test_the_command_stands_by_itself(self):
        self.install()
        said = run(str(self.prefix / "bin/vanecitron"), "compare", str(ROOT / "examples/q.txt"), "abdc", "cadb")
        self.assertEqual((said.stdout[:5], said.returncode), ("same:", 0), said)

    def test_a_place_to_pack_from(self):
        self.install(PREFIX="/usr", DESTDIR=str(self.folder / "packed"))
        self.assertEqual(self.installed(self.folder / "packed"), sorted(f"usr/{name}" for name in [*FILES, SHARED, *LINKS]))
        self.assertTrue((self.folder / "packed/usr/lib/pkgconfig/vanecitron.pc").read_text().startswith("prefix=/usr\n"))

    def test_a_compiler_that_links_no_shared_object(self):
        compiler = self.folder / "cc"
        compiler.write_text("#!/bin/sh\nexit 1\n")
        compiler.chmod(0o755)
        self.assertIn("no shared object", self.install(CC=str(compiler)).stderr)
        self.assertEqual(self.installed(self.prefix), sorted(FILES))
        archive = run(self.program())
        self.assertEqual((archive.stdout, archive.returncode), ("same\n", 0), archive)

    def test_no_archive(self):
        said = self.install(status=1, VANECITRON_LIB_DIR=str(self.folder)).stderr
        self.assertEqual((said, self.installed(self.folder)), (f"install: {self.folder}/libvanecitron.a is not there\n", []))

    def test_the_archive_is_the_one_that_is_made(self):
        tree = self.folder / "tree"
        (tree / "tools").mkdir(parents=True)
        shutil.copy(ROOT / "tools/install", tree / "tools")
        shutil.copytree(ROOT / "host/include", tree / "host/include")
        scripts = {
            "host/archive": "mkdir -p crates/vanecitron/out && echo made > crates/vanecitron/out/libvanecitron.a && echo proved",
            "bin/cargo": "mkdir -p target/install/release && echo built > target/install/release/vanecitron",
        }
        for name, text in scripts.items():
            (tree / name).parent.mkdir(exist_ok=True)
            (tree / name).write_text(f"#!/bin/sh\n{text}\n")
            (tree / name).chmod(0o755)
        variables = {"PREFIX": str(self.prefix), "DESTDIR": "", "VANECITRON_LIB_DIR": "", "CC": "false", "PATH": f"{tree}/bin:{os.environ['PATH']}"}
        done = run(str(tree / "tools/install"), **variables)
        self.assertEqual((done.stdout, done.returncode), (f"install: version {VERSION} is in {self.prefix}\n", 0), done)
        self.assertEqual([(self.prefix / name).read_text() for name in ("lib/libvanecitron.a", "bin/vanecitron")], ["made\n", "built\n"])

    def test_wrong_calls(self):
        for prefix in ("", "here"):
            self.assertIn("PREFIX is a path from the root", self.install(status=2, PREFIX=prefix).stderr)
        done = run(str(ROOT / "tools/install"), "/usr")
        self.assertEqual((done.returncode, done.stderr[:6]), (2, "usage:"))


if __name__ == "__main__":
    unittest.main()
