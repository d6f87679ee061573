"""`make install`: everything in its place, and the examples built and run from there.

From the repository's root, with the static library built: make check-install
"""

import importlib.util
import os
import re
import shutil
import subprocess
import sys
import tempfile
import unittest
from importlib.machinery import SourceFileLoader
from pathlib import Path

ROOT = Path(__file__).resolve().parent.parent.parent
WORKED = (ROOT / "stored" / "level00" / "worked.out").read_text()
STRICT = ["-Wall", "-Wextra", "-Werror", "-pedantic"]


def load(name):
    """A script of tools/ as a module."""
    loader = SourceFileLoader(name.replace("-", "_"), str(ROOT / "tools" / name))
    module = importlib.util.module_from_spec(importlib.util.spec_from_loader(loader.name, loader))
    loader.exec_module(module)
    return module


class Installed(unittest.TestCase):
    """One installation for all tests."""

    @classmethod
    def setUpClass(cls):
        folder = tempfile.TemporaryDirectory()
        cls.addClassCleanup(folder.cleanup)
        cls.folder = Path(folder.name)
        cls.prefix = cls.folder / "prefix with space"
        cls.run_words("make", "install", f"PREFIX={cls.prefix}", f"PYTHON={sys.executable}", cwd=ROOT)
        cls.lib = cls.prefix / "lib"
        cls.python = next(cls.lib.glob("python3*/site-packages"))

    @classmethod
    def run_words(cls, *words, cwd=None, env=None):
        """What a program prints; it must end well."""
        done = subprocess.run(
            list(map(str, words)),
            cwd=cwd or cls.folder,
            env=env and dict(os.environ, **env),
            text=True,
            check=False,
            capture_output=True,
        )
        if done.returncode:
            raise AssertionError(f"{words}: status {done.returncode}\n{done.stdout}{done.stderr}")
        return done.stdout

    def run_linked(self, program):
        """A program that is linked with the shared library."""
        return self.run_words(program, env={"LD_LIBRARY_PATH": str(self.lib)})


class Files(Installed):
    def test_places(self):
        found = {str(path.relative_to(self.prefix)) for path in self.prefix.rglob("*") if not path.is_dir()}
        version = load("check-interface").VERSION
        for name in [
            "lib/libwisavulome.a",
            "lib/libwisavulome.so",
            "lib/libwisavulome.so.1",
            f"lib/libwisavulome.so.{version}",
            "include/wisavulome.h",
            "include/wisavulome.cdef",
            "lib/pkgconfig/wisavulome.pc",
            "share/wisavulome/wisavulome.rs",
            "bin/wisavulome",
        ]:
            self.assertIn(name, found)
        module = {path.name for path in (ROOT / "python" / "wisavulome").glob("*.py")}
        self.assertEqual({path.name for path in (self.python / "wisavulome").glob("*.py")}, module)

    def test_soname(self):
        head = self.run_words("readelf", "-d", self.lib / "libwisavulome.so")
        self.assertRegex(head, r"SONAME.*\[libwisavulome\.so\.1\]")
        self.assertEqual(os.readlink(self.lib / "libwisavulome.so"), "libwisavulome.so.1")

    def test_symbols(self):
        """Header, Rust file, Python table and the symbols of both installed libraries say the same."""
        out = self.run_words(
            ROOT / "tools" / "check-interface", self.lib / "libwisavulome.a", self.lib / "libwisavulome.so.1"
        )
        self.assertIn("agree", out)

    def test_staged(self):
        """DESTDIR comes before the prefix, and is not in the files."""
        self.run_words(
            "make", "install", "PREFIX=/opt/w", f"DESTDIR={self.folder}/stage", f"PYTHON={sys.executable}", cwd=ROOT
        )
        pc = (self.folder / "stage" / "opt" / "w" / "lib" / "pkgconfig" / "wisavulome.pc").read_text()
        self.assertTrue(pc.startswith("prefix=/opt/w\n"))

    def test_uninstall(self):
        words = ["PREFIX=/opt/gone", f"DESTDIR={self.folder}/other", f"PYTHON={sys.executable}"]
        self.run_words("make", "install", *words, cwd=ROOT)
        self.run_words("make", "uninstall", *words, cwd=ROOT)
        self.assertEqual([path for path in (self.folder / "other").rglob("*") if not path.is_dir()], [])


class Uses(Installed):
    def test_command(self):
        """The installed command, from another folder, finds the installed module and library."""
        env = {"WISAVULOME_LIBRARY": "", "PYTHONPATH": ""}
        out = self.run_words(
            sys.executable, self.prefix / "bin" / "wisavulome", "run", ROOT / "docs" / "worked.txt", cwd="/", env=env
        )
        self.assertEqual(out, WORKED)

    def test_python(self):
        env = {"PYTHONPATH": str(self.python)}
        out = self.run_words(sys.executable, self.prefix / "share" / "wisavulome" / "examples" / "worked.py", env=env)
        self.assertEqual(out, WORKED)

    def test_c89_shared(self):
        source = self.prefix / "share" / "wisavulome" / "examples" / "worked.c"
        self.run_words(
            "gcc",
            "-std=c89",
            *STRICT,
            source,
            "-I",
            self.prefix / "include",
            "-L",
            self.lib,
            "-lwisavulome",
            "-o",
            "c89",
        )
        self.assertEqual(self.run_linked(self.folder / "c89"), WORKED)

    def test_c_static(self):
        source = self.prefix / "share" / "wisavulome" / "examples" / "worked.c"
        self.run_words(
            "gcc", "-std=c11", *STRICT, source, "-I", self.prefix / "include", self.lib / "libwisavulome.a", "-o", "c11"
        )
        self.assertEqual(self.run_words(self.folder / "c11"), WORKED)

    def test_cpp17(self):
        source = self.prefix / "share" / "wisavulome" / "examples" / "worked.c"
        self.run_words(
            "g++",
            "-x",
            "c++",
            "-std=c++17",
            *STRICT,
            source,
            "-I",
            self.prefix / "include",
            "-L",
            self.lib,
            "-lwisavulome",
            "-o",
            "cpp",
        )
        self.assertEqual(self.run_linked(self.folder / "cpp"), WORKED)

    def test_rust(self):
        """The Rust file in both editions, with no warning."""
        source = self.prefix / "share" / "wisavulome" / "examples" / "worked.rs"
        for edition in ("2021", "2024"):
            program = self.folder / f"rust{edition}"
            self.run_words(
                "rustc",
                "--edition",
                edition,
                "-D",
                "warnings",
                source,
                "-L",
                f"native={self.lib}",
                "-l",
                "dylib=wisavulome",
                "-o",
                program,
            )
            self.assertEqual(self.run_linked(program), WORKED)

    def test_pkg_config(self):
        """The pkg-config file; by the real program where it is installed."""
        pc = (self.lib / "pkgconfig" / "wisavulome.pc").read_text()
        for line in ["Name: wisavulome", "Libs: -L${libdir} -lwisavulome", "Cflags: -I${includedir}", "Version: 0.1.0"]:
            self.assertIn(line + "\n", pc)
        if not shutil.which("pkg-config"):
            self.skipTest("pkg-config is not installed")
        env = {"PKG_CONFIG_PATH": str(self.lib / "pkgconfig")}
        self.assertEqual(self.run_words("pkg-config", "--modversion", "wisavulome", env=env), "0.1.0\n")
        self.assertIn("-lwisavulome", self.run_words("pkg-config", "--libs", "wisavulome", env=env))

    def test_cffi(self):
        """The declarations alone are what cffi's parser takes; by the real parser where it is installed."""
        declarations = (self.prefix / "include" / "wisavulome.cdef").read_text()
        for line in re.sub(r"/\*.*?\*/", "", declarations, flags=re.S).splitlines():
            self.assertTrue(not line.startswith("#") or re.fullmatch(r"#define \w+ (0x)?[0-9a-fA-F]+u?", line), line)
        for python in (sys.executable, "/usr/bin/python3"):
            script = "import cffi, sys; f = cffi.FFI(); f.cdef(open(sys.argv[1]).read()); l = f.dlopen(sys.argv[2]); "
            script += "print(hex(l.wisavulome_crc32(b'123456789', 9)), l.WISAVULOME_AREA)"
            words = [
                python,
                "-c",
                script,
                str(self.prefix / "include" / "wisavulome.cdef"),
                str(self.lib / "libwisavulome.so.1"),
            ]
            if (
                shutil.which(python)
                and not subprocess.run([python, "-c", "import cffi"], check=False, capture_output=True).returncode
            ):
                self.assertEqual(self.run_words(*words), "0xcbf43926 57344\n")
                return
        self.skipTest("cffi is not installed")


class Compared(unittest.TestCase):
    """The script that compares header, Rust file, Python table and symbols finds what differs."""

    def setUp(self):
        self.script = load("check-interface")
        self.header = self.script.HEADER.read_text()
        self.rust = self.script.RUST.read_text()

    def test_agree(self):
        self.assertEqual(self.script.compare(self.header, self.rust, []), [])
        self.assertEqual(len(self.script.c_functions(self.header)), 27)

    def test_differences(self):
        for change, words in [
            (lambda h, r: (h.replace("wisavulome_fits(", "wisavulome_fit("), r), "wisavulome_fit"),
            (
                lambda h, r: (h.replace("uint16_t value", "uint32_t value", 1), r),
                "wisavulome_build: the arguments differ",
            ),
            (lambda h, r: (h.replace("AREA 57344", "AREA 57345"), r), "the constant AREA"),
            (lambda h, r: (h, r.replace("pub const SENT: u32 = 3", "pub const SENT: u32 = 4")), "the constant SENT"),
            (lambda h, r: (h, r.replace("pub fn crc32(", "fn crc32(")), "no safe function in Rust"),
            (
                lambda h, r: (h, r.replace("excess: u32, spoiled", "excess: u64, spoiled", 1)),
                "wisavulome_reception_status: the arguments differ",
            ),
            (
                lambda h, r: (
                    h.replace("VERSION_MINOR 1", "VERSION_MINOR 2"),
                    r.replace("VERSION_MINOR: u32 = 1", "VERSION_MINOR: u32 = 2"),
                ),
                "VERSION_MINOR",
            ),
        ]:
            with self.subTest(words):
                lines = self.script.compare(*change(self.header, self.rust), [])
                self.assertTrue(any(words in line for line in lines), lines)

    def test_no_library(self):
        self.assertEqual(
            self.script.compare(self.header, self.rust, ["/nonexistent.so"]), ["/nonexistent.so cannot be read by nm"]
        )


if __name__ == "__main__":
    unittest.main()
