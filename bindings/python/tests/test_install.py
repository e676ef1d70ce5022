"""The wheel: installed by pip into a clean virtual environment with no network, and used from there alone."""

import base64
import csv
import hashlib
import importlib.util
import os
import subprocess
import sys
import tempfile
import unittest
import zipfile
from pathlib import Path

import make_wheel
import street_drill

from .common import PACKAGE
from .test_command import EXAMPLE, run

# What stands for the package or the library here must not reach the installed one.
_CLEAN = {name: value for name, value in os.environ.items() if name not in ("PYTHONPATH", "STREET_DRILL_LIBRARY")}


@unittest.skipUnless(importlib.util.find_spec("ensurepip"), "there is no ensurepip (Debian's python3-venv)")
class Installed(unittest.TestCase):
    @classmethod
    def setUpClass(cls) -> None:
        folder = tempfile.TemporaryDirectory()
        cls.addClassCleanup(folder.cleanup)
        cls.programs = Path(folder.name, "bin")
        subprocess.run([sys.executable, "-m", "venv", folder.name], check=True)
        cls.called(cls.programs / "pip", "install", "--no-index", "--quiet", PACKAGE)

    @classmethod
    def called(cls, *command: object) -> str:
        """What a program of the environment prints, from a folder that has no package."""
        ended = subprocess.run(list(map(str, command)), env=_CLEAN, cwd=cls.programs, capture_output=True, text=True)
        assert ended.returncode == 0, ended.stderr
        return ended.stdout

    def test_command(self) -> None:
        for command in [[self.programs / "street-drill"], [self.programs / "python", "-m", "street_drill"]]:
            self.assertEqual(self.called(*command, "forecast", EXAMPLE), run("forecast", EXAMPLE)[1])

    def test_package(self) -> None:
        """The wheel's version is the package's; it has all that the page needs, and the mark of typed packages."""
        told = ("import importlib.metadata, pathlib, street_drill; "
                "files = pathlib.Path(street_drill.__file__).parent.iterdir(); "
                "print(street_drill.__version__, importlib.metadata.version('street_drill'), "
                "*(path.name for path in files if path.is_file()))")
        first, second, *files = self.called(self.programs / "python", "-c", told).split()
        self.assertEqual((first, second), (street_drill.__version__, street_drill.__version__))
        own = {path.name for path in (PACKAGE / "street_drill").iterdir() if path.is_file()}
        self.assertEqual(set(files), own | {"libstreet_drill.so"})


class Wheel(unittest.TestCase):
    def test_record(self) -> None:
        """It lists every file with its sum, and is the same each time."""
        with tempfile.TemporaryDirectory() as first, tempfile.TemporaryDirectory() as second:
            wheels = [Path(folder, make_wheel.build_wheel(folder)) for folder in (first, second)]
            self.assertEqual(wheels[0].read_bytes(), wheels[1].read_bytes())
            with zipfile.ZipFile(wheels[0]) as wheel:
                record = next(name for name in wheel.namelist() if name.endswith("RECORD"))
                rows = list(csv.reader(wheel.read(record).decode().splitlines()))
                self.assertEqual([name for name, _, _ in rows], wheel.namelist())
                for name, told, size in rows[:-1]:
                    data = wheel.read(name)
                    digest = base64.urlsafe_b64encode(hashlib.sha256(data).digest()).decode().rstrip("=")
                    self.assertEqual((told, int(size)), (f"sha256={digest}", len(data)), name)
