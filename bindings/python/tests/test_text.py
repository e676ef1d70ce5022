"""A text through the program, with a status for scripts."""

import os
import shutil
import stat
import subprocess
import sys
import tempfile
import unittest
from pathlib import Path

from .common import LISTING, PACKAGE, REPOSITORY, printed

CHEAPEST = REPOSITORY / "target" / "bin" / "cheapest"


def text(given: str, *options: object) -> tuple[int, str, str]:
    command = [sys.executable, "-m", "street_drill", "text", *map(str, options)]
    ended = subprocess.run(command, cwd=PACKAGE, input=given, capture_output=True, text=True)
    return ended.returncode, ended.stdout, ended.stderr


class Text(unittest.TestCase):
    def test_forecast(self) -> None:
        self.assertEqual(text(LISTING), (0, printed("forecast", LISTING), ""))

    def test_refused(self) -> None:
        """The program's own line, and what it says."""
        for given, line, told in [
            ("", "(refused 1 34)", "refused 1 34: there are fewer than 34 parameters"),
            (LISTING + "(deck 5)\n", "(refused 11 ", "refused 11 "),
            (LISTING.replace("(deck 120)", "(deck 513)"), "(refused 2 0)", "refused 2 0: the deck is 0 or above 512"),
            (LISTING.replace("(span 30)", "(span 0)"), "(refused 3 0)", "refused 3 0: the span is not 1 to 730"),
        ]:
            status, said, errors = text(given)
            self.assertEqual((status, said[: len(line)]), (2, line))
            self.assertIn(f"street_drill: standard input: {told}", errors)

    def test_cheapest(self) -> None:
        self.assertEqual(text(LISTING, "--program", CHEAPEST), (0, printed("cheapest", LISTING), ""))
        none = LISTING.replace("(learn 8)", "(learn 0)")
        status, said, errors = text(none, "--program", CHEAPEST)
        self.assertEqual((status, said), (2, printed("cheapest", none)))
        self.assertIn("no retention is the cheapest", errors)

    def test_by_name(self) -> None:
        self.assertEqual(text(LISTING, "--program", "cheapest"), (0, printed("cheapest", LISTING), ""))
        self.assertEqual(text(LISTING, "--program", "forecast"), (0, printed("forecast", LISTING), ""))

    def test_where_it_is(self) -> None:
        """In any folder of the repository, for a package that lies elsewhere; else the right build is told."""
        with tempfile.TemporaryDirectory() as folder:
            below = Path(folder, "docs", "deep")
            below.mkdir(parents=True)
            shutil.copytree(PACKAGE / "street_drill", Path(folder, "site", "a", "b", "street_drill"))
            command = [sys.executable, "-m", "street_drill", "text", "--program", "cheapest"]
            where = {"cwd": below, "env": {**os.environ, "PYTHONPATH": str(Path(folder, "site", "a", "b"))}}
            ended = subprocess.run(command, **where, input=LISTING, capture_output=True, text=True)
            told = "is not built: tools/build cheapest makes it; --program names another"
            self.assertEqual((ended.returncode, ended.stderr), (2, f"street_drill: target/bin/cheapest: {told}\n"))
            Path(folder, "target", "bin").mkdir(parents=True)
            shutil.copy(CHEAPEST, Path(folder, "target", "bin"))
            ended = subprocess.run(command, **where, input=LISTING, capture_output=True, text=True)
            self.assertEqual((ended.returncode, ended.stdout), (0, printed("cheapest", LISTING)))

    def test_other_programs(self) -> None:
        """One that is not there, one that fails, one that prints something else."""
        with tempfile.TemporaryDirectory() as folder:
            for name, script, told in [("none", "", "No such file or directory; --program is"),
                                       ("fails", "#!/bin/sh\nexit 1\n", "did not end as it should"),
                                       ("half", "#!/bin/sh\necho '(forecast 2 (turns 4) (cards 2))'\n", "2 days were")]:
                path = Path(folder, name)
                if script:
                    path.write_text(script)
                    os.chmod(path, stat.S_IRWXU)
                status, _, errors = text("", "--program", path)
                self.assertEqual((status, errors.count("\n")), (2, 1))
                self.assertIn(told, errors)


if __name__ == "__main__":
    unittest.main()
