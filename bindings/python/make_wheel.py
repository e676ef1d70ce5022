"""Makes the wheel, as pip asks (PEP 517): the package's files and the shared library, linked anew by `build`.

STREET_DRILL_ARCHIVE names the folder of another libcapi.a than the one that `tools/build capi` writes.
"""

import base64
import hashlib
import os
import subprocess
import tempfile
import tomllib
import zipfile
from pathlib import Path

from street_drill import __version__

_HERE = Path(__file__).resolve().parent
_PACKAGE = _HERE / "street_drill"
_LIBRARY = "libstreet_drill.so"
_PROJECT = tomllib.loads((_HERE / "pyproject.toml").read_text())["project"]
_STEM = f"{_PROJECT['name']}-{__version__}"
# Any Python may load the library, but only such machines.
_TAG = "py3-none-linux_x86_64"
# The least that a zip's date can say: the same files make the same wheel.
_DATE = (1980, 1, 1, 0, 0, 0)


class UnsupportedOperation(Exception):
    """What pip expects where there is no such thing."""


def _library() -> bytes:
    folder = os.environ.get("STREET_DRILL_ARCHIVE", str(_HERE / "../../target/staticlib"))
    with tempfile.TemporaryDirectory() as made:
        library = Path(made, _LIBRARY)
        subprocess.run([_HERE / "build", Path(folder, "libcapi.a"), library], check=True)
        return library.read_bytes()


def _metadata() -> str:
    head = [f"Name: {_PROJECT['name']}", f"Version: {__version__}", f"Summary: {_PROJECT['description']}",
            f"Requires-Python: {_PROJECT['requires-python']}", "Description-Content-Type: text/markdown"]
    return "\n".join(["Metadata-Version: 2.1", *head, "", (_HERE / _PROJECT["readme"]).read_text()])


def _about() -> dict[str, bytes]:
    scripts = "".join(f"{name} = {function}\n" for name, function in _PROJECT["scripts"].items())
    texts = {
        "METADATA": _metadata(),
        "WHEEL": f"Wheel-Version: 1.0\nGenerator: make_wheel\nRoot-Is-Purelib: false\nTag: {_TAG}\n",
        "entry_points.txt": f"[console_scripts]\n{scripts}",
    }
    return {f"{_STEM}.dist-info/{name}": text.encode() for name, text in texts.items()}


def _files() -> dict[str, bytes]:
    own = [path for path in sorted(_PACKAGE.iterdir()) if path.suffix in (".py", ".css", ".js", ".typed")]
    return {f"street_drill/{path.name}": path.read_bytes() for path in own} | {f"street_drill/{_LIBRARY}": _library()}


def _line(name: str, data: bytes) -> str:
    """A file's line of RECORD."""
    digest = base64.urlsafe_b64encode(hashlib.sha256(data).digest()).rstrip(b"=").decode()
    return f"{name},sha256={digest},{len(data)}\n"


def build_wheel(wheel_directory: str, config_settings: object = None, metadata_directory: object = None) -> str:
    """Writes the wheel to the folder, and gives its name."""
    files = _files() | _about()
    record = f"{_STEM}.dist-info/RECORD"
    files[record] = ("".join(_line(name, data) for name, data in files.items()) + f"{record},,\n").encode()
    wheel = f"{_STEM}-{_TAG}.whl"
    with zipfile.ZipFile(Path(wheel_directory, wheel), "w") as file:
        for name, data in files.items():
            file.writestr(zipfile.ZipInfo(name, _DATE), data, zipfile.ZIP_DEFLATED)
    return wheel


def build_sdist(sdist_directory: str, config_settings: object = None) -> str:
    """The library is linked from the repository's archive, which no sdist has."""
    raise UnsupportedOperation("the wheel is made from the repository")
