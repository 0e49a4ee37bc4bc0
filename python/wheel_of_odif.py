"""Builds the package with Python's own modules alone, as pip asks it (PEP 517). A wheel is a zip file: the modules, what pyproject.toml
says of them, and a list of both with their hashes."""
import base64
import hashlib
import pathlib
import re
import tarfile
import zipfile

HERE = pathlib.Path(__file__).parent
FACTS = dict(re.findall(r'^(name|version|description|requires-python) = "(.*)"$', (HERE / "pyproject.toml").read_text(), re.MULTILINE))
TITLE = f"{FACTS['name']}-{FACTS['version']}"
METADATA = f"""Metadata-Version: 2.1
Name: {FACTS['name']}
Version: {FACTS['version']}
Summary: {FACTS['description']}
Requires-Python: {FACTS['requires-python']}
"""
WHEEL = "Wheel-Version: 1.0\nGenerator: wheel_of_odif\nRoot-Is-Purelib: true\nTag: py3-none-any\n"
MOMENT = (1980, 1, 1, 0, 0, 0)  # so that one state of the sources gives one wheel


def modules():
    """The files of the package."""
    return sorted(file for file in (HERE / "odif").iterdir() if file.suffix == ".py" or file.name == "py.typed")


def build_wheel(wheel_directory, config_settings=None, metadata_directory=None):
    contents = {f"odif/{file.name}": file.read_bytes() for file in modules()}
    contents[f"{TITLE}.dist-info/METADATA"] = METADATA.encode()
    contents[f"{TITLE}.dist-info/WHEEL"] = WHEEL.encode()
    record = f"{TITLE}.dist-info/RECORD"
    lines = [f"{name},sha256={digest(octets)},{len(octets)}\n" for name, octets in contents.items()]
    contents[record] = "".join(lines + [f"{record},,\n"]).encode()
    name = f"{TITLE}-py3-none-any.whl"
    with zipfile.ZipFile(pathlib.Path(wheel_directory) / name, "w", zipfile.ZIP_DEFLATED) as wheel:
        for file, octets in contents.items():
            wheel.writestr(zipfile.ZipInfo(file, MOMENT), octets)
    return name


def digest(octets):
    return base64.urlsafe_b64encode(hashlib.sha256(octets).digest()).rstrip(b"=").decode()


def build_sdist(sdist_directory, config_settings=None):
    name = f"{TITLE}.tar.gz"
    with tarfile.open(pathlib.Path(sdist_directory) / name, "w:gz") as sdist:
        for file in [HERE / "pyproject.toml", HERE / "wheel_of_odif.py", *modules()]:
            sdist.add(file, f"{TITLE}/{file.relative_to(HERE)}")
    return name
