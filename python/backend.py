"""Builds the package's wheel (PEP 517) by the standard library alone, so that `pip install ./python` needs no network."""
import base64
import hashlib
import os
import re
import zipfile

HERE = os.path.dirname(os.path.abspath(__file__))


def project():
    """Name, version, summary, the least Python and what is required, as pyproject.toml has them."""
    with open(os.path.join(HERE, "pyproject.toml"), encoding="utf-8") as file:
        text = file.read()
    found = {key: re.search(rf'(?m)^{key} = "(.*)"$', text)[1] for key in ("name", "version", "description", "requires-python")}
    return {**found, "dependencies": re.findall(r'"([^"]+)"', re.search(r"(?m)^dependencies = \[(.*)\]$", text)[1])}


def metadata(it):
    lines = ["Metadata-Version: 2.1", f"Name: {it['name']}", f"Version: {it['version']}", f"Summary: {it['description']}"]
    lines += [f"Requires-Python: {it['requires-python']}", *(f"Requires-Dist: {name}" for name in it["dependencies"])]
    return "\n".join(lines) + "\n"


def build_wheel(wheel_directory, config_settings=None, metadata_directory=None):
    """Writes the wheel; answers the name of its file."""
    it = project()
    about, name = f"{it['name']}-{it['version']}.dist-info", f"{it['name']}-{it['version']}-py3-none-any.whl"
    files = {}
    for at, folders, names in os.walk(os.path.join(HERE, it["name"])):
        folders[:] = sorted(folder for folder in folders if folder != "__pycache__")
        for file in sorted(names):
            with open(os.path.join(at, file), "rb") as source:
                files[os.path.relpath(os.path.join(at, file), HERE)] = source.read()
    files[f"{about}/METADATA"] = metadata(it).encode()
    files[f"{about}/WHEEL"] = b"Wheel-Version: 1.0\nGenerator: dvbt\nRoot-Is-Purelib: true\nTag: py3-none-any\n"
    rows = [f"{path},sha256={digest(content)},{len(content)}" for path, content in files.items()]
    files[f"{about}/RECORD"] = "\n".join([*rows, f"{about}/RECORD,,", ""]).encode()
    with zipfile.ZipFile(os.path.join(wheel_directory, name), "w", zipfile.ZIP_DEFLATED) as wheel:
        for path, content in files.items():
            wheel.writestr(zipfile.ZipInfo(path, (2020, 1, 1, 0, 0, 0)), content)
    return name


def digest(content):
    return base64.urlsafe_b64encode(hashlib.sha256(content).digest()).rstrip(b"=").decode()
