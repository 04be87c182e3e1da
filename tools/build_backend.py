"""Builds the package for pip (PEP 517 and 660), by Python's standard library alone, so that no other package has to be
there: `pip install --no-index --no-build-isolation .`. What it is called and has stands in pyproject.toml.

A wheel is a ZIP file of the modules and of what is said of them; the same modules make the same octets."""
import base64
import hashlib
import io
import os
import pathlib
import re
import tarfile
import zipfile

TOP = pathlib.Path(__file__).resolve().parent.parent
PACKAGE = TOP / "tools/bgpnet"
WHEEL = "Wheel-Version: 1.0\nGenerator: bgpnet\nRoot-Is-Purelib: true\nTag: py3-none-any\n"
TIME = (1980, 1, 1, 0, 0, 0)


def project():
    """What pyproject.toml says of the project, with its version."""
    try:
        import tomllib
    except ImportError:  # before Python 3.11
        from pip._vendor import tomli as tomllib
    said = tomllib.loads((TOP / "pyproject.toml").read_text())["project"]
    return {**said, "version": re.search('^__version__ = "(.*)"$', (PACKAGE / "__init__.py").read_text(), re.M)[1]}


def files_of(folder):
    """The files below a folder, without what Python compiled."""
    return [path for path in sorted(folder.rglob("*")) if path.is_file() and "__pycache__" not in path.parts]


def examples():
    """The examples and sheets, without what is of the repository alone."""
    return [path for path in files_of(TOP / "examples") if path.suffix not in (".md", ".pyc") and path.name != "try"]


def name_of(said):
    return f"{said['name']}-{said['version']}"


def metadata_of(said):
    """The files that describe the package, by name."""
    head = [("Metadata-Version", "2.1"), ("Name", said["name"]), ("Version", said["version"]),
            ("Summary", said["description"]), *(("Author", author["name"]) for author in said["authors"]),
            ("License", said["license"]["text"]), ("Requires-Python", said["requires-python"]),
            *(("Classifier", word) for word in said["classifiers"]), ("Description-Content-Type", "text/markdown")]
    text = "".join(f"{key}: {value}\n" for key, value in head) + "\n" + (TOP / said["readme"]).read_text()
    scripts = "[console_scripts]\n" + "".join(f"{name} = {where}\n" for name, where in said["scripts"].items())
    return {"METADATA": text.encode(), "WHEEL": WHEEL.encode(), "entry_points.txt": scripts.encode()}


def write_wheel(folder, said, files):
    """Writes a wheel of files, by where they stand in it, and answers its name."""
    described = f"{name_of(said)}.dist-info"
    files = {**files, **{f"{described}/{name}": octets for name, octets in metadata_of(said).items()}}
    sums = {name: base64.urlsafe_b64encode(hashlib.sha256(octets).digest()).rstrip(b"=").decode()
            for name, octets in files.items()}
    record = "".join(f"{name},sha256={sums[name]},{len(octets)}\n" for name, octets in files.items())
    files[f"{described}/RECORD"] = f"{record}{described}/RECORD,,\n".encode()
    name = f"{name_of(said)}-py3-none-any.whl"
    with zipfile.ZipFile(os.path.join(folder, name), "w", zipfile.ZIP_DEFLATED) as pack:
        for one, octets in files.items():
            info = zipfile.ZipInfo(one, TIME)
            info.external_attr, info.compress_type = 0o644 << 16, zipfile.ZIP_DEFLATED
            pack.writestr(info, octets)
    return name


# ---- what pip calls

def get_requires_for_build_wheel(config_settings=None):
    return []


get_requires_for_build_sdist = get_requires_for_build_editable = get_requires_for_build_wheel


def prepare_metadata_for_build_wheel(metadata_directory, config_settings=None):
    said = project()
    folder = pathlib.Path(metadata_directory, f"{name_of(said)}.dist-info")
    folder.mkdir()
    for name, octets in metadata_of(said).items():
        (folder / name).write_bytes(octets)
    return folder.name


prepare_metadata_for_build_editable = prepare_metadata_for_build_wheel


def build_wheel(wheel_directory, config_settings=None, metadata_directory=None):
    return write_wheel(wheel_directory, project(), {
        str(path.relative_to(TOP / "tools")): path.read_bytes() for path in files_of(PACKAGE)})


def build_editable(wheel_directory, config_settings=None, metadata_directory=None):
    """A wheel that says where the modules stand: changes of theirs are seen at once."""
    return write_wheel(wheel_directory, project(), {"bgpnet.pth": f"{TOP / 'tools'}\n".encode()})


def build_sdist(sdist_directory, config_settings=None):
    said = project()
    files = [TOP / "pyproject.toml", TOP / said["readme"], pathlib.Path(__file__).resolve(), *files_of(PACKAGE)]
    with tarfile.open(os.path.join(sdist_directory, f"{name_of(said)}.tar.gz"), "w:gz") as pack:
        for path in files:
            pack.add(path, f"{name_of(said)}/{path.relative_to(TOP)}")
        octets = metadata_of(said)["METADATA"]
        info = tarfile.TarInfo(f"{name_of(said)}/PKG-INFO")
        info.size = len(octets)
        pack.addfile(info, io.BytesIO(octets))
    return f"{name_of(said)}.tar.gz"
