"""What the tests of the tools share: the tools as modules and as programs, and the program that they ask."""
import functools
import io
import os
import pathlib
import re
import subprocess
import sys
import types
import unittest.mock

TOOLS = pathlib.Path(__file__).resolve().parent.parent
TOP = TOOLS.parent
sys.path.insert(0, str(TOOLS))
# Tools that are started as programs run in the Python of the tests, and compile a module once.
os.environ["PATH"] = os.pathsep.join([os.path.dirname(sys.executable), os.environ.get("PATH", os.defpath)])
os.environ.pop("PYTHONDONTWRITEBYTECODE", None)

from bgpnet.program import Program, found_program, run_tool  # noqa: E402, for it stands beside the tools

# The built program, as the words of tools/test name it.
program_path = found_program()


@functools.lru_cache(maxsize=None)
def compiled(path):
    return compile(path.read_bytes(), str(path), "exec")


def load(name):
    """A tool as a module, loaded anew: a module of the package, or what is of the repository alone."""
    path = TOOLS / f"bgpnet/commands/{name}.py"
    path = path if path.exists() else TOOLS / name
    module = types.ModuleType(name)
    module.__file__ = str(path)
    exec(compiled(path), module.__dict__)
    return module


def pictures_missing(folder):
    """The pictures that pages below a folder show and that are not there."""
    return [(page.name, name) for page in pathlib.Path(folder).rglob("*.md")
            for name in re.findall(r"!\[[^]]*\]\(([^)]*)\)", page.read_text()) if not (page.parent / name).is_file()]


def asked_program():
    return Program(program_path)


def run(tool, *words, given=b"", module=None):
    """The status of a tool, and what it writes on the standard output and on the standard error. It is loaded anew, where
    no module of it is given, and runs in this process, which takes less time than to start another."""
    streams = [io.TextIOWrapper(io.BytesIO(octets), encoding="utf-8", errors=errors, write_through=True)
               for octets, errors in ((given, "strict"), (b"", "strict"), (b"", "backslashreplace"))]
    here = os.getcwd()
    os.chdir(TOP)
    try:
        with unittest.mock.patch.dict(os.environ, BGPNET=program_path), unittest.mock.patch.multiple(
                sys, argv=[str(TOOLS / tool), *map(str, words)], **dict(zip(("stdin", "stdout", "stderr"), streams))):
            run_tool((module or load(tool)).main)
    except SystemExit as ended:
        status = ended.code
    finally:
        os.chdir(here)
    return status, *(stream.buffer.getvalue().decode(errors="backslashreplace") for stream in streams[1:])


def start(tool, *words):
    """The same of a tool that is started as a program of its own."""
    done = subprocess.run([sys.executable, str(TOOLS / tool), *map(str, words)], stdin=subprocess.DEVNULL,
                          capture_output=True, env=dict(os.environ, BGPNET=program_path), cwd=TOP)
    return done.returncode, done.stdout.decode(), done.stderr.decode()
