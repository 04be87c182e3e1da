"""Makes a repository of a program of this folder and of crates of a checkout in a temporary folder, where the program is
proved and built."""
import contextlib, os, shutil, subprocess, tempfile

TOP = os.path.dirname(os.path.dirname(os.path.abspath(__file__)))


@contextlib.contextmanager
def repository(folder, name, needed, uses, top=TOP):
    """The folder of bench/FOLDER as the crate NAME, which uses these crates, over the needed ones of a checkout."""
    with tempfile.TemporaryDirectory() as beside:
        crates = os.path.join(beside, "crates")
        os.mkdir(crates)
        for crate in needed:
            shutil.copytree(os.path.join(top, "crates", crate), os.path.join(crates, crate), symlinks=True)
        bench = os.path.join(crates, name)
        shutil.copytree(os.path.join(TOP, "bench", folder), bench)
        for place, _, files in os.walk(bench):
            for file in files:  # they end in .txt here, since the gate takes no source outside crates/
                if file.endswith(".txt"):
                    os.rename(os.path.join(place, file), os.path.join(place, file[:-4]))
        with open(os.path.join(top, "crates.txt")) as listed:
            lines = [line for line in listed if line.split(":")[0] in needed]
        with open(os.path.join(beside, "crates.txt"), "w") as listed:
            listed.writelines(lines)
            listed.write(f"{name}: {uses}\n")
        yield bench


def run(folder, name, needed, uses):
    """Proves and builds bench/FOLDER over this checkout, and runs it."""
    with repository(folder, name, needed, uses) as bench:
        subprocess.run(["rt", "run", "--jobs", "2"], cwd=bench, check=False)
