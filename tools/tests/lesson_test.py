"""The lesson of examples/lesson.ipynb, executed: what its cells print and draw is what stands in it."""
import json
import os
import shutil
import subprocess
import tempfile
import unittest

from support import TOP, program_path

LESSON = TOP / "examples/lesson.ipynb"


def outputs_of(notebook):
    """What each cell of code prints and shows."""
    return [[(one.get("name"), "".join(one.get("text", "")), {kind: "".join(said) for kind, said in one.get("data", {}).items()})
             for one in cell["outputs"]] for cell in notebook["cells"] if cell["cell_type"] == "code"]


class Lesson(unittest.TestCase):
    def test_it_is_a_notebook_with_pictures(self):
        """Each cell of code has its output, and pictures are there; nobody needs jupyter to read it."""
        outputs = outputs_of(json.loads(LESSON.read_text()))
        self.assertGreater(len(outputs), 8)
        self.assertGreater(sum("image/svg+xml" in data for cell in outputs for _, _, data in cell), 3)
        self.assertTrue(all(outputs))

    @unittest.skipUnless(shutil.which("jupyter-nbconvert"), "there is no jupyter nbconvert, so no notebook is executed")
    def test_what_its_cells_say(self):
        with tempfile.TemporaryDirectory() as folder:
            done = subprocess.run(
                ["jupyter-nbconvert", "--to", "notebook", "--execute", "--stdout", str(LESSON)], capture_output=True, text=True,
                env=dict(os.environ, BGPNET=program_path, PYTHONPATH=str(TOP / "tools"), HOME=folder, JUPYTER_RUNTIME_DIR=folder))
            self.assertEqual(done.returncode, 0, done.stderr[-2000:])
        self.assertEqual(outputs_of(json.loads(done.stdout)), outputs_of(json.loads(LESSON.read_text())))


if __name__ == "__main__":
    unittest.main()
