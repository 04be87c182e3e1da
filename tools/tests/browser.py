"""Debian's Chromium without a window, for the tests of pages."""
import json
import pathlib
import re
import shutil
import subprocess
import tempfile

SECONDS = 90
# What a page is given behind its own script: the test's, whose answer the document then has as a text.
BEHIND = """\
<script>
window.addEventListener("load", () => {
const answer = (said) => { const made = document.body.appendChild(document.createElement("pre")); made.id = "answer"; made.textContent = JSON.stringify(said); };
%s
});
</script>
</body>"""
ANSWER = re.compile(r'<pre id="answer">(.*?)</pre>', re.S)
ENTITIES = {"&lt;": "<", "&gt;": ">", "&amp;": "&", "&nbsp;": "\u00a0"}


def browser_path():
    return shutil.which("chromium")


class Page:
    """A page in a browser."""

    def __init__(self, page):
        self.page = page

    def answers(self, script):
        """What a script in the page answers."""
        with tempfile.TemporaryDirectory() as folder:
            file = pathlib.Path(folder, "page.html")
            file.write_text(self.page.replace("</body>", BEHIND % script))
            done = subprocess.run(
                [browser_path(), "--headless=new", "--no-sandbox", "--disable-gpu", "--disable-dev-shm-usage",
                 f"--user-data-dir={folder}/user", "--window-size=1600,1000", "--virtual-time-budget=60000", "--dump-dom",
                 file.as_uri()], capture_output=True, text=True, timeout=SECONDS)
        found = ANSWER.search(done.stdout)
        assert found, done.stderr[-2000:]
        return json.loads(re.sub("&(?:lt|gt|amp|nbsp);", lambda entity: ENTITIES[entity[0]], found[1]))
