"""What the tests of tools/glyph's commands share: the examples, and a folder in which the tool is run."""
import os
import subprocess

ROOT = os.path.dirname(os.path.dirname(os.path.dirname(os.path.abspath(__file__))))
TOOL = os.path.join(ROOT, "tools", "glyph")


def example(name):
    with open(os.path.join(ROOT, "examples", name), "rb") as f:
        return f.read()


class Room:
    """A folder for a test's files, in which the tool is run with these words first. `need` ends the test where something is not true."""

    def __init__(self, path, need, *first):
        self.path, self.need, self.first = path, need, first

    def put(self, name, data):
        with open(os.path.join(self.path, name), "wb") as f:
            f.write(data if isinstance(data, bytes) else data.encode())

    def got(self, name):
        with open(os.path.join(self.path, name), "rb") as f:
            return f.read()

    def run(self, *words, given=b""):
        return subprocess.run([TOOL, *self.first, *words], cwd=self.path, capture_output=True, input=given)

    def done(self, *words, given=b""):
        ran = self.run(*words, given=given)
        self.need(ran.returncode == 0, f"{' '.join(words)} ended with {ran.returncode} and {ran.stderr[-300:]!r}")
        return ran

    def refuses(self, status, says, *words, given=b""):
        """It ends so, says so, and leaves every file as it was."""
        before = {name: self.got(name) for name in os.listdir(self.path) if os.path.isfile(os.path.join(self.path, name))}
        ran = self.run(*words, given=given)
        after = {name: self.got(name) for name in os.listdir(self.path) if os.path.isfile(os.path.join(self.path, name))}
        self.need(ran.returncode == status and ran.stderr.decode().startswith(f"glyph: {says}") and ran.stdout == b"",
                  f"{' '.join(words)} should say {says!r} with status {status}, and said {ran.stderr[-300:]!r} with {ran.returncode}")
        self.need(before == after, f"{' '.join(words)} is refused and writes")
