"""The scripts beside the examples, which make networks and set loadings beside other programs."""
import subprocess
import unittest

from support import CLONE, needs_numpy


class Scripts(unittest.TestCase):
    @needs_numpy
    def test_each_says_what_it_does(self) -> None:
        """Each finds all that it takes of the tools, and tells its words."""
        scripts = sorted((CLONE / "examples").glob("*/*.py"))
        self.assertGreater(len(scripts), 5)
        for script in scripts:
            with self.subTest(script=script.name):
                done = subprocess.run([script, "--help"], capture_output=True, text=True)
                self.assertEqual((done.returncode, done.stdout[:6], done.stderr), (0, "usage:", ""))


if __name__ == "__main__":
    unittest.main()
