"""The package that `pip install ./python` builds."""

import base64
import hashlib
import importlib.util
import os
import subprocess
import sys
import tarfile
import tempfile
import unittest
import zipfile

HERE = os.path.dirname(os.path.dirname(os.path.abspath(__file__)))


def backend():
    """The module that builds it."""
    spec = importlib.util.spec_from_file_location("backend", os.path.join(HERE, "backend.py"))
    module = importlib.util.module_from_spec(spec)
    spec.loader.exec_module(module)
    return module


class Package(unittest.TestCase):
    def test_the_wheel_has_all_modules_and_their_digests(self):
        with tempfile.TemporaryDirectory() as room:
            path = os.path.join(room, backend().build_wheel(room))
            with zipfile.ZipFile(path) as wheel:
                names = wheel.namelist()
                record = wheel.read(next(it for it in names if it.endswith("RECORD"))).decode()
                for line in record.splitlines()[:-1]:
                    name, digest, size = line.split(",")
                    text = wheel.read(name)
                    self.assertEqual(digest, "sha256=" + base64.urlsafe_b64encode(hashlib.sha256(text).digest()).decode().rstrip("="))
                    self.assertEqual(int(size), len(text))
            self.assertEqual(len(record.splitlines()), len(names))
            self.assertIn("easybook/py.typed", names)
            self.assertIn("easybook/slurm/convert.py", names)
            code = "import easybook.slurm, easybook.__main__; print(easybook.__file__)"
            ran = subprocess.run([sys.executable, "-c", code], env={**os.environ, "PYTHONPATH": path}, capture_output=True, text=True, cwd=room, check=False)
            self.assertIn(path, ran.stdout, ran.stderr)

    def test_the_sources_have_what_builds_them_and_what_they_are(self):
        with tempfile.TemporaryDirectory() as room:
            with tarfile.open(os.path.join(room, backend().build_sdist(room))) as packed:
                self.assertIn("easybook-1.0.0/backend.py", packed.getnames())
                told = packed.extractfile("easybook-1.0.0/PKG-INFO").read().decode()
        self.assertTrue(told.startswith("Metadata-Version: 2.1\nName: easybook\nVersion: 1.0.0\n"), told[:200])
        with open(os.path.join(HERE, "README.md"), encoding="utf-8") as file:
            self.assertTrue(told.endswith("\n\n" + file.read()))

    @unittest.skipUnless(importlib.util.find_spec("pip"), "pip is not installed")
    def test_pip_installs_it_without_a_network(self):
        with tempfile.TemporaryDirectory() as room:
            for name, source in (("of-the-folder", HERE), ("of-the-sources", os.path.join(room, backend().build_sdist(room)))):
                with self.subTest(name):
                    self.install(source, os.path.join(room, name))

    def install(self, source, target):
        """Installs the package into a folder, and looks whether it is imported from there."""
        without = {name: it for name, it in os.environ.items() if name != "PYTHONPATH"}
        alone = {**without, "PYTHONDONTWRITEBYTECODE": "1", "PIP_DISABLE_PIP_VERSION_CHECK": "1", "PIP_NO_CACHE_DIR": "1"}
        pip = [sys.executable, "-m", "pip", "install", "--quiet", "--no-index", "--no-deps", "--target", target, source]
        ran = subprocess.run(pip, env=alone, capture_output=True, text=True, check=False, timeout=300)
        self.assertEqual(ran.returncode, 0, ran.stderr)
        code = "import easybook, importlib.metadata as it; print(easybook.__file__, it.version('easybook'), len(it.metadata('easybook').get_payload()) > 1000)"
        ran = subprocess.run([sys.executable, "-c", code], env={**alone, "PYTHONPATH": target}, capture_output=True, text=True, cwd=target, check=False)
        self.assertEqual(ran.stdout, f"{os.path.join(target, 'easybook', '__init__.py')} 1.0.0 True\n", ran.stderr)


if __name__ == "__main__":
    unittest.main()
