"""The package as a whole: its wheel, its version, where it finds the library, and its sources."""
import ast
import importlib.util
import inspect
import os
import re
import shutil
import subprocess
import sys
import tempfile
import unittest
import zipfile
from pathlib import Path
from unittest import mock

import chronicle_map
from chronicle_map import library
from tests.samples import REPOSITORY, Folder

HERE = REPOSITORY / "bindings" / "python"
VERSION = (REPOSITORY / "VERSION").read_text().strip()


def run(code, **environment):
    """What Python prints for this code in a process of its own, away from the repository."""
    given = {**os.environ, "PYTHONDONTWRITEBYTECODE": "1", **environment}
    done = subprocess.run(
        [sys.executable, "-c", code], env=given, cwd="/", stdout=subprocess.PIPE, stderr=subprocess.PIPE, check=False
    )
    return done.returncode, done.stdout.decode(), done.stderr.decode()


class Wheel(Folder):
    def backend(self):
        path = HERE / "backend" / "chronicle_map_build.py"
        spec = importlib.util.spec_from_file_location("chronicle_map_build", path)
        module = importlib.util.module_from_spec(spec)
        spec.loader.exec_module(module)
        return module

    def test_contents(self):
        name = self.backend().build_wheel(self.folder)
        self.assertEqual(name, f"chronicle_map-{VERSION}-py3-none-any.whl")
        info = f"chronicle_map-{VERSION}.dist-info"
        with zipfile.ZipFile(self.path(name)) as wheel:
            files = {member: wheel.read(member) for member in wheel.namelist()}
        sources = {f"chronicle_map/{path.name}" for path in (HERE / "chronicle_map").glob("*.py")}
        rest = {"chronicle_map/py.typed", f"{info}/METADATA", f"{info}/WHEEL", f"{info}/RECORD"}
        self.assertEqual(set(files), sources | rest)
        metadata = files[f"{info}/METADATA"].decode()
        self.assertIn(f"\nName: chronicle-map\nVersion: {VERSION}\nSummary: ", metadata)
        self.assertIn("\nRequires-Python: >=3.9\n", metadata)
        self.assertTrue(metadata.endswith("\n\n" + (HERE / "README.md").read_text()))
        listed = [line.split(",") for line in files[f"{info}/RECORD"].decode().splitlines()]
        self.assertEqual({line[0] for line in listed}, set(files))
        self.assertTrue(all(int(line[2]) == len(files[line[0]]) for line in listed if line[1]))

    def test_same_bytes_each_time(self):
        backend = self.backend()
        wheels = [Path(self.path(backend.build_wheel(self.folder))).read_bytes() for _ in range(2)]
        self.assertEqual(wheels[0], wheels[1])

    def test_no_source_archive(self):
        backend = self.backend()
        with self.assertRaisesRegex(backend.UnsupportedOperation, "take the repository"):
            backend.build_sdist(self.folder)

    def test_pip_in_a_copy_of_the_folder_alone(self):
        """As pip before 21.3 does it."""
        shutil.copytree(HERE, self.path("copy"), symlinks=True)
        self.installed(self.path("copy"))
        code, out, err = run("import chronicle_map; print(chronicle_map.__version__)", PYTHONPATH=self.path("site"))
        self.assertEqual((code, out, err), (0, VERSION + "\n", ""))

    def test_pip_offline(self):
        self.installed(str(HERE))
        code = (
            "import chronicle_map as c; print(c.__version__); print(c.__file__); print(c.library_path());"
            "print(len(c.Store(c.Settings().block(), c.empty_image(c.Settings()))))"
        )
        loaded = chronicle_map.library_path()
        code, out, err = run(code, PYTHONPATH=self.path("site"), CHRONICLE_MAP_LIB=loaded)
        self.assertEqual((code, err), (0, ""))
        package = self.path(os.path.join("site", "chronicle_map", "__init__.py"))
        self.assertEqual(out.split(), [VERSION, package, loaded, "0"])

    def test_pip_editable(self):
        self.installed("-e", str(HERE))
        site = f"import site; site.addsitedir({self.path('site')!r}); "
        code, out, err = run(site + "import chronicle_map as c; print(c.__version__, c.__file__)", PYTHONPATH="")
        self.assertEqual((code, err), (0, ""))
        self.assertEqual(out.split(), [VERSION, str(HERE / "chronicle_map" / "__init__.py")])

    def installed(self, *what):
        """Installs by pip without network into the folder `site`. The test is skipped where there is no pip."""
        if importlib.util.find_spec("pip") is None:
            raise unittest.SkipTest("pip is not installed")
        command = [sys.executable, "-m", "pip", "install", "--no-index", "--no-cache-dir", "--quiet", "--no-deps"]
        quiet = ["--disable-pip-version-check", "--no-warn-script-location", "--target", self.path("site")]
        environment = {**os.environ, "PYTHONDONTWRITEBYTECODE": "1", "PIP_CONFIG_FILE": os.devnull}
        done = subprocess.run(
            [*command, *quiet, *what], env=environment, stdout=subprocess.PIPE, stderr=subprocess.STDOUT, check=False
        )
        self.assertEqual(done.returncode, 0, done.stdout.decode())


class Library(Folder):
    """Where the shared library is looked for. `load` is the plain function here, without what it remembers."""

    def setUp(self):
        super().setUp()
        self.loaded = chronicle_map.library_path()

    def load(self, variable=None, root=None, soname=None):
        environment = {} if variable is None else {"CHRONICLE_MAP_LIB": str(variable)}
        names = mock.patch.multiple(library, repository=lambda: root, SONAME=soname or "libabsent-for-this-test.so.0")
        with mock.patch.dict(os.environ, environment), names:
            if variable is None:
                os.environ.pop("CHRONICLE_MAP_LIB", None)
            return library.load.__wrapped__()

    def linked(self, *parts):
        """A path in the folder that leads to the library."""
        path = Path(self.path(os.path.join(*parts)))
        path.parent.mkdir(parents=True, exist_ok=True)
        path.symlink_to(self.loaded)
        return path

    def test_variable_names_the_file(self):
        path = self.linked("other-name.so")
        self.assertEqual(self.load(path)._name, str(path))

    def test_variable_names_the_folder(self):
        older = self.linked("libchronicle_map.so")
        self.assertEqual(self.load(self.folder)._name, str(older))
        path = self.linked("libchronicle_map.so.0")
        self.assertEqual(self.load(self.folder)._name, str(path))

    def test_folder_without_it_is_passed_over(self):
        path = self.linked("target", "lib", "libchronicle_map.so.0")
        self.assertEqual(self.load(self.folder, root=Path(self.folder))._name, str(path))

    def test_variable_before_repository_before_system(self):
        path = self.linked("target", "lib", "libchronicle_map.so.0")
        system = self.linked("system.so")
        self.assertEqual(self.load(None, Path(self.folder), str(system))._name, str(path))
        self.assertEqual(self.load(system, Path(self.folder))._name, str(system))
        self.assertEqual(self.load(None, None, str(system))._name, str(system))
        path.unlink()
        self.assertEqual(self.load("", Path(self.folder), str(system))._name, str(system))

    def test_place_in_the_repository(self):
        self.assertEqual(library.repository(), REPOSITORY)
        root = Path(self.folder)
        for place in ("bindings/python", "vendor/site"):
            (root / place / "chronicle_map").mkdir(parents=True)
        for header in (False, True):
            for place in ("bindings/python", "vendor/site"):
                path = root / place / "chronicle_map" / "library.py"
                with self.subTest(place, header=header), mock.patch.object(library, "__file__", str(path)):
                    expected = root if header and place == "bindings/python" else None
                    self.assertEqual(library.repository(), expected)
            (root / "include").mkdir(exist_ok=True)
            (root / "include" / "chronicle_map.h").touch()

    def test_what_cannot_be_loaded(self):
        for path in (self.written(b"not a library", "a.so"), self.path("none.so")):
            with self.assertRaisesRegex(OSError, f"CHRONICLE_MAP_LIB names {re.escape(path)}, which cannot be loaded"):
                self.load(path)
        with self.assertRaisesRegex(OSError, "has no function chronicle_map_check: it is another library"):
            self.load(None, None, "libc.so.6")

    def test_none_there(self):
        with self.assertRaises(OSError) as caught:
            self.load(self.folder, Path(self.folder))
        message = str(caught.exception)
        for part in (self.folder, self.path("target/lib"), "by the system's loader", "`make lib` or `make install`"):
            self.assertIn(part, message)

    def test_loaded_at_the_first_call(self):
        code = (
            "import chronicle_map as c; settings = c.Settings(); store = c.Store(b'', b'')\n"
            "try: store.counts()\nexcept OSError as error: print(error)"
        )
        code, out, err = run(code, PYTHONPATH=str(HERE), CHRONICLE_MAP_LIB="/none/at/all.so")
        self.assertEqual((code, err), (0, ""))
        self.assertIn("CHRONICLE_MAP_LIB names /none/at/all.so, which cannot be loaded", out)


class Sources(unittest.TestCase):
    def paths(self):
        paths = [path for part in ("backend", "chronicle_map", "tests") for path in sorted((HERE / part).glob("*.py"))]
        self.assertGreater(len(paths), 10)
        return paths

    def test_python_3_9(self):
        for path in self.paths():
            with self.subTest(path.name):
                ast.parse(path.read_text(encoding="utf-8"), str(path), feature_version=(3, 9))

    @unittest.skipIf(sys.version_info < (3, 10), "Python 3.9 has no list of its own modules")
    def test_standard_library_alone(self):
        for path in self.paths():
            if path.parent.name != "tests":
                names = imported(ast.parse(path.read_text(encoding="utf-8")))
                self.assertLessEqual(names, set(sys.stdlib_module_names) | {"chronicle_map"}, path.name)

    def test_every_function_of_the_header(self):
        header = (REPOSITORY / "include" / "chronicle_map.h").read_text(encoding="utf-8")
        named = set(re.findall(r"^uint\d+_t (chronicle_map_\w+)\(", header, re.MULTILINE))
        self.assertGreater(len(named), 10)
        loaded = library.load()
        self.assertEqual([name for name in named if getattr(loaded, name).argtypes is None], [])

    def test_version(self):
        self.assertEqual(chronicle_map.__version__, VERSION)
        self.assertRegex(VERSION, r"^\d+\.\d+\.\d+$")

    def test_public_names_say_what_they_do(self):
        for name in chronicle_map.__all__:
            self.assertTrue(hasattr(chronicle_map, name), name)
        kinds = (chronicle_map.Store, chronicle_map.Settings, chronicle_map.Refused, chronicle_map.Number)
        members = [(kind, name) for kind in kinds for name in vars(kind) if not name.startswith("_")]
        self.assertGreater(len(members), 30)
        for kind, name in members:
            member = inspect.getattr_static(kind, name)
            if callable(member) or isinstance(member, (property, classmethod)):
                self.assertTrue(inspect.getdoc(getattr(kind, name)), name)

    def test_readme_runs(self):
        text = (HERE / "README.md").read_text(encoding="utf-8")
        (code,) = re.findall(r"^```python\n(.*?)^```$", text, re.MULTILINE | re.DOTALL)
        with tempfile.TemporaryDirectory() as folder:
            _, out, err = run(f"import os; os.chdir({folder!r})\n{code}", PYTHONPATH=str(HERE))
        self.assertEqual(err, "")
        self.assertEqual(out.splitlines()[-1], code.splitlines()[-1].split("# ")[1])


def imported(tree):
    """The first names of the modules that a source imports from outside its own package."""
    plain = [alias.name for node in ast.walk(tree) if isinstance(node, ast.Import) for alias in node.names]
    parts = [node.module for node in ast.walk(tree) if isinstance(node, ast.ImportFrom) and not node.level]
    return {name.split(".")[0] for name in plain + parts}


if __name__ == "__main__":
    unittest.main()
