"""Tests of the package where it is installed: `pip install ./python` in an empty environment, without a network."""
import os
import subprocess
import sys

import pytest

PACKAGE = os.path.dirname(os.path.dirname(os.path.dirname(os.path.abspath(__file__))))
PROGRAMS = ("psu-relay", "psu-socket", "psu-backup", "psu-send", "psu-replay", "psu-panel")

if not os.path.exists(os.path.join(PACKAGE, "pyproject.toml")):
    pytest.skip("this is no clone", allow_module_level=True)


def run(*command, **how):
    return subprocess.run(command, stdout=subprocess.PIPE, stderr=subprocess.STDOUT, universal_newlines=True, **how)


@pytest.fixture(scope="module")
def environment(tmp_path_factory):
    """The folder of the programs of an environment in which the package is installed."""
    folder = str(tmp_path_factory.mktemp("environment"))
    if run(sys.executable, "-m", "venv", folder).returncode != 0:
        pytest.skip("this Python makes no environments (on Debian: python3-venv)")
    ended = run(os.path.join(folder, "bin", "pip"), "install", "--no-index", PACKAGE)
    assert ended.returncode == 0, ended.stdout
    return os.path.join(folder, "bin")


def pytest_folder():
    return os.path.dirname(os.path.dirname(os.path.abspath(pytest.__file__)))


def test_the_client(environment, server):
    code = f"import psu; print(psu.__version__, psu.Instrument(port={server.port}).query('*IDN?'))"
    ended = run(os.path.join(environment, "python"), "-I", "-c", code)
    version, response = ended.stdout.split(" ")
    assert (version.split("+")[0], response) == ("1.0", "EXAMPLE,PSU4,0,1.0\n")


@pytest.mark.parametrize("program", PROGRAMS)
def test_the_programs(environment, program):
    ended = run(os.path.join(environment, program), "--help")
    assert ended.returncode == 0 and ended.stdout.startswith("usage: "), ended.stdout


def test_the_entry_point_of_pytest(environment):
    code = "from importlib.metadata import entry_points as e; print([it.value for it in found if it.name == 'psu'])"
    found = "from importlib.metadata import entry_points as e; a = e(); "
    found += "found = a.select(group='pytest11') if hasattr(a, 'select') else a.get('pytest11', []); "
    ended = run(os.path.join(environment, "python"), "-I", "-c", found + code)
    assert ended.stdout == "['psu_pytest']\n"


def test_a_project_with_a_module_of_the_same_name(environment, tmp_path):
    """Its tests run; one that uses a fixture says which file hides the package."""
    python = os.path.join(environment, "python")
    # The tests of this environment run by the pytest of the other one.
    run(python, "-c", f"import site; open(site.getsitepackages()[0] + '/outer.pth', 'w').write({pytest_folder()!r})")
    (tmp_path / "psu.py").write_text("VOLTS = 5\n")
    tests = tmp_path / "test_driver.py"
    tests.write_text("import psu\n\n\ndef test_own():\n    assert psu.VOLTS == 5\n")
    ended = run(python, "-m", "pytest", "-p", "no:cacheprovider", cwd=tmp_path)
    assert ended.returncode == 0 and "1 passed" in ended.stdout, ended.stdout
    tests.write_text("def test_own(server):\n    pass\n")
    ended = run(python, "-m", "pytest", "-p", "no:cacheprovider", cwd=tmp_path)
    assert f"but `import psu` finds {tmp_path}/psu.py: give that another name" in ended.stdout
