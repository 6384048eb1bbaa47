"""Tests of tools/wheel: the file, and what an environment has in which nothing but this file was installed."""
import hashlib
import os
import re
import shutil
import subprocess
import sys

import pytest
from psu.server import find_program

TOP = os.path.dirname(os.path.dirname(os.path.dirname(os.path.dirname(os.path.abspath(__file__)))))
WHEEL = os.path.join(TOP, "tools", "wheel")
NAME = re.compile(r"psu-1\.0[+.\w]*-py3-none-manylinux_2_\d+_x86_64\.whl")

if not os.path.exists(WHEEL):
    pytest.skip("this is no clone", allow_module_level=True)
if not (shutil.which("objdump") and shutil.which("strip")):
    pytest.skip("no objdump and strip (on Debian: binutils)", allow_module_level=True)


def run(*command, **how):
    how = {"stdout": subprocess.PIPE, "stderr": subprocess.STDOUT, "universal_newlines": True, **how}
    return subprocess.run(command, **how)


def make(folder, tool=WHEEL, **how):
    ended = run(sys.executable, tool, find_program(), "--output", str(folder), **how)
    assert ended.returncode == 0, ended.stdout
    return ended.stdout.strip()


@pytest.fixture(scope="module")
def wheel(tmp_path_factory):
    return make(tmp_path_factory.mktemp("wheel"))


@pytest.fixture(scope="module")
def later(tmp_path_factory):
    """The top of a clone whose last commit is a minute later, on the same day."""
    clone = str(tmp_path_factory.mktemp("clone") / "clone")
    if run("git", "clone", "--quiet", "--shared", TOP, clone).returncode != 0:
        pytest.skip("this is no clone")
    if not os.path.exists(os.path.join(clone, "tools", "wheel")):
        pytest.skip("tools/wheel is not committed")
    seconds = int(run("git", "-C", clone, "log", "-1", "--format=%ct").stdout) + 60
    names = {f"GIT_{it}_{what}": "test" for it in ("AUTHOR", "COMMITTER") for what in ("NAME", "EMAIL")}
    variables = {**os.environ, **names, "GIT_COMMITTER_DATE": f"@{seconds} +0000"}
    run("git", "-C", clone, "commit", "--quiet", "--allow-empty", "-m", "later", env=variables, check=True)
    return clone


@pytest.fixture(scope="module")
def programs(wheel, tmp_path_factory):
    """The folder of the programs of an environment in which the wheel was installed, without a network."""
    folder = str(tmp_path_factory.mktemp("environment"))
    if run(sys.executable, "-m", "venv", folder).returncode != 0:
        pytest.skip("this Python makes no environments (on Debian: python3-venv)")
    ended = run(os.path.join(folder, "bin", "pip"), "install", "--no-index", wheel)
    assert ended.returncode == 0, ended.stdout
    return os.path.join(folder, "bin")


@pytest.fixture
def call(programs, tmp_path):
    """Runs a command with the environment's programs alone on the PATH, in a folder without a clone."""

    def called(*command, **how):
        variables = {"PATH": f"{programs}:/usr/bin:/bin", "HOME": str(tmp_path), "LANG": "C"}
        return run(*command, env=variables, cwd=tmp_path, **how)

    return called


def test_the_name_has_the_version_and_what_the_program_needs(wheel):
    assert NAME.fullmatch(os.path.basename(wheel))


def test_it_is_the_same_at_any_time_and_under_any_umask(wheel, tmp_path):
    how = {"env": {**os.environ, "TZ": "Asia/Tokyo"}, "preexec_fn": lambda: os.umask(0o077)}
    with open(wheel, "rb") as first, open(make(tmp_path, **how), "rb") as second:
        assert first.read() == second.read()


def test_the_program_is_on_the_path(programs, call):
    assert call("psu", "run", input="*IDN?\n").stdout == "EXAMPLE,PSU4,0,1.0\n"
    with open(os.path.join(programs, "psu"), "rb") as file:
        assert file.read(4) == b"\x7fELF"


def test_a_server_is_the_package_s_own_program(programs, call):
    code = "from psu import Server\nwith Server() as it, it.connect() as supply: print(it.program, supply.query('*IDN?'))"
    assert call("python", "-c", code).stdout == f"{os.path.join(programs, 'psu')} EXAMPLE,PSU4,0,1.0\n"


@pytest.mark.parametrize("command", [["python", "-m", "psu"], ["psu-relay"], ["psu-socket"], ["psu-backup"], ["psu-send"],
                                     ["psu-replay"], ["psu-panel"]])
def test_the_version_names_commit_program_and_toolchain(programs, call, command):
    ended = call(*command, "--version")
    assert ended.returncode == 0
    lines = dict(it.split(maxsplit=1) for it in ended.stdout.splitlines())
    with open(os.path.join(programs, "psu"), "rb") as file:
        assert hashlib.sha256(file.read()).hexdigest() in lines["program"]
    assert re.match("[0-9a-f]{40} of 20..-..-.. ..:..:.. UTC|unknown", lines["commit"])
    assert lines["toolchain"]


@pytest.mark.skipif(not shutil.which("man"), reason="no man")
def test_the_man_page(call):
    assert call("man", "-w", "psu").stdout.endswith("/share/man/man1/psu.1\n")


def test_the_fixtures(programs, call, tmp_path):
    outer = os.path.dirname(os.path.dirname(os.path.abspath(pytest.__file__)))
    call("python", "-c", f"import site; open(site.getsitepackages()[0] + '/outer.pth', 'w').write({outer!r})")
    test = tmp_path / "test_driver.py"
    test.write_text("def test_it(supply, connect):\n    assert connect().query('VOLT?') == supply.query('VOLT?')\n")
    ended = call("python", "-m", "pytest", "-p", "no:cacheprovider", str(test))
    assert "1 passed" in ended.stdout, ended.stdout


def test_a_later_build_of_the_same_day_is_an_upgrade_for_pip(wheel, later, tmp_path):
    newer = make(tmp_path, os.path.join(later, "tools", "wheel"))
    shutil.copy(wheel, tmp_path)
    environment = str(tmp_path / "environment")
    run(sys.executable, "-m", "venv", environment)
    pip = os.path.join(environment, "bin", "pip")
    for words, expected in (
        (["install", wheel], wheel),
        (["install", newer], newer),  # by its path
        (["install", wheel], wheel),
        (["install", "--upgrade", "--find-links", str(tmp_path), "psu"], newer),  # the highest of a folder
    ):
        ended = run(pip, *words, "--no-index")
        assert ended.returncode == 0, ended.stdout
        version = run(pip, "show", "psu").stdout.split("Version: ")[1].split()[0]
        assert os.path.basename(expected).startswith(f"psu-{version}-"), words


@pytest.mark.skipif(not shutil.which("dpkg-deb"), reason="no dpkg")
def test_a_later_build_of_the_same_day_is_an_upgrade_for_dpkg(later, tmp_path):
    packages = [make(tmp_path, os.path.join(it, "tools", "package")) for it in (TOP, later)]
    older, newer = (run("dpkg-deb", "--field", it, "Version").stdout.strip() for it in packages)
    assert run("dpkg", "--compare-versions", older, "lt", newer).returncode == 0
    # One with the day alone, as versions were before.
    assert run("dpkg", "--compare-versions", "1.0+20261201.ffffff0-1", "lt", older).returncode == 0
