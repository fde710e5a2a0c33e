"""The packages of the library, installed into an empty root and used there, and the wheel, unpacked into a folder."""
import os
import shutil
import subprocess
import sys
import zipfile

import runner

EXAMPLE = runner.ROOT / "examples" / "window-broken.trace"
CAPTURE = runner.ROOT / "tests" / "captures" / "files" / "xot-circuits-of-one-pair.pcap"
NAMES = ("libx25scan1", "libx25scan-dev", "python3-x25scan", "x25scan")
# What a program in Python does with the module that it finds.
USES = """
import pathlib, sys
import x25scan
folder, trace, capture = sys.argv[1:]
assert pathlib.Path(x25scan.__file__).is_relative_to(folder), x25scan.__file__
assert pathlib.Path(x25scan.__file__).with_name("py.typed").exists()
with x25scan.Observer("X25 1 MOD 8 WIN 2 SIZE 128 PVC 0 SVC 4") as observer:
    assert observer.packet(1, "T", bytes.fromhex("10010B0000")) == []
if capture:
    assert any(isinstance(it, x25scan.Call) for it in x25scan.open_capture(capture))
sys.stdout.write(x25scan.scan(trace))
"""


def run(*words, **how):
    """Runs a command."""
    given = {"capture_output": True, "text": True, "timeout": runner.SECONDS, **how}
    return subprocess.run(list(map(str, words)), check=False, **given)


def outside(**more):
    """The environment without the module and the library of the repository."""
    names = ("PYTHONPATH", "X25SCAN_LIBRARY", "X25TRACE")
    return {**{name: text for name, text in os.environ.items() if name not in names}, "PYTHONDONTWRITEBYTECODE": "1", **more}


def install(packages, root):
    """Installs packages into an empty root, without those of the system that they need."""
    place = root / "var" / "lib" / "dpkg"
    for name in ("info", "updates"):
        (place / name).mkdir(parents=True)
    (place / "status").touch()
    how = ["--root", root, "--force-depends", "--force-not-root", "--force-bad-path", "--no-triggers", "--log=/dev/null"]
    return run("dpkg", *how, "--install", *packages)


def installed_problems(folder):
    """All packages of the library and of the program are installed side by side."""
    root = folder / "root"
    root.mkdir()
    packages = [next(folder.glob(f"{name}_*.deb")) for name in NAMES]
    done = install(packages, root)
    missing = [it for it in ("usr/lib/libx25scan.so.1", "usr/include/x25scan.h", "usr/bin/x25trace") if not (root / it).exists()]
    return [done.stderr[-1500:]] if done.returncode else [f"there is no {it}" for it in missing]


def flags(root):
    """The words of pkg-config for a compiler, or what they would be where it is not installed."""
    usr = root / "usr"
    if not shutil.which("pkg-config"):
        return [f"-I{usr / 'include'}", f"-L{usr / 'lib'}", "-lx25scan"]
    words = ["--define-variable", f"prefix={usr}", "--cflags", "--libs", "x25scan"]
    return run("pkg-config", *words, env=outside(PKG_CONFIG_PATH=str(usr / "lib" / "pkgconfig"))).stdout.split()


def compiled_problems(root, compiler, expected):
    """The example that is installed is compiled, linked with the shared library, and prints what it should."""
    usr, program = root / "usr", root / "judge_packets"
    source = usr / "share" / "doc" / "libx25scan-dev" / "examples" / "judge_packets.c"
    done = run(compiler, source, "-o", program, *flags(root))
    if done.returncode:
        return [done.stderr[-1500:]]
    ran = run(program, env=outside(LD_LIBRARY_PATH=str(usr / "lib")))
    return [] if (ran.returncode, ran.stdout) == (0, expected) else [str(ran)]


def page_problems(root):
    """The manual page is rendered without a warning."""
    page = root / "usr" / "share" / "man" / "man3" / "x25scan.3.gz"
    done = run("man", "--warnings", "-P", "cat", "-l", page, env=outside(LC_ALL="C.UTF-8", MANWIDTH="200"))
    return [done.stderr] if done.returncode or done.stderr else []


def used_problems(folder, environment, report, has_programs):
    """The module in a folder judges a packet, a trace and, where x25trace is on the path, a capture."""
    done = run(sys.executable, "-c", USES, folder, EXAMPLE, CAPTURE if has_programs else "", env=environment, cwd="/")
    return [] if (done.returncode, done.stdout) == (0, report) else [str(done)]


def wheel_problems(folder, report):
    """The wheel has the module with its library; where pip is installed, that unpacks it."""
    place, wheel = folder / "wheel", next(folder.glob("*.whl"))
    done = run(sys.executable, "-m", "pip", "install", "--no-index", "--no-deps", "--quiet", "--target", place, wheel, env=outside())
    if "No module named pip" in done.stderr:
        with zipfile.ZipFile(wheel) as archive:
            archive.extractall(place)
    elif done.returncode:
        return [done.stderr[-1500:]]
    return used_problems(place, outside(PYTHONPATH=str(place)), report, False)


def cases(program, folder, expected):
    """The cases of the packages, which are made in a folder; `expected` is what the example in C prints."""
    report = run(program, "--alone", EXAMPLE).stdout
    made = run(runner.ROOT / "tools" / "package", "--library", "--to", folder, program)
    if not shutil.which("dpkg"):
        print("the packages of the library were left out: dpkg is not installed")
        return
    yield runner.Case("packages/made", lambda: [made.stderr[-1500:]] if made.returncode else [])
    if made.returncode:
        return
    yield runner.Case("packages/installed", installed_problems, folder)
    root, usr = folder / "root", folder / "root" / "usr"
    compiler = shutil.which("cc") or shutil.which("gcc") or shutil.which("clang")
    yield runner.Case("packages/example in C", compiled_problems, root, compiler, expected)
    if shutil.which("man"):
        yield runner.Case("packages/manual page", page_problems, root)
    if sys.version_info >= (3, 11):
        place = usr / "lib" / "python3" / "dist-packages"
        environment = outside(PYTHONPATH=str(place), LD_LIBRARY_PATH=str(usr / "lib"), PATH=f"{usr / 'bin'}:{os.environ['PATH']}")
        yield runner.Case("packages/module", used_problems, place, environment, report, True)
        yield runner.Case("packages/wheel", wheel_problems, folder, report)
