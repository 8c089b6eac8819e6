"""Makes the release and uses it as a person would who has neither prover nor compiler; then installs it, compiles a kiosk against
what was installed, and removes it.

    python3 tests/release.py

The folder of commands that is on the path while the release is used has what such a machine has, and no more.
"""

import hashlib
import os
import re
import shutil
import subprocess
import sys
import tarfile
import tempfile
from pathlib import Path

from gpu_typed import OUTSIDE, ROOT

RELEASES = ROOT / "target" / "release"

# What a plain system has: enough for the command, and for the script that installs it.
PLAIN = ["sh", "env", "cat", "cp", "find", "ln", "ls", "mkdir", "rm", "rmdir", "dirname", "sha256sum", "sort"]
# And what a person needs who compiles a C program.
COMPILER = ["gcc", "as", "ld", "readelf"]

VERSION_PROGRAM = '#include <stdio.h>\n#include "gpu.h"\nint main(void)\n{\n    puts(GPU_VERSION);\n    return 0;\n}\n'


def fail(message):
    sys.exit(f"release: {message}")


def commands(folder, names):
    """A path with these commands and python3, and no others."""
    folder.mkdir()
    (folder / "python3").symlink_to(os.path.realpath(sys.executable))
    for name in names:
        found = shutil.which(name)
        if found is None:
            fail(f"{name} is not on this machine")
        (folder / name).symlink_to(found)
    path = {"PATH": str(folder), "HOME": str(folder), "LANG": "C.UTF-8"}
    if any(shutil.which(name, path=path["PATH"]) for name in ("rt", "rattle", "make")):
        fail("the prover is on the path")
    return path


def run(words, env=None, cwd=None, status=0):
    """What a command prints, which must end with this status."""
    done = subprocess.run([str(word) for word in words], cwd=cwd or ROOT, env=env or OUTSIDE, stdin=subprocess.DEVNULL,
                          stdout=subprocess.PIPE, stderr=subprocess.STDOUT, text=True, timeout=300)
    if done.returncode != status:
        fail(f"{' '.join(map(str, words))} ended with {done.returncode} and not {status}:\n{done.stdout}")
    return done.stdout


def sum_of(path):
    return hashlib.sha256(path.read_bytes()).hexdigest()


def check_version():
    """One number in every place that has it, and the soname's is its first part."""
    version = (ROOT / "VERSION").read_text().strip()
    header = re.search(r'#define GPU_VERSION "(.*)"', (ROOT / "include" / "gpu.h").read_text())[1]
    changes = re.search(r"^## (\S+)", (ROOT / "CHANGELOG.md").read_text(), re.MULTILINE)[1]
    if not version == header == changes:
        fail(f"VERSION has {version}, gpu.h {header}, CHANGELOG.md {changes}")
    return version


def make(version):
    """Makes the release twice, and gives its archive, which is the same both times."""
    sums = []
    for _ in range(2):
        run(["make", "--no-print-directory", "release"])
        archive = RELEASES / f"gpu-{version}.tar.gz"
        sums.append(sum_of(archive))
    told = archive.with_name(archive.name + ".sha256").read_text()
    if sums[0] != sums[1] or told != f"{sums[0]}  {archive.name}\n":
        fail("two archives of the same sources differ, or the sum beside it is another")
    return archive


def check_sums(folder):
    """Every file is listed with its sum, no other is there, and none is a link."""
    listed = dict(reversed(line.split("  ", 1)) for line in (folder / "SHA256SUMS").read_text().splitlines())
    found = {str(path.relative_to(folder)): sum_of(path) for path in folder.rglob("*")
             if path.is_file() and path.name != "SHA256SUMS"}
    links = [path.name for path in folder.rglob("*") if path.is_symlink()]
    if links:
        fail(f"there are links, at which rt stops in the repository: {links}")
    if listed != found:
        fail(f"SHA256SUMS and the files differ: {sorted(set(listed.items()) ^ set(found.items()))[:4]}")


def use(folder, path):
    """The release from inside, with every command of the guide, typed with no prover at hand. It leaves nothing behind."""
    print(run([sys.executable, ROOT / "tests" / "guide_page.py", folder], path).strip() + ", from the release")
    run(["sha256sum", "--check", "--quiet", "SHA256SUMS"], path, folder)
    run(["./gpu", "table", "--quiet"], path, folder)
    check_sums(folder)


def flags(prefix, path):
    """What gpu.pc says to a compiler, read by pkg-config where there is one, and else by hand."""
    file = prefix / "lib" / "pkgconfig" / "gpu.pc"
    if shutil.which("pkg-config"):
        env = dict(OUTSIDE, PKG_CONFIG_PATH=str(file.parent))
        return run(["pkg-config", "--cflags", "--libs", "gpu"], env).split()
    text = file.read_text().replace("${pcfiledir}", str(file.parent))
    for name, value in re.findall(r"^(\w+)=(.*)$", text, re.MULTILINE):
        text = text.replace("${" + name + "}", value)
    return re.search(r"^Cflags: (.*)$", text, re.MULTILINE)[1].split() + re.search(r"^Libs: (.*)$", text, re.MULTILINE)[1].split()


def compile_against(prefix, path, folder, version):
    """A kiosk compiled against what was installed, with the shared library and with the archive."""
    source = prefix / "lib" / "gpu" / "examples" / "kiosk.c"
    found = flags(prefix, path)
    shared, static, told = folder / "shared", folder / "static", folder / "version"
    run(["gcc", "-std=c11", "-O2", source, *found, "-o", shared], path)
    run(["gcc", "-std=c11", "-O2", f"-I{prefix}/include", source, prefix / "lib" / "libgpu.a", "-o", static], path)
    needs = {program: "[libgpu.so.0]" in run(["readelf", "-d", program], path) for program in (shared, static)}
    if needs != {shared: True, static: False}:
        fail(f"libgpu.so.0 is needed by {needs}")
    image = folder / "ramp.bin"
    run([sys.executable, ROOT / "tools" / "image.py", ROOT / "examples" / "ramp.words", "-o", image])
    for program in (shared, static):
        if "answer 1 after 188 steps" not in run([program, image, "68"], path, folder):
            fail(f"{program.name} does not run the ramp")
    (folder / "version.c").write_text(VERSION_PROGRAM)
    run(["gcc", folder / "version.c", *found, "-o", told], path)
    if run([told], path).strip() != version:
        fail("GPU_VERSION of the installed header is another")


def install_and_remove(release, folder, plain, compiler, version):
    """Installs the release by its own script, uses it from another folder, and removes it without a rest."""
    prefix = folder / "prefix"
    env = dict(plain, PREFIX=str(prefix))
    run(["./install", "--remove"], env, release, status=2)
    run(["./install", "--nonsense"], env, release, status=2)
    run(["./install"], dict(env, PREFIX=str(release / "in")), release, status=2)
    # What is another's is neither overwritten nor taken away.
    (prefix / "bin").mkdir(parents=True)
    (prefix / "bin" / "gpu").write_text("another's")
    run(["./install"], env, release, status=2)
    (prefix / "bin" / "gpu").rename(prefix / "bin" / "other")
    run(["./install"], env, release)
    run(["./install"], env, release)  # over an earlier one
    note = prefix / "lib" / "gpu" / "note"
    note.write_text("mine")
    shutil.rmtree(release)
    card = run([prefix / "bin" / "gpu", "run", prefix / "lib" / "gpu" / "examples" / "ramp.words"], plain, folder)
    if "acc=0000087B" not in card:
        fail(f"the installed command prints\n{card}")
    compile_against(prefix, compiler, folder, version)
    (prefix / "lib" / "gpu" / "install").rename(folder / "install")
    run([folder / "install", "--remove"], env, folder)
    left = sorted(str(path.relative_to(prefix)) for path in prefix.rglob("*") if not path.is_dir())
    if left != ["bin/other", "lib/gpu/note"]:
        fail(f"removing leaves {left[:5]}")


def oldest_python(release, folder):
    """The command on the oldest Python that README.md names, where there is one."""
    oldest = re.search(r"python3 (3\.\d+) or later", (ROOT / "README.md").read_text())[1]
    found = shutil.which(f"python{oldest}")
    if found is None or subprocess.run([found, "--version"], stdout=subprocess.DEVNULL, stderr=subprocess.DEVNULL).returncode:
        print(f"release: SKIPPED: python{oldest} is not installed, so the command is not tried on it")
        return
    (folder / "t.csv").write_text('instruction,s,d,expect result\n"ADD R1,R2",1,2,3\n')
    for words in (["help"], ["run"], ["check"], ["show", "--trace", "3"], ["explain", "14"], ["kiosk"],
                  ["kiosk", "--log", folder / "log"], ["log", folder / "log"], ["table", folder / "t.csv", "--page", folder / "t.html"],
                  ["image", release / "examples" / "ramp.words", "-o", folder / "ramp.bin"]):
        run([found, "-B", release / "gpu", *words], cwd=folder)


def make_install(folder):
    """The same by make, into a place from which it would be moved."""
    words = ["PREFIX=/usr/local", f"DESTDIR={folder}/stage"]
    run(["make", "--no-print-directory", "install", *words])
    placed = folder / "stage" / "usr" / "local"
    if not (placed / "bin" / "gpu").exists() or os.path.isabs(os.readlink(placed / "bin" / "gpu")):
        fail("make install puts no command, or one that can not be moved")
    run(["make", "--no-print-directory", "uninstall", *words])
    if any(path.is_file() or path.is_symlink() for path in placed.rglob("*")):
        fail("make uninstall leaves files")


def main():
    version = check_version()
    if version.split(".")[0] != re.search(r"-soname,libgpu\.so\.(\d+)", (ROOT / "Makefile").read_text())[1]:
        fail("the soname's number is not the first of the version")
    archive = make(version)
    with tempfile.TemporaryDirectory() as name:
        folder = Path(name)
        with tarfile.open(archive) as tar:
            tar.extractall(folder)
        release = folder / f"gpu-{version}"
        check_sums(release)
        plain, compiler = commands(folder / "plain", PLAIN), commands(folder / "compiler", PLAIN + COMPILER)
        use(release, plain)
        oldest_python(release, folder)
        install_and_remove(release, folder, plain, compiler, version)
        make_install(folder)
    print(f"release: version {version} runs without prover and compiler, is installed, compiled against and removed")


if __name__ == "__main__":
    main()
