#!/usr/bin/env python3
"""Makes hexd.wasm: the proved program hexd for a page in a browser.

    build.py [OUT]     OUT is web/out/hexd.wasm if it isn't named

It takes what a build or the gate has left in crates/: the libraries, proved, and the program. The program's module of
functions is caught when the toolchain hands it to clang. It is the program's: what clang and the linker make of it has to be
the built program, byte for byte. The same module is then compiled for WebAssembly with memories of 64 bits, by the same
clang, and linked with memory.c and system.c. The same sources and kit give the same bytes. README.md has what isn't proved.
"""

import re
import shutil
import subprocess
import sys
import tempfile
from pathlib import Path

HERE = Path(__file__).resolve().parent
ROOT = HERE.parent
CRATES = ROOT / "crates"
NAME = "hexd"
NATIVE, WEB = "x86_64-unknown-linux-gnu", "wasm64-unknown-unknown"

# How many processors a check takes; more gain little.
JOBS = "2"

# Of functions: what only the processor that the program is built for has.
ATTRIBUTES = re.compile(r' "(?:probe-stack|stack-probe-size|target-cpu|target-features|frame-pointer)"="[^"]*"')
# The words with which the toolchain compiles a module for this target.
FOR_WEB = """-mcpu=lime1 -mllvm -expand-div-rem-bits=64 -mllvm -expand-fp-convert-bits=64 -ffunction-sections -fdata-sections
-mllvm -trap-unreachable -mllvm -disable-machine-licm -mllvm -disable-postra-machine-licm -mllvm -sink-common-insts=false
--no-default-config -no-canonical-prefixes -fno-crash-diagnostics -Werror -O3""".split()
FOR_C = "-mcpu=lime1 -std=c23 -O3 -ffreestanding -nostdinc -ffunction-sections -Wall -Wextra -Werror".split()
# As much as Linux gives a program. It is first in memory, so that it can't grow into anything: a run that needs more traps.
STACK_BYTES = 8_388_608


class Refused(Exception):
    """Why there is no module."""


def run(*words, **how):
    """Runs a command, and gives what it wrote; what it says is shown if it fails."""
    ran = subprocess.run(words, stdin=subprocess.DEVNULL, stdout=subprocess.PIPE, stderr=subprocess.STDOUT, text=True, **how)
    if ran.returncode:
        raise Refused(f"{ran.stdout[-2000:]}{Path(words[0]).name} ended with status {ran.returncode}")
    return ran.stdout


def uses():
    """What each crate stands on, by crates.txt."""
    lines = re.findall(r"^([a-z]\w*)[^:]*:(.*)$", (ROOT / "crates.txt").read_text(), re.MULTILINE)
    return {name: names.split() for name, names in lines}


def below(name, uses):
    """The crates below one, without it."""
    found = {crate for it in uses[name] if it in uses for crate in [it, *below(it, uses)]}
    return [crate for crate in uses if crate in found]


def sources():
    """The files that the module is made of."""
    crates = uses()
    parts = [CRATES / crate / part for crate in [*below(NAME, crates), NAME] for part in ("src", "specs", "proofs")]
    return [ROOT / "crates.txt", *(file for part in parts for file in part.rglob("*") if file.is_file()),
            *(HERE / name for name in ("build.py", "clang", "memory.c", "system.c"))]


def rlib(crate):
    return CRATES / crate / "out" / "rlib" / f"{crate}.rlib"


def build_words(kit, toolchain, made):
    """The command that checks the program over the proved libraries and compiles it, as `rt run` has it."""
    crates = uses()
    words = ["build", "--crate-name", NAME, "src/main.rt", "-L", f"dependency={kit}/rlibs"]
    for crate in ["std", *crates[NAME]]:
        words += ["--extern", f"{crate}={rlib(crate) if crate in crates else f'{kit}/rlibs/{crate}.rlib'}"]
    for crate in below(NAME, crates):
        words += ["-L", f"dependency={rlib(crate).parent}"]
    words += ["--antt-project", f"{kit}/rattle/logic/antt-project.json", "--logic-built", f"{kit}/logic_built"]
    words += ["--incremental", "out/incremental", "--jobs", JOBS, "--links", f"{NAME}="]
    return [f"{kit}/bin/rattle", *words, "--toolchain", str(toolchain), "--backend", "llvm", "-o", str(made)]


def catch(kit, room):
    """Puts the program's module into room/bin/module.bc, and what the toolchain makes of it into room/native.o."""
    (room / "bin").mkdir()
    for part in [*(kit / "toolchain" / "bin").iterdir(), kit / "toolchain" / "lib"]:
        (room / part.relative_to(kit / "toolchain")).symlink_to(part)
    clang = room / "bin" / "clang"
    clang.rename(room / "bin" / "clang.kit")
    clang.write_bytes((HERE / "clang").read_bytes())
    clang.chmod(0o755)
    run(*build_words(kit, room, room / "native.o"), cwd=CRATES / NAME)


def compare(kit, room):
    """Refused if what was caught is not the built program."""
    words = ["--target", NATIVE, "--toolchain", kit / "toolchain", "-o", room / NAME, room / "native.o"]
    run(kit / "bin" / "rattle-link", *words, kit / "c" / "libos_c.a", kit / "c" / "liblibc_c.a")
    if (room / NAME).read_bytes() != (CRATES / NAME / "out" / NAME).read_bytes():
        raise Refused(
            f"the program that is made of the module is not crates/{NAME}/out/{NAME}: that one, or the libraries in "
            "crates/*/out/rlib, are of other sources; a build renews them"
        )


def retarget(clang, module):
    """The text of the module for the other target: types and code stay, which the two targets lay out alike."""
    as_text = ["-S", "-emit-llvm", "-o", "-"]
    text = run(clang, f"--target={NATIVE}", "-x", "ir", module, "-Xclang", "-disable-llvm-passes", *as_text)
    of_web = run(clang, f"--target={WEB}", "-x", "c", "/dev/null", *as_text)
    for name in ("target datalayout", "target triple"):
        line = re.compile(rf"^{name} = .*$", re.MULTILINE)
        text = line.sub(line.search(of_web)[0], text, count=1)
    return ATTRIBUTES.sub("", text)


def compile_program(kit, room):
    """The object of the program, in the room."""
    clang = kit / "toolchain" / "bin" / "clang"
    (room / "module.ll").write_text(retarget(clang, room / "bin" / "module.bc"))
    run(clang, f"--target={WEB}", *FOR_WEB, "-x", "ir", "-c", "module.ll", "-o", "program.o", cwd=room)
    return "program.o"


def compile_c(kit, room, name):
    """The object of a C file of this folder, in the room."""
    clang = kit / "toolchain" / "bin" / "clang"
    run(clang, f"--target={WEB}", *FOR_C, "-c", f"{name}.c", "-o", room / f"{name}.o", cwd=HERE)
    return f"{name}.o"


def link(kit, room, objects, made):
    """Links objects, as the toolchain does static libraries: with what it has of LLVM's own functions."""
    run(kit / "toolchain" / "bin" / "llvm-ar", "rcD", "library.a", *objects, cwd=room)
    words = ["--target", WEB, "--toolchain", kit / "toolchain", "--stack", str(STACK_BYTES)]
    run(kit / "bin" / "rattle-link", *words, "-o", made, room / "library.a")


def kit_of():
    """The folder of the toolchain."""
    if not shutil.which("rt"):
        raise Refused("there is no rt, the toolchain's command, on the path")
    return Path(run("rt", "doc").strip()).parent


def kit_said():
    """What the toolchain says that it is; nothing if there is none."""
    return run("rt", "version").split("\n")[0] if shutil.which("rt") else ""


def build(made):
    """Makes the module, or Refused."""
    kit = kit_of()
    if not (CRATES / NAME / "out" / NAME).exists():
        raise Refused(f"crates/{NAME}/out/{NAME} is not built: bin/{NAME} builds it")
    with tempfile.TemporaryDirectory(prefix="hexd-web-") as folder:
        room = Path(folder)
        catch(kit, room)
        compare(kit, room)
        objects = [compile_program(kit, room), compile_c(kit, room, "memory"), compile_c(kit, room, "system")]
        made.parent.mkdir(parents=True, exist_ok=True)
        link(kit, room, objects, made)


def main():
    made = Path(sys.argv[1]) if sys.argv[1:] else HERE / "out" / f"{NAME}.wasm"
    try:
        build(made.resolve())
    except (Refused, OSError) as fault:
        print(f"web/build.py: {fault}", file=sys.stderr)
        return 1
    return 0


if __name__ == "__main__":
    sys.exit(main())
