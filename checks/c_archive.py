"""Builds crates/dd/out/libdd.a over the libraries that `rt ci` has proved and left in the crates' out/ folders.

`rt lib` takes no library that it has not built itself, and would prove all of them once more. Where one of them is missing here, it is called.
"""
import os
import subprocess
import sys

TOP = os.path.dirname(os.path.dirname(os.path.abspath(__file__)))
NAME = "dd"


def uses():
    """What each crate uses, by crates.txt."""
    found = {}
    with open(f"{TOP}/crates.txt", encoding="utf-8") as lines:
        for line in lines:
            head, _, below = line.split("#")[0].partition(":")
            if head.split():
                found[head.split()[0]] = below.split()
    return found


def all_below(found, name, seen):
    """The libraries of the repository below a crate."""
    for below in found.get(name, []):
        if below in found and below not in seen:
            seen.append(below)
            all_below(found, below, seen)
    return seen


def library(found, kit, name):
    return f"{TOP}/crates/{name}/out/rlib/{name}.rlib" if name in found else f"{kit}/rlibs/{name}.rlib"


def main():
    found = uses()
    kit = os.path.dirname(subprocess.run(["rt", "doc"], capture_output=True, text=True, check=True).stdout.strip())
    below = all_below(found, NAME, [])
    folder = f"{TOP}/crates/{NAME}"
    if not all(os.path.exists(library(found, kit, name)) for name in below):
        return subprocess.call(["rt", "lib"], cwd=folder)
    words = [f"{kit}/bin/rattle", "build", "--crate-name", NAME, "src/lib.rt", "--crate-type", "staticlib"]
    for name in ["std", *found[NAME]]:
        words += ["--extern", f"{name}={library(found, kit, name)}"]
    for path in [f"{kit}/rlibs", *(os.path.dirname(library(found, kit, name)) for name in below)]:
        words += ["-L", f"dependency={path}"]
    words += ["--antt-project", f"{kit}/rattle/logic/antt-project.json", "--logic-built", f"{kit}/logic_built"]
    words += ["--toolchain", f"{kit}/toolchain", "-o", f"out/lib{NAME}.a"]
    os.makedirs(f"{folder}/out", exist_ok=True)
    ran = subprocess.run(words, cwd=folder, stdout=subprocess.PIPE, stderr=subprocess.STDOUT, text=True)
    print("\n".join(ran.stdout.splitlines()[-(1 if ran.returncode == 0 else 40):]))
    return ran.returncode


sys.exit(main())
