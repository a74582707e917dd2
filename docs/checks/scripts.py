"""The scripts can be read by their shells and interpreters."""
import os
import shutil
import subprocess
from concurrent.futures import ThreadPoolExecutor
from pathlib import Path

from .shared import note, read


def scripts():
    """Every script passes `bash -n`, shellcheck, Python's reader, and `node --check`, where these are installed."""
    of_bash = []
    of_python = []
    for path in sorted(Path().rglob("*")):
        if {".git", "out", "node_modules"} & set(path.parts) or not path.is_file():
            continue
        head = first_line(path) if os.access(path, os.X_OK) else ""
        if path.suffix == ".sh" or head.startswith("#!") and "bash" in head:
            of_bash.append(path)
        elif path.suffix == ".py" or head.startswith("#!") and "python" in head:
            of_python.append(path)
    for path, fault in zip(of_bash, each(["bash", "-n"], of_bash)):
        if fault:
            yield f"{path}: bash -n finds a fault"
    for path in of_python:
        try:
            compile(read(path), path, "exec", dont_inherit=True)
        except SyntaxError as fault:
            yield f"{path}:{fault.lineno} is no Python: {fault.msg}"
    if shutil.which("shellcheck"):
        for text in each(["shellcheck", "-x", "-f", "gcc"], of_bash):
            yield from text.splitlines()
    else:
        note("shellcheck isn't installed, so the scripts aren't tried by it")
    if shutil.which("node"):
        modules = sorted(Path("page").glob("**/*.mjs"))
        for path, fault in zip(modules, each(["node", "--check"], modules)):
            if fault:
                yield f"{path}: node --check finds a fault"
    else:
        note("node isn't installed, so the modules of the page aren't read")


def first_line(path):
    """Returns the first line of a file that may be no text."""
    with open(path, "rb") as file:
        return file.readline(200).decode(errors="replace")


def each(command, paths):
    """Returns what the command prints of each file if it fails, and otherwise nothing. It runs once a file, on all processors."""
    def fault(path):
        ran = subprocess.run([*command, path], capture_output=True, text=True, check=False)
        return ran.stdout + ran.stderr if ran.returncode else ""
    with ThreadPoolExecutor(os.cpu_count()) as pool:
        return list(pool.map(fault, paths))
