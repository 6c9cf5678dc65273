"""What is installed: the units, the gateway's example, the types, the unit tests, the length of the replica."""

import glob
import os
import re
import shutil

from gateway import EXAMPLE
from harness import PYTHON, TOP, check, equal, note, run

REPLICA = f"{TOP}/deploy/replica"
# The most lines of code of the replica: those that are neither blank, nor a comment, nor of a docstring. That it has no
# more than it has is looked at here, so that it stays something that can be read.
LINES = 1300


def unit_tests():
    status, _, faults = run(PYTHON, "-B", "-m", "unittest", "discover", f"{TOP}/tests/replica", seconds=400)
    found = re.search(r"Ran (\d+) tests", faults)
    check("the unit tests", status == 0 and found and int(found[1]) >= 95, faults[-600:])


def types(folder):
    """mypy over the replica and the tools, all of whose functions have types."""
    places = f"{folder}/types"
    os.makedirs(places)
    shutil.copytree(REPLICA, f"{places}/replica", ignore=shutil.ignore_patterns("__pycache__"))
    shutil.copy(f"{TOP}/deploy/logs.py", places)
    for it in ("trail", "recover", "purge-check"):
        shutil.copy(f"{TOP}/deploy/{it}", f"{places}/{it.replace('-', '_')}.py")
    files = [os.path.relpath(it, places) for it in glob.glob(f"{places}/*.py")]
    status, said, faults = run("sh", "-c", f"cd {places} && mypy --python-executable {PYTHON} --strict replica {' '.join(files)}",
                               surroundings={"MYPYPATH": places})
    check("mypy --strict", status == 0, said + faults)


def lengths():
    """The lines of the replica, and that each function says what it does."""
    import ast
    code = whole = 0
    for path in sorted(glob.glob(f"{REPLICA}/*.py")):
        with open(path, encoding="utf-8") as file:
            text = file.read()
        docs = set()
        for it in ast.walk(ast.parse(text)):
            if isinstance(it, (ast.Module, ast.ClassDef, ast.FunctionDef, ast.AsyncFunctionDef)):
                says = ast.get_docstring(it)
                if not says and not isinstance(it, ast.Module) and it.name != "__init__" or isinstance(it, ast.Module) and not says:
                    check(f"{os.path.basename(path)}: {getattr(it, 'name', 'the module')} says what it is", False)
                if says:
                    docs |= set(range(it.body[0].lineno, it.body[0].end_lineno + 1))
                if isinstance(it, (ast.FunctionDef, ast.AsyncFunctionDef)) and it.end_lineno - it.lineno > 40:
                    check(f"{os.path.basename(path)}: {it.name} is short", False, it.end_lineno - it.lineno)
        lines = text.splitlines()
        whole += len(lines)
        code += sum(1 for n, line in enumerate(lines, 1) if line.strip() and not line.strip().startswith("#") and n not in docs)
        check(f"{os.path.basename(path)}: lines of 120 characters at most", max(map(len, lines), default=0) <= 120)
    note(f"the replica has {code} lines of code, {whole} with blank lines, comments and docstrings")
    check(f"at most {LINES} lines of code", code <= LINES, code)


def units(folder):
    """The unit of a replica, with its example, in a root of its own."""
    root = f"{folder}/root"
    shutil.copytree("/usr/lib/systemd/system", f"{root}/usr/lib/systemd/system", symlinks=True)
    os.makedirs(f"{root}/etc/systemd/system")
    os.makedirs(f"{root}/usr/bin")
    for it in ("temolunai@.service", "temolunai-replica@.service"):
        shutil.copy(f"{TOP}/deploy/{it}", f"{root}/etc/systemd/system")
    drop_in = "temolunai-replica@a.service.d"
    shutil.copytree(f"{EXAMPLE}/{drop_in}", f"{root}/etc/systemd/system/{drop_in}")
    shutil.copy(shutil.which("true"), f"{root}/usr/bin/python3")
    status, _, faults = run("systemd-analyze", f"--root={root}", "verify", "temolunai-replica@a.service")
    ours = [line for line in faults.splitlines() if "temolunai" in line]
    equal("systemd-analyze verify", (0, []), (status, ours))
    status, said, faults = run("systemd-analyze", "security", "--no-pager", "--offline=true", "--threshold=15",
                               f"{TOP}/deploy/temolunai-replica@.service")
    check("systemd-analyze security", status == 0, said[-200:] + faults)


def words_are_taken():
    """The example's words are the replica's."""
    with open(f"{EXAMPLE}/temolunai-replica@a.service.d/words.conf", encoding="utf-8") as it:
        words = re.search(r'WORDS=(.*?)"', it.read(), re.DOTALL)[1].replace("\\\n", " ").replace("%d", "/nowhere").split()
    status, _, faults = run(PYTHON, "-B", "-m", "replica", "--folder", "/nowhere", *words, surroundings={"PYTHONPATH": f"{TOP}/deploy"})
    check("the example's words", status != 2 and "/nowhere" in faults, faults)


def gateway_is_taken(folder):
    """nginx takes the example of a gateway before replicas."""
    place = f"{folder}/example"
    shutil.copytree(f"{TOP}/deploy/example/temolunai", f"{place}/temolunai")
    for it in ("replicas.conf", "offices.conf", "again.conf"):
        shutil.copy(f"{EXAMPLE}/{it}", f"{place}/temolunai")
    with open(f"{place}/temolunai/channels.map", "w", encoding="ascii") as out:
        out.write("1 part_a;\n")
    for it in ("nginx.conf", "refusals.js"):
        shutil.copy(f"{TOP}/deploy/{it}", place)
    run("openssl", "req", "-x509", "-newkey", "rsa:2048", "-nodes", "-days", "2", "-subj", "/CN=x", "-keyout",
        f"{place}/temolunai/key.pem", "-out", f"{place}/temolunai/certificate.pem")
    for name in ("gateway", "ca"):
        shutil.copy(f"{place}/temolunai/certificate.pem", f"{place}/temolunai/{name}.pem")
        shutil.copy(f"{place}/temolunai/key.pem", f"{place}/temolunai/{name}.key")
    path = f"{place}/temolunai/server.conf"
    with open(path, encoding="utf-8") as it:
        text = it.read()
    with open(path, "w", encoding="utf-8") as out:
        out.write(text.replace("listen 443 ", "listen 127.0.0.1:44399 ").replace("/var/log/nginx", place))
    status, _, faults = run("nginx", "-t", "-p", place, "-c", f"{place}/nginx.conf", "-g", f"pid {place}/pid;")
    check("the example of a gateway", status == 0, faults)


def installed(folder):
    unit_tests()
    types(folder)
    lengths()
    units(folder)
    words_are_taken()
    gateway_is_taken(folder)
