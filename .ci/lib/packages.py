"""Debian's packages that the scripts of .ci stand on. A script installs what is missing with the word --install alone, or
where INSTALL is set, as .ci/run sets it. No service that comes with a package is started.

    packages.py SCRIPT PROGRAM.. [--install]     for a script of bash: programs that have their packages' names
"""

import contextlib
import os
import shutil
import subprocess
import sys

# What keeps Debian from starting a service that it installs.
POLICY = "/usr/sbin/policy-rc.d"


def is_asked():
    """Whether something may be installed. The word is taken out."""
    if "--install" in sys.argv[1:]:
        sys.argv.remove("--install")
        os.environ["INSTALL"] = "1"
    return bool(os.environ.get("INSTALL"))


@contextlib.contextmanager
def no_services():
    has_policy = os.path.exists(POLICY)
    try:
        if not has_policy:
            with open(POLICY, "w", encoding="ascii") as out:
                out.write("#!/bin/sh\nexit 101\n")
            os.chmod(POLICY, 0o755)
        yield
    finally:
        if not has_policy and os.path.exists(POLICY):
            os.remove(POLICY)


def apt_get(*words):
    """What it said."""
    words = ["apt-get", "-o", "DPkg::Lock::Timeout=120", *words]
    surroundings = {**os.environ, "DEBIAN_FRONTEND": "noninteractive"}
    try:
        done = subprocess.run(words, env=surroundings, stdin=subprocess.DEVNULL, stdout=subprocess.PIPE,
                              stderr=subprocess.STDOUT, timeout=600, check=False)
    except (OSError, subprocess.TimeoutExpired) as fault:
        return repr(fault)
    return done.stdout.decode(errors="replace")


def install(script, missing):
    """Installs the packages that `missing` names, or ends the script with a line that says why not."""
    asked, wanted = is_asked(), sorted(missing())
    if not wanted:
        return
    names = " ".join(wanted)
    if not asked:
        sys.exit(f"{script}: not run: there is no {names} here; .ci/{script} --install installs it")
    if os.geteuid() != 0:
        sys.exit(f"{script}: not run: root alone can install {names}")
    print(f"{script}: installing {names}", flush=True)
    with no_services():
        apt_get("update")
        said = apt_get("install", "-y", "--no-install-recommends", *wanted)
    if missing():
        sys.exit(f"{script}: not run: {' '.join(sorted(missing()))} could not be installed: {said[-300:]}")


def absent(programs):
    """The packages of these programs that aren't here, by a table of programs, or of paths of files, and their packages."""
    return {package for it, package in programs.items() if not (shutil.which(it) or os.path.isabs(it) and os.path.exists(it))}


if __name__ == "__main__":
    is_asked()
    install(sys.argv[1], lambda: absent({it: it for it in sys.argv[2:]}))
