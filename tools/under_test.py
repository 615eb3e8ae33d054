"""The program that a tool asks: the one that HPF names, or else what ./hpf runs."""
import os
import shutil
import subprocess
import sys

TOP = os.path.dirname(os.path.dirname(os.path.realpath(__file__)))
PROVED = f"{TOP}/crates/hpf/out/hpf"


def stop(tool, why, status):
    print(f"{tool}: {why}", file=sys.stderr)
    sys.exit(status)


def named_program(tool, status):
    """The program that HPF names, or None."""
    named = os.environ.get("HPF")
    if not named:
        return None
    found = shutil.which(named)
    if not found:
        stop(tool, f"{named}, which HPF names, is no program", status)
    return os.path.realpath(found)


def find_program(tool, status=2):
    """The program that HPF names; else what ./hpf runs, which is built first where it isn't there; else hpf on the path, as beside an archive."""
    named = named_program(tool, status)
    if named:
        return named
    if os.path.exists(f"{TOP}/tools/built"):
        done = subprocess.run([f"{TOP}/tools/built"], stdout=subprocess.PIPE, encoding="utf-8", check=False)
        if done.returncode:
            sys.exit(status)
        return done.stdout.rstrip("\n")
    if os.access(f"{TOP}/hpf", os.X_OK):
        return f"{TOP}/hpf"
    found = shutil.which("hpf")
    return found or stop(tool, "no program hpf is found: name it by the environment variable HPF", status)


def find_proved(tool, status=2):
    """The program that HPF names, or else the one that ./prove has built: no other would do."""
    named = named_program(tool, status)
    if not named and not os.access(PROVED, os.X_OK):
        stop(tool, f"{PROVED} isn't there: ./prove builds it", status)
    return named or PROVED
