"""The tools that the real images need: of which packages they are, which are missing, and how they are installed.

A tool is a program on the path, but for the library of ntfs-3g, which is found by `volumes.library`.
"""
import os
import shutil

from volumes import library, run

LIBRARY = "libntfs-3g"
PACKAGES = {
    "ntfs-3g": ["mkntfs", "ntfscp", "ntfscat", "ntfsfix", "ntfsinfo", "ntfsls", LIBRARY],
    "sleuthkit": ["fls", "istat", "fsstat"],
}


def widen_path():
    """Puts /usr/sbin behind the path, where mkntfs is and where the paths of some users don't lead."""
    os.environ["PATH"] = os.pathsep.join([os.environ.get("PATH", os.defpath), "/usr/sbin"])


def has(tool):
    return library() is not None if tool == LIBRARY else shutil.which(tool) is not None


def missing():
    """{package: those of its tools that are missing}, of the packages that miss any."""
    lacks = {package: [tool for tool in tools if not has(tool)] for package, tools in PACKAGES.items()}
    return {package: tools for package, tools in lacks.items() if tools}


def in_ci():
    """Whether the environment variable CI is set."""
    return os.environ.get("CI", "") not in ("", "0", "false")


def install():
    """Tries to install the packages, as root or by sudo."""
    before = [] if os.geteuid() == 0 else ["sudo", "-n"]
    if not shutil.which("apt-get") or before and not shutil.which("sudo"):
        return
    get = ["timeout", "300", *before, "env", "DEBIAN_FRONTEND=noninteractive", "apt-get"]
    if run(*get, "install", "-y", *PACKAGES).returncode != 0:
        run(*get, "update")
        run(*get, "install", "-y", *PACKAGES)


def gathered(allowed):
    """The tools that are missing, after they were installed where that is allowed; prints what is installed and what is missing."""
    if allowed and missing():
        print(f"installing {' and '.join(missing())} by apt-get", flush=True)
        install()
    lacks = missing()
    if lacks:
        named = "; ".join(f"{', '.join(tools)} of the package {package}" for package, tools in lacks.items())
        why = f"apt-get can't install {' and '.join(lacks)}" if allowed else f"--install gets them, or `apt-get install {' '.join(lacks)}`"
        print(f"missing: {named} ({why})", flush=True)
    return [tool for tools in lacks.values() for tool in tools]
