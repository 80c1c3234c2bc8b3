"""A PostgreSQL server that is started for a test, and can be stopped in it. It sorts texts by a language's rules, unlike SQLite."""

from __future__ import annotations

import os
import pathlib
import pwd
import shutil
import subprocess
import tempfile
from typing import Optional

SECONDS = 120


def program(name: str) -> Optional[str]:
    """Where a program of the newest PostgreSQL is, Debian's or that of the path."""
    found = sorted(pathlib.Path("/usr/lib/postgresql").glob(f"*/bin/{name}"), key=lambda path: int(path.parts[-3]))
    return str(found[-1]) if found else shutil.which(name)


def is_there() -> bool:
    """Whether a server can be started: PostgreSQL doesn't run as root, so that root needs its user."""
    if program("initdb") is None or program("pg_ctl") is None:
        return False
    try:
        return os.geteuid() != 0 or bool(pwd.getpwnam("postgres"))
    except KeyError:
        return False


class Cluster:
    """A server with its data in a folder, which is reached by a socket in that folder."""

    def __init__(self) -> None:
        self.folder = pathlib.Path(tempfile.mkdtemp(prefix="calmizsed-pg-"))
        self.address = f"postgresql+psycopg2://postgres@/postgres?host={self.folder}"
        if os.geteuid() == 0:
            user = pwd.getpwnam("postgres")
            os.chown(self.folder, user.pw_uid, user.pw_gid)
        order = "--locale=C.UTF-8", "--locale-provider=icu", "--icu-locale=en"
        self.run("initdb", "-D", f"{self.folder}/data", "-U", "postgres", "-A", "trust", "-E", "UTF8", *order, "-N")
        self.start()

    def run(self, name: str, *words: str) -> None:
        """Runs one of PostgreSQL's programs, as its user."""
        command = [str(program(name)), *words]
        if os.geteuid() == 0:
            command = ["runuser", "-u", "postgres", "--", *command]
        subprocess.run(
            command, check=True, cwd=self.folder, timeout=SECONDS, stdin=subprocess.DEVNULL, stdout=subprocess.DEVNULL,
            stderr=subprocess.DEVNULL)

    def create(self, name: str) -> str:
        """Makes a database, and gives its address."""
        self.run("createdb", "-h", str(self.folder), "-U", "postgres", name)
        return self.address.replace("/postgres?", f"/{name}?")

    def start(self) -> None:
        """Starts it."""
        options = f"-c listen_addresses='' -c unix_socket_directories={self.folder} -c max_connections=120"
        self.run("pg_ctl", "-D", f"{self.folder}/data", "-w", "-t", str(SECONDS), "-l", f"{self.folder}/log", "-o", options, "start")

    def stop(self, mode: str = "immediate") -> None:
        """Stops it: at once, as where the machine's power fails."""
        self.run("pg_ctl", "-D", f"{self.folder}/data", "-w", "-t", str(SECONDS), "-m", mode, "stop")

    def remove(self) -> None:
        """Stops it and removes its data."""
        try:
            self.stop()
        except subprocess.CalledProcessError:
            pass  # it is stopped
        shutil.rmtree(self.folder, ignore_errors=True)
