"""A PostgreSQL server of the drill's own: its data, its socket and its log stand in one folder, and it ends with the drill."""

import ctypes
import os
import pwd
import shutil
import signal
import subprocess
import time
from pathlib import Path

from judge import Trouble

DATABASE, ROLE = "desk", "desk"
PR_SET_PDEATHSIG = 1
LIBC = ctypes.CDLL(None, use_errno=True)
RUNNING = []


def programs():
    """The folder of the newest server's programs, or None."""
    versions = [path for path in Path("/usr/lib/postgresql").glob("*/bin") if (path / "initdb").exists()]
    return max(versions, key=lambda path: float(path.parent.name), default=None)


# After a crash a server syncs its files one by one, some seconds long, or the whole file system at once.
QUICK_RECOVERY = {"recovery_init_sync_method": "syncfs"} if programs() and float(programs().parent.name) >= 14 else {}


def missing():
    """The Debian packages that are not there."""
    headers = any(Path(path).exists() for path in ("/usr/include/postgresql/libpq-fe.h", "/usr/include/libpq-fe.h"))
    return [name for name, there in (("postgresql", programs() and shutil.which("psql")), ("libpq-dev", headers)) if not there]


def owner():
    """Whose the servers are: initdb refuses root."""
    if os.getuid() != 0:
        return None
    names = {entry.pw_name for entry in pwd.getpwall()}
    return next((name for name in ("postgres", "nobody") if name in names), None)


def end_with_parent():
    """Run in the child: when the drill dies, however it dies, the server ends at once."""
    LIBC.prctl(PR_SET_PDEATHSIG, signal.SIGQUIT, 0, 0, 0)


def children(pid):
    """The processes that this one started."""
    found = []
    for stat in Path("/proc").glob("[0-9]*/stat"):
        try:
            if int(stat.read_text().rpartition(")")[2].split()[1]) == pid:
                found.append(int(stat.parent.name))
        except (OSError, IndexError, ValueError):
            pass
    return found


def end_all():
    """No server goes on behind its drill."""
    while RUNNING:
        RUNNING.pop().kill()


def wait_until(what, condition, seconds=30.0, pause=0.01):
    """What the condition gives as soon as it gives something."""
    end = time.monotonic() + seconds
    while True:
        found = condition()
        if found:
            return found
        if time.monotonic() > end:
            raise Trouble(f"waited {seconds:.0f} s for {what}")
        time.sleep(pause)


class Server:
    def __init__(self, folder, name):
        self.folder, self.name, self.process = Path(folder) / name, name, None
        self.data, self.log = self.folder / "data", self.folder / "log"
        self.user = owner()
        self.folder.mkdir()
        if self.user:
            shutil.chown(self.folder, self.user)

    def command(self, program, *args):
        done = subprocess.run([programs() / program, *map(str, args)], user=self.user, cwd=self.folder, text=True,
                              stdout=subprocess.PIPE, stderr=subprocess.STDOUT, env={"PATH": os.environ["PATH"], "LC_ALL": "C"})
        if done.returncode:
            raise Trouble(f"{program} failed: {done.stdout.strip()}")

    def make(self):
        """A new server with a role that is no superuser, and its database."""
        self.command("initdb", "-D", self.data, "-U", "postgres", "-A", "trust", "-E", "UTF8", "--no-sync")
        self.start()
        self.sql(f"CREATE ROLE {ROLE} LOGIN", database="postgres")
        self.sql(f"CREATE DATABASE {DATABASE} OWNER {ROLE}", database="postgres")

    def start(self, **settings):
        # Shared memory as files of its data folder: a server that is killed for good leaves none in /dev/shm.
        settings = {"unix_socket_directories": self.folder, "listen_addresses": "", "max_connections": 40, "shared_buffers": "32MB",
                    "dynamic_shared_memory_type": "mmap", **QUICK_RECOVERY, **settings}
        options = [part for name, value in settings.items() for part in ("-c", f"{name}={value}")]
        with open(self.log, "ab") as log:
            self.process = subprocess.Popen([programs() / "postgres", "-D", self.data, *options], user=self.user, cwd=self.folder,
                                            stdin=subprocess.DEVNULL, stdout=log, stderr=log, preexec_fn=end_with_parent)
        RUNNING.append(self)
        wait_until(f"the server {self.name}", self.answers)

    def answers(self):
        if self.process.poll() is not None:
            raise Trouble(f"the server {self.name} ended: {self.last_words()}")
        return subprocess.run([programs() / "pg_isready", "-q", "-h", self.folder], check=False).returncode == 0

    def last_words(self):
        return self.log.read_text(errors="replace").strip().rpartition("\n")[2]

    def connection(self, *others):
        """What `desk serve --pg` is given: this server, or the one of several that takes changes."""
        hosts = ",".join(str(server.folder) for server in (self, *others))
        return f"host={hosts} user={ROLE} dbname={DATABASE}" + (" target_session_attrs=read-write" if others else "")

    def sql(self, text, database=DATABASE):
        """The rows of a statement, as lines of text."""
        done = subprocess.run(["psql", "-XAtq", "-v", "ON_ERROR_STOP=1", "-h", self.folder, "-U", "postgres", "-d", database, "-c", text],
                              text=True, capture_output=True, check=False)
        if done.returncode:
            raise Trouble(f"{self.name}: {done.stderr.strip()}")
        return done.stdout.splitlines()

    def rows(self, site):
        """The journal of a site: each row's first, and its record."""
        lines = self.sql(f"COPY (SELECT first, encode(record, 'hex') FROM desk_journal WHERE site = '\\x{site.hex()}' "
                         "ORDER BY first) TO STDOUT")
        return [(int(first), bytes.fromhex(record)) for first, record in (line.split("\t") for line in lines)]

    def leader(self, site):
        """The server's process that has the lock of a site, or None."""
        key = int.from_bytes(site[:8], "big")
        pids = self.sql("SELECT pid FROM pg_locks WHERE locktype = 'advisory' AND granted "
                        f"AND classid::bigint = {key >> 32} AND objid::bigint = {key & 0xFFFFFFFF}")
        return int(pids[0]) if pids else None

    def standby(self, name):
        """A second server that repeats all that this one writes; this one's commits wait for it."""
        other = Server(self.folder.parent, name)
        self.command("pg_basebackup", "-h", self.folder, "-U", "postgres", "-D", other.data, "-c", "fast", "--no-sync",
                     "-R", "-d", f"application_name={name}")
        # The copy has this server's settings too. Whom it waits for when it is promoted is its own matter.
        with open(other.data / "postgresql.auto.conf", "a", encoding="utf-8") as settings:
            settings.write("synchronous_standby_names = ''\n")
        other.start()
        self.sql(f"ALTER SYSTEM SET synchronous_standby_names = '\"{name}\"'")
        self.sql("SELECT pg_reload_conf()")
        wait_until("the standby", lambda: self.sql("SELECT 1 FROM pg_stat_replication WHERE sync_state = 'sync'"))
        return other

    def promote(self):
        self.sql("SELECT pg_promote()")

    def stop(self):
        """An orderly end, or at once if that takes long."""
        if self.process and self.process.poll() is None:
            self.process.send_signal(signal.SIGINT)
            try:
                self.process.wait(10)
            except subprocess.TimeoutExpired:
                self.kill()

    def kill(self):
        """All processes of the server end at once, without a word."""
        self.processes(signal.SIGKILL)
        self.process.wait()

    def processes(self, number):
        """A signal for each process of the server."""
        for pid in (self.process.pid, *children(self.process.pid)) if self.process.poll() is None else ():
            try:
                os.kill(pid, number)
            except ProcessLookupError:
                pass

    def destroy(self):
        """The machine is gone: its processes, then its data, which nobody finds any more; `bury` clears the space, which takes long."""
        self.kill()
        self.data.rename(self.folder / "lost")

    def bury(self):
        shutil.rmtree(self.folder / "lost")
