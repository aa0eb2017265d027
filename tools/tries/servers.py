"""Real servers on loopback, each in a folder of its own, and a forwarder before them: for `adapters.py` and
`soaks.py`."""
import contextlib
import glob
import os
import pwd
import re
import shutil
import signal
import socket
import subprocess
import threading
import time

HOST = "127.0.0.1"
SECONDS = 60


def free_port():
    with socket.socket() as it:
        it.bind((HOST, 0))
        return it.getsockname()[1]


def within(seconds, holds):
    """Whether something holds before so much time is over."""
    end = time.monotonic() + seconds
    while not holds():
        if time.monotonic() > end:
            return False
        time.sleep(0.05)
    return True


class Server:
    """A server that counts. `total` is what it has counted, `connections` how many others than this script's are at it, and `names`
    its own names of all."""

    def __init__(self, folder):
        self.folder, self.port, self.process = folder, free_port(), None
        os.makedirs(folder)

    def start(self):
        log = open(os.path.join(self.folder, "log"), "a")
        self.process = subprocess.Popen(self.words(), cwd=self.folder, stdin=subprocess.DEVNULL, stdout=log, stderr=log, **self.how())
        log.close()
        if not within(SECONDS, self.is_up):
            raise RuntimeError(open(os.path.join(self.folder, "log"), errors="replace").read()[-2000:])
        return self

    def how(self):
        return {}

    def end(self, number=signal.SIGKILL):
        if self.process:
            with contextlib.suppress(OSError):
                self.process.send_signal(signal.SIGCONT)
                self.process.send_signal(number)
            self.process.wait()
            self.process = None

    def is_up(self):
        with contextlib.suppress(OSError, ValueError, RuntimeError):
            self.total()
            return True
        if self.process.poll() is not None:
            raise RuntimeError("the server has ended")
        return False


class Redis(Server):
    NAME, PACKAGE = "redis", "redis-server"

    @staticmethod
    def is_there():
        return shutil.which("redis-server") is not None

    def words(self):
        listens = ["--port", str(self.port), "--bind", HOST, "--unixsocket", self.path()]
        return ["redis-server", *listens, "--save", "", "--appendonly", "yes", "--appendfsync", "always"]

    def path(self):
        """Its socket of this machine."""
        return os.path.join(self.folder, "socket")

    def ask(self, *words):
        """The reply to a command, as bytes."""
        with socket.create_connection((HOST, self.port), 5) as it, it.makefile("rb") as replies:
            it.sendall("".join([f"*{len(words)}\r\n", *(f"${len(word)}\r\n{word}\r\n" for word in words)]).encode())
            line = replies.readline()
            if line[:1] == b"-" or not line:
                raise ValueError(line)
            return replies.read(int(line[1:])) if line[:1] == b"$" and line[1:2] != b"-" else line[1:].strip()

    def total(self):
        self.ask("PING")
        return sum(int(it) for it in (self.ask("GET", str(thread)) for thread in range(8)) if it != b"-1")

    def connections(self):
        return self.ask("CLIENT", "LIST", "TYPE", "normal").count(b"id=") - 1

    def names(self):
        return set(re.findall(rb"\bid=(\d+)", self.ask("CLIENT", "LIST", "TYPE", "normal")))

    def kill_connections(self):
        return int(self.ask("CLIENT", "KILL", "TYPE", "normal"))

    def crash(self):
        self.end()

    def is_left_open(self):
        return b"multi=-1" not in self.ask("CLIENT", "LIST") or b"multi=1" in self.ask("CLIENT", "LIST")


class FleetingRedis(Redis):
    """One that keeps nothing, and waits for no disk."""

    def words(self):
        return ["redis-server", "--port", str(self.port), "--bind", HOST, "--save", ""]


class Postgres(Server):
    NAME, PACKAGE = "postgres", "postgresql"
    USERS = {"trusted": "trust", "hashed": "md5", "salted": "scram-sha-256"}

    def __init__(self, folder, like=None):
        super().__init__(folder)
        self.data = os.path.join(folder, "data")
        # It refuses to run as root.
        self.user = {"user": "postgres", "group": "postgres", "extra_groups": []} if os.geteuid() == 0 else {}
        if self.user:
            os.chmod(os.path.dirname(folder), 0o711)
            shutil.chown(folder, "postgres", "postgres")
        if like:
            subprocess.run(["cp", "-a", like.data, self.data], check=True)
        else:
            self.make()

    def make(self):
        words = [self.program("initdb"), "-D", self.data, "-U", "postgres", "-A", "trust", "--no-sync", "--no-locale", "-E", "UTF8"]
        subprocess.run(words, cwd=self.folder, check=True, stdout=subprocess.DEVNULL, **self.user)
        with open(os.path.join(self.data, "pg_hba.conf"), "w") as it:
            it.write("".join(f"host all {user} {HOST}/32 {how}\n" for user, how in self.USERS.items()))
            it.write("".join(f"local all {user} {how}\n" for user, how in self.USERS.items()))
            it.write(f"host all postgres {HOST}/32 trust\n")

    @staticmethod
    def program(name):
        """A program of the newest version that is there."""
        found = sorted(glob.glob(f"/usr/lib/postgresql/*/bin/{name}"), key=lambda it: int(it.split("/")[4]))
        return found[-1] if found else shutil.which(name)

    @staticmethod
    def is_there():
        is_user = os.geteuid() != 0 or any(it.pw_name == "postgres" for it in pwd.getpwall())
        return is_user and all(Postgres.program(name) for name in ("initdb", "postgres", "psql"))

    def words(self):
        settings = ["listen_addresses=" + HOST, "unix_socket_directories=" + self.folder, "fsync=off", "max_connections=40"]
        return [self.program("postgres"), "-D", self.data, "-p", str(self.port), *(word for it in settings for word in ("-c", it))]

    def path(self):
        """Its socket of this machine."""
        return os.path.join(self.folder, f".s.PGSQL.{self.port}")

    def how(self):
        return self.user

    def words_of(self, query):
        return [self.program("psql"), "-h", HOST, "-p", str(self.port), "-U", "postgres", "-Atqc", query, "postgres"]

    def ask(self, query):
        done = subprocess.run(self.words_of(query), stdin=subprocess.DEVNULL, capture_output=True, text=True, timeout=SECONDS)
        if done.returncode:
            raise ValueError(done.stderr)
        return done.stdout.strip()

    def start(self):
        super().start()
        if self.ask("SELECT to_regclass('counts') IS NULL") == "t":
            self.ask("""CREATE TABLE counts (thread int PRIMARY KEY, n bigint);
                INSERT INTO counts SELECT thread, 0 FROM generate_series(0, 7) thread;
                CREATE ROLE trusted LOGIN; CREATE ROLE salted LOGIN PASSWORD 'kept';
                SET password_encryption = md5; CREATE ROLE hashed LOGIN PASSWORD 'kept';
                GRANT ALL ON counts TO trusted, hashed, salted""")
        return self

    def is_up(self):
        with contextlib.suppress(OSError, ValueError):
            return self.ask("SELECT 1") == "1"
        if self.process.poll() is not None:
            raise RuntimeError("the server has ended")
        return False

    def total(self):
        return int(self.ask("SELECT sum(n) FROM counts"))

    OTHERS = "FROM pg_stat_activity WHERE backend_type = 'client backend' AND pid <> pg_backend_pid()"

    def connections(self):
        return int(self.ask("SELECT count(*) " + self.OTHERS))

    def names(self):
        return set(self.ask("SELECT pid " + self.OTHERS).split())

    def kill_connections(self):
        return int(self.ask("SELECT count(pg_terminate_backend(pid)) " + self.OTHERS))

    def crash(self):
        # (at once: a server that is killed leaves its children, which hold its memory)
        self.end(signal.SIGQUIT)


class Forwarder:
    """A port of its own, behind which another server may stand: for new connections, as where a name has moved."""

    def __init__(self, port):
        self.target, self.socket = port, socket.create_server((HOST, 0))
        self.port = self.socket.getsockname()[1]
        threading.Thread(target=self.accept, daemon=True).start()

    def accept(self):
        with contextlib.suppress(OSError):
            while True:
                near, _ = self.socket.accept()
                try:
                    far = socket.create_connection((HOST, self.target), 5)
                    far.settimeout(None)
                except OSError:
                    near.close()
                    continue
                for one, other in ((near, far), (far, near)):
                    threading.Thread(target=self.pass_on, args=[one, other], daemon=True).start()

    @staticmethod
    def pass_on(one, other):
        with contextlib.suppress(OSError):
            while data := one.recv(65536):
                other.sendall(data)
        for it in (one, other):
            with contextlib.suppress(OSError):
                it.shutdown(socket.SHUT_RDWR)
            it.close()

    def close(self):
        self.socket.close()


class SlowForwarder(Forwarder):
    """One by which an opening takes a second: each connection stands still at first."""

    @staticmethod
    def pass_on(one, other):
        time.sleep(1)
        Forwarder.pass_on(one, other)
