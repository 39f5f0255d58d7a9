"""What is around the program: nginx, sshd, a line that can be cut, a disk that can be full, each in a folder of its own and on a port of 127.0.0.1. What bench/ops and bench/reach share."""
import getpass
import os
import shutil
import signal
import socket
import subprocess
import threading
import time

OPS = os.path.abspath(os.path.join(os.path.dirname(os.path.abspath(__file__)), "../ops"))


def found(name):
    """The program's path, also where only root's PATH has it, or None if it isn't installed."""
    return shutil.which(name, path=os.environ["PATH"] + ":/usr/sbin:/sbin")


def free_port():
    with socket.socket() as it:
        it.bind(("127.0.0.1", 0))
        return it.getsockname()[1]


def is_open(port):
    try:
        socket.create_connection(("127.0.0.1", port), timeout=5).close()
        return True
    except OSError:
        return False


def waits_for(is_so, seconds=60):
    """Waits until something is so; returns whether it is."""
    until = time.monotonic() + seconds
    while not (is_it := is_so()) and time.monotonic() < until:
        time.sleep(0.05)
    return is_it


def text_of(name):
    with open(os.path.join(OPS, name), encoding="utf-8") as it:
        return it.read()


def certificate(path, name):
    """Makes PATH.crt and PATH.key, signed by itself."""
    subprocess.run(["openssl", "req", "-x509", "-newkey", "rsa:2048", "-nodes", "-days", "2", "-subj", f"/CN={name}", "-keyout", f"{path}.key", "-out", f"{path}.crt"], check=True, capture_output=True)


def key(path):
    """Makes a pair of ssh keys; returns the public one."""
    subprocess.run(["ssh-keygen", "-q", "-t", "ed25519", "-N", "", "-C", "till", "-f", path], check=True)
    with open(f"{path}.pub") as it:
        return it.read().strip()


class Disk:
    """A folder with so much room: a tmpfs, or one whose files may not be longer."""

    def __init__(self, folder, size):
        self.folder, self.size = folder, size
        os.mkdir(folder)
        self.is_mounted = subprocess.run(["mount", "-t", "tmpfs", "-o", f"size={size}", "tmpfs", folder], stderr=subprocess.DEVNULL).returncode == 0
        self.limit = None if self.is_mounted else size

    def __enter__(self):
        return self

    def __exit__(self, *_):
        if self.is_mounted:
            subprocess.run(["umount", self.folder], check=True)


class Running:
    """A program that runs while this lasts, and has to listen at its port."""

    def __init__(self, words, port, **more):
        self.words, self.port, self.more = words, port, more

    def __enter__(self):
        self.program = subprocess.Popen(self.words, **self.more)
        if not waits_for(lambda: is_open(self.port)):
            self.__exit__()
            raise RuntimeError(f"{self.words[0]} doesn't listen")
        return self

    def __exit__(self, *_):
        self.program.send_signal(signal.SIGTERM)
        try:
            self.program.wait(timeout=10)
        except subprocess.TimeoutExpired:
            self.program.kill()
            self.program.wait()


def nginx(folder, program_port, port, has_tls=True):
    """nginx with ops/nginx.conf and a certificate of its own, or without TLS."""
    certificate(os.path.join(folder, "sakila"), "till.example")
    site = text_of("nginx.conf").replace("127.0.0.1:8080", f"127.0.0.1:{program_port}").replace("listen 8443 ssl", f"listen 127.0.0.1:{port}{' ssl' if has_tls else ''}")
    site = site.replace("/etc/nginx/sakila", f"{folder}/sakila").replace("/var/log/nginx/", f"{folder}/")
    paths = "".join(f"{kind}_temp_path {folder}/{kind};\n" for kind in ("client_body", "proxy", "fastcgi", "uwsgi", "scgi"))
    with open(os.path.join(folder, "nginx.conf"), "w") as to:
        to.write(f"daemon off;\nworker_processes 1;\npid {folder}/nginx.pid;\nerror_log {folder}/top.error.log;\nevents {{}}\nhttp {{\n{paths}{site}}}\n")
    return Running([found("nginx"), "-p", folder, "-c", os.path.join(folder, "nginx.conf"), "-e", f"{folder}/top.error.log"], port, stderr=subprocess.DEVNULL)


def sshd(folder, port, keys, block):
    """sshd for this user alone, with the keys' file and, if it is given, a text of ops/sshd.conf after it."""
    is_root = os.getuid() == 0
    if is_root:
        # Where Debian's unit of sshd has it made.
        os.makedirs("/run/sshd", mode=0o755, exist_ok=True)
    if not os.path.exists(f"{folder}/host"):
        key(f"{folder}/host")
    config = f"{folder}/sshd.{port}.conf"
    with open(config, "w") as to:
        to.write(f"""Port {port}
ListenAddress 127.0.0.1
HostKey {folder}/host
PidFile none
UsePAM {"yes" if is_root else "no"}
PermitRootLogin prohibit-password
StrictModes no
PasswordAuthentication no
KbdInteractiveAuthentication no
AuthorizedKeysFile {keys}
Subsystem sftp internal-sftp
{block}""")
    return Running([found("sshd"), "-D", "-e", "-f", config], port, stderr=open(f"{folder}/sshd.{port}.log", "w"))


def sshd_block(folder, loopback):
    """ops/sshd.conf with this user, its own keys and another port."""
    return text_of("sshd.conf").replace("Match User till", f"Match User {getpass.getuser()}").replace("/etc/sakila/", f"{folder}/").replace("127.0.0.1:8081", f"127.0.0.1:{loopback}")


def words_of(unit):
    """The words of a unit's ExecStart, and the seconds after which it is started again."""
    lines = dict(line.split("=", 1) for line in text_of(f"systemd/{unit}").splitlines() if "=" in line and not line.startswith("#"))
    return lines["ExecStart"].split(), float(lines.get("RestartSec", 0))


class Kept:
    """A program that is started again whenever it ends, as Restart=always does, while this lasts."""

    def __init__(self, words, seconds, log):
        self.words, self.seconds, self.log, self.starts, self.ends = words, seconds, log, 0, threading.Event()

    def __enter__(self):
        self.thread = threading.Thread(target=self.keeps, daemon=True)
        self.thread.start()
        return self

    def keeps(self):
        with open(self.log, "a") as log:
            while not self.ends.is_set():
                self.program = subprocess.Popen(self.words, stdin=subprocess.DEVNULL, stdout=log, stderr=log)
                self.starts += 1
                self.program.wait()
                self.ends.wait(self.seconds)

    def __exit__(self, *_):
        self.ends.set()
        self.program.terminate()
        self.thread.join(timeout=30)


class Line:
    """A line to a port: it passes bytes, or passes none while it stays open (`stalls`), or ends at once (`cuts`), until it heals."""

    def __init__(self, to):
        self.to, self.is_cut, self.is_stalled, self.open = to, False, False, []
        self.listener = socket.create_server(("127.0.0.1", 0))
        self.port = self.listener.getsockname()[1]
        threading.Thread(target=self.accepts, daemon=True).start()

    def accepts(self):
        while True:
            try:
                near, _ = self.listener.accept()
            except OSError:
                return
            if self.is_cut or self.is_stalled:
                near.close()
                continue
            far = socket.create_connection(("127.0.0.1", self.to))
            self.open += [near, far]
            for source, sink in ((near, far), (far, near)):
                threading.Thread(target=self.passes, args=(source, sink), daemon=True).start()

    def passes(self, source, sink):
        try:
            while piece := source.recv(65536):
                while self.is_stalled:
                    time.sleep(0.05)
                sink.sendall(piece)
        except OSError:
            pass
        for it in (source, sink):
            try:
                it.shutdown(socket.SHUT_RDWR)
            except OSError:
                pass

    def stalls(self):
        self.is_stalled = True

    def cuts(self):
        self.is_cut = True
        for it in self.open:
            try:
                it.shutdown(socket.SHUT_RDWR)
            except OSError:
                pass
        self.open.clear()

    def heals(self):
        self.is_cut = self.is_stalled = False

    def __enter__(self):
        return self

    def __exit__(self, *_):
        self.cuts()
        self.listener.close()
