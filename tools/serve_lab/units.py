#!/usr/bin/env python3
"""Tries the Debian package in a booted system, as an administrator would. tools/try_deb calls it:

    tools/serve_lab/units.py PACKAGE NEWER SYSTEM

NEWER is the same package with a higher version, SYSTEM the folder of a Debian system with systemd, in which the package isn't
installed. Needs root, systemd-nspawn and nsenter. The system has a network of its own, which this process enters. Where c-icap,
its module virus_scan (libc-icap-mod-virus-scan) and clamav-daemon are installed in SYSTEM, a virus is sent down and up; where
Prometheus is, it scrapes the key `metrics`. What is left out is named.
"""
import ctypes
import json
import os
import random
import re
import socket
import subprocess
import sys
import tempfile
import threading
import time
import urllib.request

sys.dont_write_bytecode = True
sys.path.insert(0, os.path.dirname(os.path.dirname(os.path.abspath(__file__))))
from serve_lab.loopback import Answer, Origin, User, body_of  # noqa: E402

PATIENCE = 60.0
CONFIGURATION = "/etc/adaptproxy/proxy.toml"
LOG = "/var/log/adaptproxy/access.log"
NEW_NETWORK = 0x40000000


def same(what, found, wanted):
    if found != wanted:
        raise SystemExit("WRONG: %s: found %r, wanted %r" % (what, found, wanted))


def until(what, holds):
    """Waits until it holds: the seconds that it took."""
    begun = time.time()
    while not holds():
        if time.time() - begun > PATIENCE:
            raise SystemExit("WRONG: waited in vain: " + what)
        time.sleep(0.1)
    return time.time() - begun


# The signature of one virus, in clamd's own form: a text that harms nobody.
EICAR = b"X5O!P%@AP[4\\PZX54(P^)7CC)7}$EICAR-" + b"STANDARD-ANTIVIRUS-TEST-FILE!$H+H*"
SIGNATURES = "Eicar-Test-Signature:0:0:%s\n" % EICAR.hex()
CLAMD = "[Unit]\nConditionPathExistsGlob=\n"
PROMETHEUS = '''global: {scrape_interval: 1s}
scrape_configs: [{job_name: adaptproxy, static_configs: [{targets: ['127.0.0.1:9129']}]}]
'''


class Files(Origin):
    """An origin that has a virus too."""

    def respond(self, conn, method, words, body):
        if words[0] == "eicar":
            self.put(conn, 200, EICAR)
        else:
            super().respond(conn, method, words, body)


class System:
    """A booted system; this process is in its network."""

    def __init__(self, folder):
        self.folder = folder
        os.makedirs("/run/systemd/nspawn", exist_ok=True)
        self.log = tempfile.NamedTemporaryFile()
        self.process = subprocess.Popen(
            ["unshare", "-m", "systemd-nspawn", "--quiet", "-D", folder, "-b", "--register=no", "--keep-unit", "--private-network"],
            stdin=subprocess.DEVNULL, stdout=self.log, stderr=self.log)
        until("a system that boots", self.leads)
        until("a system that is up", lambda: self.run("systemctl", "is-system-running")[1].strip() in ("running", "degraded"))
        with open("/proc/%s/ns/net" % self.leader) as network:
            if ctypes.CDLL(None, use_errno=True).setns(network.fileno(), NEW_NETWORK):
                raise OSError(ctypes.get_errno(), "setns")

    def leads(self):
        """Whether the system's first process is there."""
        found = subprocess.run(["pgrep", "-P", str(self.process.pid)], stdout=subprocess.PIPE, text=True).stdout.split()
        self.leader = found[0] if found else None
        return self.leader is not None

    def run(self, *words, text=None):
        """The status and what a command says."""
        ended = subprocess.run(["nsenter", "-t", self.leader, "-m", "-u", "-i", "-n", "-p", "-C", "--", *words], input=text,
                               stdout=subprocess.PIPE, stderr=subprocess.STDOUT, text=True, timeout=PATIENCE * 3)
        return ended.returncode, ended.stdout

    def does(self, *words):
        status, text = self.run(*words)
        if status:
            raise SystemExit("WRONG: %s: status %d: %s" % (" ".join(words), status, text))
        return text

    def shell(self, text):
        return self.does("sh", "-ec", text)

    def path(self, path):
        return self.folder + path

    def main(self, unit="adaptproxy"):
        """The unit's process."""
        return self.does("systemctl", "show", "-p", "MainPID", "--value", unit).strip()

    def journal(self, unit="adaptproxy"):
        return self.does("journalctl", "-b", "-u", unit, "--no-pager", "-o", "cat")

    def has(self, *paths):
        return all(os.path.exists(self.path(path)) for path in paths)

    def asks(self, path, text):
        """What a socket of the system answers."""
        with socket.socket(socket.AF_UNIX) as sock:
            try:
                sock.connect("/proc/%s/root%s" % (self.leader, path))
                sock.sendall(text)
                return sock.recv(4096).decode()
            except OSError:
                return ""

    def write(self, path, text):
        os.makedirs(os.path.dirname(self.path(path)), exist_ok=True)
        with open(self.path(path), "w") as file:
            file.write(text)

    def edit(self, path, old, new):
        with open(self.path(path)) as file:
            text = file.read()
        if old not in text:
            raise SystemExit("WRONG: %s has no %r" % (path, old))
        with open(self.path(path), "w") as file:
            file.write(text.replace(old, new))

    def end(self):
        self.run("systemctl", "poweroff", "--force")
        try:
            self.process.wait(PATIENCE)
        except subprocess.TimeoutExpired:
            self.process.kill()


class Load:
    """Users that ask several times on a connection, with pauses, and come again. What went wrong stands in `errors`."""

    def __init__(self, count):
        self.ends = threading.Event()
        self.lock = threading.Lock()
        self.errors, self.times = [], []
        self.threads = [threading.Thread(target=self.user, args=(number,), daemon=True) for number in range(count)]
        for thread in self.threads:
            thread.start()

    def user(self, number):
        dice = random.Random(number)
        while not self.ends.is_set():
            try:
                self.visit(dice)
            except Exception as error:  # noqa: BLE001
                with self.lock:
                    self.errors.append("user %d: %s: %s" % (number, type(error).__name__, str(error)[:200]))

    def visit(self, dice):
        begun = time.time()
        user = User(3128)
        try:
            for _ in range(dice.randint(1, 40)):
                size = dice.choice([10, 1000, 20000])
                user.send(b"GET http://o.test/bytes/%d HTTP/1.1\r\nHost: o.test\r\n\r\n" % size)
                answer = Answer(user.reader)
                if answer.status != 200 or answer.body != body_of(size).upper():
                    raise ValueError("%s, %d bytes of %d" % (answer.fields[""], len(answer.body), size))
                with self.lock:
                    self.times.append(time.time() - begun)
                if answer.fields.get("connection") == "close" or self.ends.is_set():
                    return
                time.sleep(dice.random() * 0.03)
                begun = time.time()
        finally:
            user.close()

    def end(self):
        self.ends.set()
        for thread in self.threads:
            thread.join(PATIENCE)


def asks(port=3128, host=b"o.test"):
    """Whether a page comes, in capitals."""
    try:
        user = User(port)
        answer = user.ask(b"GET http://%s/bytes/100 HTTP/1.1\r\nHost: x\r\n\r\n" % host)
        user.close()
    except OSError:
        return False
    return answer.status == 200 and answer.body == body_of(100).upper()


def units_start(system, package, origin):
    system.does("dpkg", "--install", package)
    same("a unit that is enabled", system.run("systemctl", "is-enabled", "adaptproxy")[1], "disabled\n")
    system.edit(CONFIGURATION, '"o.test" = "127.0.0.1:8000"', '"o.test" = "127.0.0.1:%d"' % origin.port)
    system.edit(CONFIGURATION, 'denied = ["127.0.0.0/8", ', 'denied = [')  # The origin is on the loopback.
    system.does("systemctl", "start", "icapd", "adaptproxy")
    until("a page", asks)
    return "the units start, and a page comes"


def logs_are_private(system):
    same("modes", system.shell("stat -c '%a %U' /var/log/adaptproxy " + LOG), "750 adaptproxy\n640 adaptproxy\n")
    until("a line", lambda: "http://o.test/bytes/100" in system.does("cat", LOG))
    same("another account", system.run("setpriv", "--reuid=nobody", "--regid=nogroup", "--clear-groups", "cat", LOG)[0], 1)
    return "the installed configuration logs, and no other account reads it"


def units_are_confined(system):
    for unit in ("adaptproxy", "icapd"):
        found = re.search(r"level for \S+: ([0-9.]+)", system.run("systemd-analyze", "security", "--no-pager", unit)[1])
        same("exposure of " + unit, float(found.group(1)) <= 1.2, True)
    return "systemd-analyze security gives both units at most 1.2"


def a_faulty_configuration_changes_nothing(system, origin):
    process = system.main()
    system.edit(CONFIGURATION, "shards = 2", "shards = 0")
    status, _text = system.run("systemctl", "reload", "adaptproxy")
    same("a reload that fails", (status, "config shards" in system.journal()), (1, True))
    same("the proxy as it was", (system.main(), asks()), (process, True))
    # A restart goes on with the configuration that ran, and says so; a start from nothing has none.
    before = audits(system)
    system.does("systemctl", "restart", "adaptproxy")
    same("a restart that finds a fault", (system.main() != process, asks(), audits(system)), (True, True, before + 1))
    same("what it says", "the configuration before this one goes on" in system.journal(), True)
    # Once the file is sound, a reload takes it, though the proxy was started with the copy.
    system.edit(CONFIGURATION, "shards = 0", "shards = 2")
    system.edit(CONFIGURATION, "[hosts]\n", '[hosts]\n"p.test" = "127.0.0.1:%d"\n' % origin.port)
    same("before", asks(host=b"p.test"), False)
    reloads(system)
    same("after", asks(host=b"p.test"), True)
    system.edit(CONFIGURATION, "shards = 2", "shards = 0")
    system.does("systemctl", "stop", "adaptproxy")
    same("a start that finds one", system.run("systemctl", "start", "adaptproxy")[0], 1)
    system.run("systemctl", "stop", "adaptproxy")
    system.edit(CONFIGURATION, "shards = 0", "shards = 2")
    system.does("systemctl", "start", "adaptproxy")
    system.edit(CONFIGURATION, "shards = 2", "shards = 0")
    until("a page", asks)
    before, old = audits(system), 0
    for count, shards in enumerate((3, 4, 5, 3)):
        system.edit(CONFIGURATION, "shards = %d" % old, "shards = %d" % shards)
        status, _text = system.run("systemctl", "reload", "adaptproxy")
        same("a key that needs a start", (status, "restart shards" in system.journal(), audits(system)), (1, True, before + count))
        restarts(system)
        same("its audit, and a page", (audits(system), asks()), (before + count + 1, True))
        old = shards
    return "a reload refuses a faulty configuration, a restart goes on with the one before, and a reload takes a sound one"


def a_reload_is_not_seen(system, origin):
    """Names, pages and a deadline that change under load, in one process; a stop finds its port afterwards."""
    load, process = Load(40), system.main()
    for number in range(10):
        system.write("/etc/adaptproxy/hosts", "127.0.0.1 q%d.test\n" % number)
        if number == 0:
            system.edit(CONFIGURATION, "# hosts_file = ", "hosts_file = ")
        system.edit(CONFIGURATION, "\ndeadline = %d" % (60 + number), "\ndeadline = %d" % (61 + number))
        reloads(system)
        same("a name of the file", asks(host=b"q%d.test:%d" % (number, origin.port)), True)
        time.sleep(0.2)
    load.end()
    same("errors, and the process", (load.errors, system.main()), ([], process))
    system.edit(CONFIGURATION, "\nhosts_file = ", "\n# hosts_file = ")
    os.remove(system.path("/etc/adaptproxy/hosts"))
    reloads(system)
    same("no name of the file any more", asks(host=b"q9.test:%d" % origin.port), False)
    return "ten reloads under load: %d answers, no error, the slowest in %.2f s" % (len(load.times), max(load.times))


def reloads(system):
    """Has the process take the configuration: it goes on."""
    process = system.main()
    system.does("systemctl", "reload", "adaptproxy")
    same("the process", system.main(), process)


def restarts(system):
    """Has another process take the configuration."""
    process = system.main()
    system.does("systemctl", "restart", "adaptproxy")
    same("another process", system.main() not in (process, "0"), True)


def audits(system):
    """How many proxies have ended with an audit."""
    return system.journal().count("audit rows 0 held 0 leased 0")


def a_stop_finds_its_port(system):
    """Also where the file has a fault, or names another port, by then."""
    before = audits(system)
    system.edit(CONFIGURATION, "shards = 3", "shards = 0")
    system.does("systemctl", "stop", "adaptproxy")
    same("an audit", audits(system), before + 1)
    same("a start that fails", system.run("systemctl", "start", "adaptproxy")[0], 1)
    system.does("systemctl", "stop", "adaptproxy")
    system.edit(CONFIGURATION, "shards = 0", "shards = 2")
    system.does("systemctl", "start", "adaptproxy")
    until("a page", asks)
    return "a stop drains, also where the file has a fault by then; a start says the fault"


def instances_have_their_own_files(system):
    """A start of one is done once it serves, and fails where its admin port is another process's."""
    with open(system.path(CONFIGURATION)) as file:
        text = file.read()
    system.write("/etc/adaptproxy/next.toml", text.replace("127.0.0.1:3128", "127.0.0.1:3140").replace("127.0.0.1:3129", "127.0.0.1:3141"))
    system.write("/etc/adaptproxy/taken.toml", text.replace("127.0.0.1:3128", "127.0.0.1:3142"))
    system.does("systemctl", "start", "adaptproxy@next")
    same("a page", (asks(3140), asks()), (True, True))
    system.does("systemctl", "stop", "adaptproxy@next")
    same("an audit", "audit rows 0 held 0 leased 0" in system.journal("adaptproxy@next"), True)
    same("a port that is taken", system.run("systemctl", "start", "adaptproxy@taken")[0], 1)
    system.does("systemctl", "stop", "adaptproxy@taken")
    for name in ("next", "taken"):
        os.remove(system.path("/etc/adaptproxy/%s.toml" % name))
    return "an instance of the template serves by its own file; its start fails where its admin port is taken"


def a_second_process_takes_the_place(system):
    """By the lines of docs/RUNNING.md: an instance listens on the users' port too before the first one is drained, and back again."""
    with open(system.path(CONFIGURATION)) as file:
        system.write("/etc/adaptproxy/next.toml", file.read().replace("127.0.0.1:3129", "127.0.0.1:3130"))
    both = [("adaptproxy", CONFIGURATION), ("adaptproxy@next", "/etc/adaptproxy/next.toml")]
    load = Load(40)
    time.sleep(1)
    for (old, path), (new, _) in (both, both[::-1], both, both[::-1]):
        system.shell("systemctl start %s; adaptproxy tell --config %s drain" % (new, path))
        until("the end of " + old, lambda: system.main(old) == "0")
        same("the other one", system.run("systemctl", "is-active", new)[1], "active\n")
    load.end()
    same("errors", load.errors, [])
    os.remove(system.path("/etc/adaptproxy/next.toml"))
    return "a second process takes the place of the first, four times under load: %d answers, no error, the slowest in %.2f s" % (
        len(load.times), max(load.times))


def rotation_is_loud(system):
    rotate = ("logrotate", "--force", "/etc/logrotate.d/adaptproxy")
    system.does(*rotate)
    same("a page", asks(), True)
    until("a line in the new file", lambda: os.path.getsize(system.path(LOG)) > 0)
    system.does("systemctl", "stop", "adaptproxy")
    same("a rotation that nobody took", system.run(*rotate)[0], 1)
    system.does("systemctl", "start", "adaptproxy")
    until("a page", asks)
    return "logrotate has the log opened anew, and ends with an error where nobody does so"


def an_upgrade_is_not_seen(system, newer):
    system.does("systemctl", "stop", "adaptproxy")
    system.does("systemctl", "start", "adaptproxy.socket", "adaptproxy.service")
    until("a page", asks)
    process, service = system.main(), system.main("icapd")
    load = Load(40)
    time.sleep(3)
    system.does("dpkg", "--install", newer)
    until("new processes", lambda: system.main() not in (process, "0") and system.main("icapd") not in (service, "0"))
    time.sleep(2)
    for renews in (lambda: system.does("systemctl", "restart", "adaptproxy"), lambda: reloads(system)) * 2:
        renews()
        time.sleep(0.5)
    load.end()
    same("errors", load.errors, [])
    same("the proxy drains before icapd stops, and starts after it", " ".join(
        "Stopped adaptproxy, Stopping icapd, Stopped icapd, Started icapd, Started adaptproxy".split(", ")) in " ".join(events(system)), True)
    return "an upgrade, two restarts and two reloads under load: %d answers, no error, the slowest in %.2f s" % (len(load.times), max(load.times))


def an_upgrade_finds_a_fault(system, package):
    """Also where another program is to be started: all go on as they run."""
    processes = [system.main(unit) for unit in ("adaptproxy", "icapd")]
    system.edit(CONFIGURATION, "shards = 2", "shards = 0")
    said = system.does("dpkg", "--install", package)
    same("what the package says", "proxy.toml has a fault: the services go on with the old programs" in said, True)
    same("the processes, and a page", ([system.main(unit) for unit in ("adaptproxy", "icapd")], asks()), (processes, True))
    system.edit(CONFIGURATION, "shards = 0", "shards = 2")
    restarts(system)
    until("a page", asks)
    return "an upgrade where a configuration has a fault leaves the old programs running"


def events(system):
    """What systemd did with both units, as `Stopped icapd`."""
    lines = system.does("journalctl", "-b", "-u", "adaptproxy", "-u", "icapd", "--no-pager", "-o", "cat").splitlines()
    found = [re.match(r"(Stopping|Stopped|Started) (icapd|adaptproxy)\.service", line) for line in lines]
    return [" ".join(it.groups()) for it in found if it]


def a_virus_is_blocked(system):
    if not system.has("/usr/bin/c-icap", "/usr/sbin/clamd", "/etc/c-icap/virus_scan.conf"):
        return "left out: a virus: SYSTEM has no c-icap, virus_scan or clamd"
    system.write("/var/lib/clamav/eicar.ndb", SIGNATURES)
    system.write("/etc/systemd/system/clamav-daemon.service.d/condition.conf", CLAMD)
    system.shell("cd /etc/c-icap; for it in clamd_mod virus_scan; do "
                 "grep -qx \"Include $it.conf\" c-icap.conf || echo \"Include $it.conf\" >> c-icap.conf; done; "
                 "systemctl daemon-reload; systemctl stop icapd c-icap; systemctl restart clamav-daemon")
    # c-icap looks for clamd once, when it starts. Any of these may have been started at the boot.
    until("clamd", lambda: "PONG" in system.asks("/run/clamav/clamd.ctl", b"PING\n"))
    system.does("systemctl", "start", "c-icap")
    with open(system.path(CONFIGURATION)) as file:
        by_icapd = file.read()
    for path in ("/reqmod/stamp", "/respmod/upper"):
        system.edit(CONFIGURATION, path, "/virus_scan")
    restarts(system)

    def get(path, method=b"GET", body=b""):
        try:
            user = User(3128)
            answer = user.ask(b"%s http://o.test/%s HTTP/1.1\r\nHost: o.test\r\nContent-Length: %d\r\n\r\n" % (method, path, len(body)) + body)
            user.close()
        except OSError:
            return 0, b""
        return answer.status, answer.body
    until("a page by c-icap", lambda: get(b"bytes/100") == (200, body_of(100)))
    for what, found in (("down", get(b"eicar")), ("up", get(b"echo", b"POST", EICAR))):
        same("a virus " + what, (found[0], b"VIRUS FOUND" in found[1].upper()), (403, True))
    same("a clean upload", get(b"echo", b"POST", body_of(3000)), (200, body_of(3000)))
    until("its line", lambda: "/eicar" in system.does("cat", LOG))
    line = [line for line in system.does("cat", LOG).splitlines() if "/eicar" in line][-1]
    same("what was found", " found=Eicar-Test-Signature" in line, True)
    system.write(CONFIGURATION, by_icapd)
    system.shell("systemctl stop c-icap clamav-daemon; systemctl start icapd")
    restarts(system)
    until("a page by icapd", asks)
    return "a virus is blocked with a page of c-icap's, down and up: " + line.split(" ", 3)[3]


def prometheus_scrapes(system):
    if not system.has("/usr/bin/prometheus"):
        return "left out: Prometheus: SYSTEM has none"
    system.edit(CONFIGURATION, "# metrics = ", "metrics = ")
    restarts(system)
    system.write("/etc/prometheus/prometheus.yml", PROMETHEUS)
    system.does("systemctl", "restart", "prometheus")

    def value(series):
        try:
            with urllib.request.urlopen("http://127.0.0.1:9090/api/v1/query?query=" + series, timeout=5) as page:
                found = json.load(page)["data"]["result"]
        except OSError:
            return None
        return float(found[0]["value"][1]) if found else None
    until("a scrape", lambda: value("up") == 1)
    until("a count", lambda: asks() and (value("adaptproxy_requests_total") or 0) > 0)
    system.does("systemctl", "stop", "prometheus")
    return "Prometheus scrapes the key `metrics`"


def nothing_is_left(system):
    system.does("dpkg", "--purge", "adaptproxy")
    same("what is left", [path for path in ("/var/log/adaptproxy", "/etc/adaptproxy", "/run/adaptproxy") if os.path.exists(system.path(path))], [])
    same("a process", system.run("pgrep", "-x", "adaptproxy|icapd")[0], 1)
    return "a purge stops all, and leaves no log"


def main():
    package, newer, folder = sys.argv[1:]
    system = System(folder)
    try:
        for file in (package, newer):
            subprocess.run(["cp", file, system.path("/root/")], check=True)
        inside = ["/root/" + os.path.basename(file) for file in (package, newer)]
        origin = Files()
        for case in (lambda: units_start(system, inside[0], origin), lambda: logs_are_private(system),
                     lambda: units_are_confined(system), lambda: a_faulty_configuration_changes_nothing(system, origin),
                     lambda: a_reload_is_not_seen(system, origin), lambda: a_stop_finds_its_port(system), lambda: instances_have_their_own_files(system),
                     lambda: a_second_process_takes_the_place(system), lambda: rotation_is_loud(system),
                     lambda: a_virus_is_blocked(system), lambda: prometheus_scrapes(system),
                     lambda: an_upgrade_is_not_seen(system, inside[1]), lambda: an_upgrade_finds_a_fault(system, inside[0]),
                     lambda: nothing_is_left(system)):
            said = case()
            print(said if said.startswith("left out") else "ok    " + said, flush=True)
    finally:
        # Also where a case failed.
        system.run("dpkg", "--purge", "adaptproxy")
        system.end()


if __name__ == "__main__":
    main()
