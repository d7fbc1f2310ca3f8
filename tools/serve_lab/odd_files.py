"""Files that are no regular ones, as a FIFO that nobody writes to: neither a start nor a `reload` waits for them."""
import os
import subprocess
import time

from serve_lab.cases import ADAPTPROXY, IDLE, case, get, same
from serve_lab.host_files import Where, found_at, key, said
from serve_lab.loopback import PATIENCE, User, ask, body_of, free_port, write
from serve_lab.parents import to

ODD = {"FIFO": os.mkfifo, "folder": os.mkdir, "device": lambda path: os.symlink("/dev/null", path)}
# Seconds in which something is answered that waits for nobody.
SOON = 2


def clear(path):
    """Nothing is at this path any more."""
    if os.path.isdir(path):
        os.rmdir(path)
    elif os.path.lexists(path):
        os.remove(path)


def put(kind, path):
    """What is no regular file is at this path."""
    clear(path)
    ODD[kind](path)


def pages_key(folder):
    return 'refusal_pages = "%s"\n' % folder.path("pages")


@case
def a_reload_waits_for_no_file(bench):
    """Each kind in the place of the hosts file, of a page and of the configuration: it is answered at once, as a file that can't be read, and
    so is what the administrator says next. What stood still stands, and once the file is as it was it is taken."""
    where, folder = bench.keep(Where()), bench.folder()
    os.mkdir(folder.path("pages"))
    files = {"hosts": "127.0.7.1 n.test\n", "pages/502.html": "<p>%w</p>"}
    for name, text in files.items():
        folder.write(name, text)
    proxy = bench.proxy(bench.origin(), key(folder.path("hosts")) + pages_key(folder), config=folder.path("proxy.toml"))
    with open(proxy.config) as config:
        files["proxy.toml"] = config.read()
    user = User(proxy.port)
    for name, answer in (("hosts", "cannot open"), ("pages/502.html", "config refusal_pages"), ("proxy.toml", "cannot open")):
        for kind in ODD:
            put(kind, folder.path(name))
            begun = time.time()
            answers = proxy.say("reload", "book", patience=PATIENCE / 2)
            same(name + ", a " + kind, (answers[0], answers[1].split()[0], time.time() - begun < SOON), (answer, "rows", True))
            same("a name", found_at(proxy, "n.test", where.port), "127.0.7.1")
            same("a page", ask(proxy.port, to("x.test", "/")).body, b"<p>unknown-host</p>")
            same("one that is open", user.ask(get("/bytes/6")).body, body_of(6))
        clear(folder.path(name))
        folder.write(name, files[name])
        same(name + " as it was", proxy.say("reload"), "ok 1")
    user.close()
    same("audit", proxy.stop(), IDLE)


@case
def a_start_waits_for_no_file(bench):
    """`check` and `serve` end with the key's fault where the hosts file or a page is no regular file."""
    folder = bench.folder()
    os.mkdir(folder.path("pages"))
    least = 'listen = "127.0.0.1:%d"\nadmin = "127.0.0.1:%d"\n' % (free_port(), free_port())
    for kind in ODD:
        for name, text, error in (("hosts", key(folder.path("hosts")), "hosts_file"), ("pages/502.html", pages_key(folder), "refusal_pages")):
            put(kind, folder.path(name))
            for word in ("check", "serve"):
                begun = time.time()
                same("%s, %s, a %s" % (word, name, kind), said([word], least + text), ("adaptproxy: config " + error, 2, b""))
                same("at once", time.time() - begun < SOON, True)
            clear(folder.path(name))


@case
def a_configuration_may_come_through_a_pipe(bench):
    """At the start, by `--config /dev/stdin`; a `reload` doesn't wait for another one. A folder can't be read."""
    port, folder = free_port(), bench.folder()
    text = 'listen = "127.0.0.1:%d"\nadmin = "127.0.0.1:%d"\n' % (port, free_port())
    same("check", said(["check", "--config", "/dev/stdin"], text), ("", 0, b"ok\n"))
    same("a folder", said(["check", "--config", folder.path("")], text), ("adaptproxy: cannot read: " + folder.path(""), 1, b""))
    proxy = subprocess.Popen([ADAPTPROXY, "serve", "--config", "/dev/stdin"], stdin=subprocess.PIPE, stdout=subprocess.PIPE)
    try:
        proxy.stdin.write(text.encode())
        proxy.stdin.close()
        same("listens", proxy.stdout.readline(), b"listening\n")
        config = write(folder.path("proxy.toml"), text)
        for words, status, answer in (("reload", 1, b"cannot open\n"), ("book", 0, b"rows 0 held 0 claimed 0 capacity 16777216\n"), ("stop", 0, b"")):
            begun = time.time()
            told = subprocess.run([ADAPTPROXY, "tell", "--config", config, words], capture_output=True, timeout=PATIENCE)
            same(words, (told.returncode, told.stdout, time.time() - begun < SOON), (status, answer, True))
        same("audit", (proxy.wait(PATIENCE), proxy.stdout.read()), (0, (IDLE + "\n").encode()))
    finally:
        proxy.kill()
