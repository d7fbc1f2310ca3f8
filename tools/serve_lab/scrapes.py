"""Cases of tools/try_serve: a real Prometheus scrapes the counters, by the lines of docs/RUNNING.md, and fires the alerts of
docs/METRICS.md."""
import json
import os
import re
import subprocess
import tempfile
import threading
import time
import urllib.parse
import urllib.request

from serve_lab.cases import IDLE, case, comes, get, needs_tools, post, same
from serve_lab.loopback import TOP, Closed, Icap, Reader, Server, User, ask, body_of, free_port
from serve_lab.operators import stats, stats_text


class Tool:
    """A program that runs until the case ends, and what it prints."""

    def __init__(self, words, folder):
        self.log = open(os.path.join(folder, "%s.log" % os.path.basename(words[0])), "w+")
        self.process = subprocess.Popen(words, stdout=self.log, stderr=self.log)

    def close(self):
        self.process.terminate()
        self.process.wait()
        self.log.close()


def documented():
    """The key of the proxy and the configuration of Prometheus, as docs/RUNNING.md has them."""
    with open(os.path.join(TOP, "docs", "RUNNING.md")) as text:
        page = text.read()
    return re.search(r'metrics = "127.0.0.1:9129"', page).group(0), re.search(r"^scrape_configs: .*$", page, re.M).group(0)


class Prometheus:
    """Prometheus with the documented configuration, which scrapes twice a second, and its interface."""

    def __init__(self, bench, folder, scrape, page):
        self.port = free_port()
        path = os.path.join(folder, "prometheus.yml")
        with open(path, "w") as text:
            text.write("global: {scrape_interval: 500ms, scrape_timeout: 500ms, evaluation_interval: 500ms}\n%s\n" % (
                scrape.replace("127.0.0.1:9129", page)))
        self.tool = bench.keep(Tool(["prometheus", "--config.file=" + path, "--storage.tsdb.path=" + os.path.join(folder, "data"),
                                     "--web.listen-address=127.0.0.1:%d" % self.port], folder))

    def ask(self, path, **words):
        with urllib.request.urlopen("http://127.0.0.1:%d/api/v1/%s?%s" % (self.port, path, urllib.parse.urlencode(words))) as answer:
            return json.load(answer)["data"]

    def target(self):
        """The state of the target, and the last error of a scrape. None where there is no answer yet."""
        try:
            found = self.ask("targets")["activeTargets"][0]
            return found["health"], found["lastError"]
        except (OSError, IndexError):
            return None

    def numbers(self):
        """The last number of each series, by its name and its labels in the order of their names."""
        found = {}
        for series in self.ask("query", query='{job="adaptproxy"}')["result"]:
            labels = {name: value for name, value in series["metric"].items() if name not in ("__name__", "instance", "job")}
            words = ",".join('%s="%s"' % pair for pair in sorted(labels.items()))
            found[series["metric"]["__name__"], words] = float(series["value"][1])
        return found


def by_labels(name):
    """A series by its name and its labels in the order of their names."""
    name, _, labels = name.rstrip("}").partition("{")
    return name, ",".join(sorted(labels.split(","))) if labels else ""


@case
def prometheus_scrapes_the_counters(bench):
    needs_tools("prometheus")
    origin = bench.origin()
    service = bench.icap(options=(b"Preview: 4", b"Transfer-Preview: *"))
    key, scrape = documented()
    page = "127.0.0.1:%d" % free_port()
    proxy = bench.proxy(origin, "shards = 2\n" + key.replace("127.0.0.1:9129", page), [("reqmod", service.port, "/reqmod"), ("respmod", service.port, "/respmod", 5)])
    user = User(proxy.port)
    for size in (3, 3000, 30000):
        user.ask(get("/bytes/%d" % size))
        user.ask(post("/echo", body_of(size)))
    same("refused", ask(proxy.port, b"GET http://x.test/ HTTP/1.1\r\nHost: x.test\r\n\r\n").status, 502)
    comes("the counts", lambda: stats(proxy)["adaptproxy_requests_total"] == 7)
    with tempfile.TemporaryDirectory() as folder:
        prometheus = Prometheus(bench, folder, scrape, page)
        comes("a scrape", lambda: prometheus.target() == ("up", ""), 30)
        # All that is counted rests by now, but for the seconds.
        wanted = {by_labels(name): number for name, number in stats(proxy).items()}
        seconds = [name for name in wanted if "seconds" in name[0]]
        comes("the numbers", lambda: set(prometheus.numbers()) >= set(wanted), 30)
        found = prometheus.numbers()
        same("numbers", {name: found[name] for name in wanted if name not in seconds},
             {name: number for name, number in wanted.items() if name not in seconds})
        kinds = {name: rows[0]["type"] for name, rows in prometheus.ask("metadata").items() if name.startswith("adaptproxy_")}
        same("kinds", set(kinds.values()), {"counter", "gauge", "histogram"})
        before = prometheus.ask("query", query="adaptproxy_requests_total")["result"][0]["value"][1]
        user.ask(get("/bytes/5"))
        comes("the next one", lambda: prometheus.ask("query", query="adaptproxy_requests_total")["result"][0]["value"][1] == "8", 10)
        comes("ten scrapes", lambda: int(prometheus.ask("query", query="count_over_time(up[5m])")["result"][0]["value"][1]) >= 10, 30)
        scrapes = prometheus.ask("query", query="count_over_time(up[5m])")["result"][0]["value"][1]
        failed = prometheus.ask("query", query="count_over_time(up[5m]) - sum_over_time(up[5m])")["result"][0]["value"][1]
        print("      %d series of %d families; %s scrapes, %s failed; requests %s, then 8" % (len(wanted), len(kinds), scrapes, failed, before))
        same("failed", failed, "0")
    user.close()
    same("audit", proxy.stop(), IDLE)


def rules():
    """The rules for alerts, as docs/METRICS.md has them, over seconds in place of minutes."""
    with open(os.path.join(TOP, "docs", "METRICS.md")) as text:
        found = re.search(r"^```yaml\n(groups:.*?)^```", text.read(), re.M | re.S).group(1)
    return found.replace("[5m]", "[10s]").replace("for: 1m", "for: 1s").replace("for: 5m", "for: 1s")


def classic(text):
    """The text in Prometheus' older format, which promtool reads: there a counter's family is named as its numbers are."""
    counters = re.findall(r"^# TYPE (\S+) counter$", text, re.M)
    return re.sub(r"^# (TYPE|HELP) (\S+)", lambda found: "# %s %s" % (found.group(1), found.group(2) + "_total" * (found.group(2) in counters)),
                  text, flags=re.M)


@case
def prometheus_fires_the_documented_alerts(bench):
    """Each of the three once: a service that hangs, one with a single connection, and a slow origin. promtool takes rules and names."""
    needs_tools("prometheus", "promtool")

    def slow(conn, _number):
        reader = Reader(conn)
        while True:
            reader.head()
            time.sleep(1.2)
            conn.sendall(b"HTTP/1.1 200 OK\r\nContent-Length: 2\r\n\r\nok")

    def holds(conn, reader, head, _count):
        Icap.rest(reader, head)
        time.sleep(1.5)
        conn.sendall(Icap.NO_MODIFICATION)
    silent = bench.icap(answer_options=False)
    pages = ["127.0.0.1:%d" % free_port() for _ in range(3)]
    keys = [documented()[0].replace("127.0.0.1:9129", page) + "\n" for page in pages]
    proxies = [bench.proxy(bench.keep(Server(slow)), "deadline = 5\n" + keys[0]),
               bench.proxy(bench.origin(), "deadline = 1\n" + keys[1], [("respmod", silent.port, "/respmod")]),
               bench.proxy(bench.origin(), keys[2], [("reqmod", bench.icap(holds).port, "/reqmod", 1)])]
    ends = threading.Event()

    def asks(proxy):
        """One that is refused comes again after a while: a crowd that doesn't would have most of the exchanges, and quick ones."""
        while not ends.is_set():
            try:
                refused = ask(proxy.port, get("/bytes/3")).status == 503
            except (Closed, OSError):
                return
            time.sleep(0.2 if refused else 0)
    users = [threading.Thread(target=asks, args=(proxy,), daemon=True) for proxy in proxies for _ in range(3)]
    with tempfile.TemporaryDirectory() as folder:
        path = os.path.join(folder, "rules.yml")
        with open(path, "w") as text:
            text.write(rules())
        checked = subprocess.run(["promtool", "check", "rules", path], capture_output=True, text=True)
        same("rules", (checked.returncode, "3 rules found" in checked.stdout), (0, True))
        lines = subprocess.run(["promtool", "check", "metrics"], input=classic(stats_text(proxies[0])), capture_output=True, text=True)
        same("metrics", (lines.returncode, lines.stderr), (0, ""))
        scrape = "rule_files: [%s]\nscrape_configs: [{job_name: adaptproxy, static_configs: [{targets: [%s]}]}]" % (
            path, ", ".join("'%s'" % page for page in pages))
        prometheus = Prometheus(bench, folder, scrape, pages[0])
        for one in users:
            one.start()
        wanted = {"ServiceFails", "ServiceIsFull", "ExchangesAreSlow"}
        fired = set()

        def all_fired():
            try:
                found = prometheus.ask("alerts")["alerts"]
            except OSError:
                return False
            fired.update(alert["labels"]["alertname"] for alert in found if alert["state"] == "firing")
            return fired >= wanted
        comes("all three", all_fired, 60)
        same("fired", fired, wanted)
        ends.set()
        for one in users:
            one.join(10)
    for proxy in proxies:
        same("audit", proxy.stop()[:11], "audit rows ")
