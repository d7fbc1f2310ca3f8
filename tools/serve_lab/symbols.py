"""The names of a program's functions: which are ours, and how calls of ours go from crate to crate."""
import bisect
import os
import re
import subprocess

from serve_lab.loopback import TOP

LOOP = "event_loop::threads::run_loop"
WIRES = {"read": "socket_wire::socket::StreamWireWire::try_read", "write": "socket_wire::socket::StreamWireWire::try_write"}
CALLS = ("read", "readv", "recv", "recvfrom", "recvmsg", "send", "sendmsg", "sendto", "write", "writev")
# In names of what isn't a function of the sources: closures, what drops a value, and the start.
MADE = re.compile(r"::fn::|Destruct\b|\+Fn|\+Self|main\+")


def crates():
    """Our crates, in the order of crates.txt."""
    with open(os.path.join(TOP, "crates.txt"), encoding="utf-8") as lines:
        return re.findall(r"^[a-z]\w*", lines.read(), re.M)


class Symbols:
    """The functions of the program, by their addresses."""

    def __init__(self, path):
        out = subprocess.run(["nm", path], stdout=subprocess.PIPE, check=True, text=True).stdout
        words = [line.split(" ", 2) for line in out.splitlines() if line[:1] != " "]
        self.all = sorted((int(at, 16), name) for at, kind, name in words if kind in "tTwW")
        self.starts = [at for at, _ in self.all]
        self.order = {name: place for place, name in enumerate(crates())}

    def our_name(self, name):
        """The name of a function of ours, without its types; None for another one."""
        name = name.split("::<")[0]
        return name if crate_of(name) in self.order and not MADE.search(name) else None

    def wanted(self):
        """What the debugger looks for."""
        ours = {at: self.our_name(name) for at, name in self.all}
        return {"functions": {at: name for at, name in ours.items() if name}, "calls": [at for at, name in self.all if name in CALLS]}

    def chain(self, stack, kind):
        """The frames of ours from the loop to the wire's call; None where the stack has no such call."""
        names = [self.our_name(self.all[bisect.bisect_right(self.starts, at) - 1][1]) for at in reversed(stack)]
        names = [name for name in names if name]
        return names[names.index(LOOP):names.index(WIRES[kind]) + 1] if LOOP in names and WIRES[kind] in names else None

    def goes(self, one, two):
        """Where a call goes from this frame to that one: 1 is back up, 0 stays in the crate, and -1 is down."""
        here, there = self.order[crate_of(one)], self.order[crate_of(two)]
        return (there > here) - (there < here)


def crate_of(name):
    return name.split("::")[0]


def module_of(name):
    """A function's module: what stands before it, or before its type."""
    return re.match(r"[a-z]\w*(::[a-z_]\w*(?=::))*", name).group()


def depth_of(symbols, chains):
    """How far below the loop these calls lie: a number where all agree, else the least and the most."""
    def figures(chain):
        goes = [symbols.goes(one, two) for one, two in zip(chain, chain[1:])]
        own = next(at for at, name in enumerate(chain) if crate_of(name) != crate_of(LOOP))
        return len(chain) - own - 1, len(chain) - 1, len(set(map(crate_of, chain))), len(goes) - goes.count(0), goes.count(1)
    columns = list(zip(*map(figures, chains)))
    return "%s frames between (%s below `run_loop`), %s crates, %s changes of crate, %s of them back up" % tuple(
        str(min(one)) if min(one) == max(one) else "%d to %d" % (min(one), max(one)) for one in columns)
