"""The debugger's side of tools/follow_post. gdb runs this file, with the program's process attached and WANTED set: a path of a file that
says which functions there are (`functions`, name by address) and which calls of the system are of interest (`calls`, addresses).

It says lines of JSON. After `{"ready": PART}` its starter does what is to be followed, and sends SIGUSR1 to the process when that is
over. The part `called` says which functions were called, each with the moment of its first call; a part `stacks` says the stack
of each call of the system, innermost first, as addresses that the program was linked at."""
import json
import os
import time

import gdb

TRAP = b"\xcc"


class Debugger:
    def __init__(self, wanted):
        self.inferior = gdb.selected_inferior()
        self.base = wanted["base"]
        self.functions = {self.base + int(at): name for at, name in wanted["functions"].items()}
        self.calls = [self.base + at for at in wanted["calls"]]
        # The first byte of each function, as long as a trap stands in its place.
        self.bytes = {}
        self.why = None
        gdb.events.stop.connect(self.stopped)

    def stopped(self, event):
        self.why = event

    def goes_on(self):
        """Runs on to the next stop. Whether that is a trap or a breakpoint; else the part is over."""
        gdb.execute("continue", to_string=True)
        signal = getattr(self.why, "stop_signal", "SIGTRAP")
        if signal not in ("SIGTRAP", "SIGUSR1"):
            raise gdb.GdbError("the program stops: %s" % signal)
        return signal == "SIGTRAP"

    def set_traps(self):
        for at in self.functions:
            self.bytes[at] = self.inferior.read_memory(at, 1).tobytes()
            self.inferior.write_memory(at, TRAP)

    def take_traps(self):
        for at, byte in self.bytes.items():
            self.inferior.write_memory(at, byte)
        self.bytes = {}

    def called(self):
        """Each function that is called, with the moment of its first call. Its trap goes then, so that the program soon runs freely."""
        found = {}
        self.set_traps()
        say(ready="called")
        while self.goes_on():
            at = int(gdb.parse_and_eval("$pc")) - 1
            if at not in self.functions:
                raise gdb.GdbError("a trap of nobody's at %#x" % at)
            if at in self.bytes:
                self.inferior.write_memory(at, self.bytes.pop(at))
                found[self.functions[at]] = time.monotonic()
            gdb.execute("set $pc = %d" % at)
        self.take_traps()
        say(called=found)

    def stacks(self):
        breakpoints = [gdb.Breakpoint("*%d" % at) for at in self.calls]
        found = []
        say(ready="stacks")
        while self.goes_on():
            stack, frame = [], gdb.newest_frame()
            while frame is not None and frame.is_valid():
                # A caller goes on behind its call, which may be behind its own end.
                stack.append(frame.pc() - self.base - (1 if stack else 0))
                frame = frame.older()
            found.append({"descriptor": int(gdb.parse_and_eval("$edi")), "stack": stack, "at": time.monotonic()})
        for breakpoint in breakpoints:
            breakpoint.delete()
        say(stacks=found)


def say(**words):
    # Not on standard output, where gdb tells of each stop.
    os.write(int(os.environ["SAYS"]), json.dumps(words).encode() + b"\n")


def main():
    with open(os.environ["WANTED"], encoding="utf-8") as file:
        wanted = json.load(file)
    for words in ("pagination off", "confirm off", "print thread-events off", "backtrace limit 400"):
        gdb.execute("set " + words)
    gdb.execute("handle SIGUSR1 stop print nopass", to_string=True)
    gdb.execute("handle SIGTRAP stop print nopass", to_string=True)
    # Only the loop of the users runs: that for administrators, in the main thread, has no part in an exchange.
    next(thread for thread in gdb.selected_inferior().threads() if thread.name == "shard-0").switch()
    gdb.execute("set scheduler-locking on")
    debugger = Debugger(wanted)
    for part in wanted["parts"]:
        getattr(debugger, part)()
    gdb.execute("detach", to_string=True)


main()
