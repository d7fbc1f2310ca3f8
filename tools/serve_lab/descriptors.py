"""Which connections a program has open: each descriptor explained."""
import collections
import os


def sockets():
    """The sockets of this machine's TCP by their inode: own port, the other side's port, and state."""
    found = {}
    with open("/proc/net/tcp") as lines:
        next(lines)
        for line in lines:
            words = line.split()
            found[words[9]] = (int(words[1].split(":")[1], 16), int(words[2].split(":")[1], 16), words[3])
    return found


STATES = {"01": "", "02": ", dialling", "08": ", closed by the other side", "04": ", closing", "05": ", closing"}


def connections_of(proxy, peers=()):
    """How many connections of each kind a proxy has: of users, and to whom `peers` names by the port. A connection that the other
    side has closed, and this one hasn't, is one of its own kind."""
    kinds, known = collections.Counter(), sockets()
    peers = dict(peers)
    folder = "/proc/%d/fd" % proxy.process.pid
    for name in os.listdir(folder):
        try:
            target = os.readlink(os.path.join(folder, name))
        except OSError:
            continue
        if not target.startswith("socket:["):
            continue
        own, other, state = known.get(target[8:-1], (0, 0, "no"))
        if state == "0A":
            continue
        if own == proxy.port:
            word = "user"
        elif own == proxy.admin:
            word = "administrator"
        else:
            word = peers.get(other, "port %d" % other)
        kinds[word + STATES.get(state, ", in state " + state)] += 1
    return kinds
