"""A log of each proxy of each case: after the case each exchange has its line, and no line is too many; each line has its form, and
says why its exchange ended as it did.

`lines_of_cases.txt` says which lines a case leaves. A case that isn't named there leaves a line for each answer that its users have
read, with the answer's status and `why=-`, and no other. A row below a case's name is

    TAG/STATUS WHY COUNT        or        all COUNT

COUNT is a number; `A..B`; `seen`: as many as answers of this status were read; `seen+A..B`: so many more, of users that left
without reading; or `seen-A..B`: up to A fewer, and B more. Rows of one status that have `seen` are counted together. A line of a case
that is in none of its rows is one too many.
"""
import collections
import os
import re
import tempfile

from serve_lab.loopback import SEEN, TOP

# Further fields of ours that a line may have, which nothing here asks for.
FURTHER = r'(?: (?!refusal=)[a-z]+=\S+)*'
# A line: time, elapsed, user, tag/status, bytes, method, target, login, hierarchy, media type, and fields of ours. `refusal` stands
# where a refusal has a page.
LINE = re.compile(r'(\d+\.\d{3}) (\d+) (\S+) (TCP_MISS|TCP_DENIED)/(\d{3}) (\d+) (\S+) (\S+) - '
                  r'((?:HIER_DIRECT|FIRSTUP_PARENT)/[0-9.]+|HIER_NONE/-) (\S+) reqmod=(\S+) respmod=(\S+) why=(\S+) found=(\S+) in=(\d+)'
                  + FURTHER + r'(?: refusal=(\d+))?' + FURTHER)
VERDICT = re.compile(r"-|plain|(retry\+)?(100\+)?(-|204|200)")
COUNT = re.compile(r"(seen)(?:([+-])(\d+)\.\.(\d+))?|(\d+)(?:\.\.(\d+))?")
Wanted = collections.namedtuple("Wanted", "tag status why seen least most")


def table():
    """The statuses of each word of docs/RUNNING.md's table of what a user may see."""
    statuses = collections.defaultdict(set)
    with open(os.path.join(TOP, "docs", "RUNNING.md")) as text:
        for line in text:
            cells = [cell.strip() for cell in line.strip().strip("|").split("|")]
            if line.startswith("| ") and len(cells) == 4:
                for word in re.findall(r"`([a-z-]+)`", cells[1]):
                    statuses[word].update(int(number) for number in re.findall(r"\b[1-5]\d\d\b", cells[0] + cells[1]))
    return statuses


def wanted_rows(name):
    """The rows of a case, or None where it isn't named."""
    found, at = None, None
    with open(os.path.join(os.path.dirname(os.path.abspath(__file__)), "lines_of_cases.txt")) as text:
        for line in text:
            words = line.split("#")[0].split()
            if not words:
                continue
            if len(words) == 1:
                at = words[0]
                found = [] if at == name else found
            elif at == name:
                tag, status = words[0].split("/") if len(words) == 3 else ("", 0)
                seen, sign, fewest, more, exact, upto = COUNT.fullmatch(words[-1]).groups()
                least, most = (fewest or 0, more or 0) if seen else (exact, upto or exact)
                found.append(Wanted("TCP_" + tag, int(status), words[1], bool(seen), int(least) * (-1 if sign == "-" else 1), int(most)))
    return found


def wrong_counts(rows, logged, seen):
    """What is wrong in the counts of lines, by tag, status and why."""
    if rows is None:
        rows = [Wanted("TCP_MISS", status, "-", True, 0, 0) for status in set(seen) | set(key[1] for key in logged)]
    wrong, groups = [], collections.defaultdict(lambda: [0, 0, 0, []])
    logged = collections.Counter(logged)
    total = sum(logged.values())
    for row in rows:
        if not row.status:
            if not row.least <= total <= row.most:
                wrong.append("%d lines in all, wanted %d to %d" % (total, row.least, row.most))
            continue
        key = row[:3]
        count = logged.pop(key, 0)
        group = groups[row.status, "seen"] if row.seen else groups[key]
        group[0] += count
        group[1] += row.least
        group[2] += row.most
        group[3].append("%s/%d %s" % key)
    for key, (count, least, most, names) in groups.items():
        base = seen.get(key[0], 0) if key[1] == "seen" else 0
        if not base + least <= count <= base + most:
            wrong.append("%d lines of %s, wanted %d to %d" % (count, " or ".join(names), base + least, base + most))
    return wrong + ["%d lines too many of %s/%d %s" % (count, *key) for key, count in logged.items()]


class Lines:
    """The log of one proxy."""

    def __init__(self):
        self.folder = tempfile.TemporaryDirectory()
        self.path = os.path.join(self.folder.name, "access.log")
        self.key = 'log = "%s"\n' % self.path

    def read(self, port):
        """The lines of the proxy at this port, counted by tag, status and why; how many answers of each status its users have read;
        and what is wrong in the lines."""
        with open(self.path, "rb") as file:
            text = file.read()
        statuses, wrong, logged = table(), [], collections.Counter()
        if text and not text.endswith(b"\n"):
            wrong.append("the last line has no end")
        for line in text.decode("ascii").splitlines():
            row = LINE.fullmatch(line)
            if row is None:
                wrong.append("no line: " + line[:200])
                continue
            tag, status, why = row.group(4), int(row.group(5)), row.group(13)
            logged[tag, status, why] += 1
            denied = tag == "TCP_DENIED"
            if why != "-" and why not in statuses:
                wrong.append("a word that the table lacks: " + line[:200])
            elif denied and status not in statuses[why] or not denied and status == 499 and why != "user-gone":
                wrong.append("another status than the table's: " + line[:200])
            elif not denied and status != 499 and int(row.group(6)) == 0:
                wrong.append("no byte of this answer went out: " + line[:200])
            elif not all(VERDICT.fullmatch(row.group(place)) for place in (11, 12)):
                wrong.append("no verdict: " + line[:200])
        return logged, SEEN.pop(port, collections.Counter()), wrong

    def close(self):
        self.folder.cleanup()
