"""Moves each clear of a local to where the local is used.

The kit's compiler clears a function's locals as the function begins, also those of an arm that is hardly ever taken. Clang takes a clear
away where the whole local is written before it is read, whichever way is taken, and else leaves it where it is. Here a clear goes to the
last block that dominates all uses of its local and is on no cycle: a block on a cycle runs again, and would clear what the round before it
left. Nothing was read or written of the local before that block, so each use finds what it found before. No clear is dropped.

What is read is the text that clang prints of a module that the kit made. A module with a function that may return twice, as setjmp does, is
refused: the flow of control doesn't tell what runs again there.
"""
import collections
import re

ALLOCATED = re.compile(r"  (%[\w.]+) = alloca ")
CLEARED = re.compile(r"  call void @llvm\.memset\.p0\.i64\(ptr (%[\w.]+), i8 0, i64 \d+, i1 false\)$")
LABEL = re.compile(r'([\w.$-]+|"[^"]*"):')
TARGET = re.compile(r'label %([\w.$-]+|"[^"]*")')
NAME = re.compile(r"%[\w.$-]+")
# What may end a block. A call that unwinds ends one too, but the kit makes none.
ENDS = "br", "switch", "ret", "unreachable"


class Block:
    """A block of a function: the numbers of its first line, of the line after its last one, and of the line where its last instruction
    begins, and the blocks that may come after it."""

    def __init__(self, begin, end, terminator):
        self.begin, self.end, self.terminator, self.successors = begin, end, terminator, []


class Flow:
    """The blocks of a function by number, the entry block first, and which of them dominate others."""

    def __init__(self, lines):
        labels = [line for line in range(1, len(lines) - 1) if LABEL.match(lines[line])]
        begins, names = [line + 1 for line in labels], [LABEL.match(lines[line])[1] for line in labels]
        if not labels or labels[0] != 1:
            begins, names = [1, *begins], [None, *names]
        ends = [begin - 1 for begin in begins[1:]] + [len(lines) - 1]
        self.blocks = [Block(begin, end, terminator_of(lines, begin, end)) for begin, end in zip(begins, ends)]
        numbers = {name: number for number, name in enumerate(names)}
        for block in self.blocks:
            block.successors = [numbers[name] for name in TARGET.findall("".join(lines[block.terminator:block.end]))]
        self.order = self.reverse_postorder()
        self.rank = {number: rank for rank, number in enumerate(self.order)}
        # The immediate dominator of each block that is reached.
        self.dominators = {0: 0}
        self.find_dominators()

    def reverse_postorder(self):
        """The numbers of the blocks that are reached, in reverse postorder."""
        done, seen, path = [], {0}, [(0, iter(self.blocks[0].successors))]
        while path:
            number, successors = path[-1]
            following = next((it for it in successors if it not in seen), None)
            if following is None:
                done.append(number)
                path.pop()
            else:
                seen.add(following)
                path.append((following, iter(self.blocks[following].successors)))
        return done[::-1]

    def find_dominators(self):
        """Finds the immediate dominators (Cooper, Harvey and Kennedy, 2001)."""
        predecessors = collections.defaultdict(list)
        for number in self.order:
            for successor in self.blocks[number].successors:
                predecessors[successor].append(number)
        changes = True
        while changes:
            changes = False
            for number in self.order[1:]:
                dominator = self.common_dominator([it for it in predecessors[number] if it in self.dominators])
                if self.dominators.get(number) != dominator:
                    self.dominators[number], changes = dominator, True

    def common_dominator(self, numbers):
        """The last block that dominates all of these: one of them, or another."""
        common, *others = numbers
        for other in others:
            while common != other:
                if self.rank[common] > self.rank[other]:
                    common = self.dominators[common]
                else:
                    other = self.dominators[other]
        return common

    def is_on_cycle(self, number):
        """Whether a way leads from a block to itself."""
        seen, waiting = set(), list(self.blocks[number].successors)
        while waiting:
            reached = waiting.pop()
            if reached == number:
                return True
            if reached not in seen:
                seen.add(reached)
                waiting.extend(self.blocks[reached].successors)
        return False

    def place_for(self, numbers):
        """The last block that dominates all of these and is on no cycle. The entry block is on none."""
        place = self.common_dominator(numbers)
        while place and self.is_on_cycle(place):
            place = self.dominators[place]
        return place


def terminator_of(lines, begin, end):
    """The number of the line where the last instruction of a block begins."""
    line = end - 1
    # The cases of a switch stand on lines of their own, further in than an instruction, and its bracket after them.
    while line > begin and (not lines[line].strip() or lines[line].startswith(("    ", "  ]"))):
        line -= 1
    if not lines[line].split()[0] in ENDS:
        raise ValueError("a block doesn't end so: " + lines[line].strip())
    return line


def clears_of(lines, entry):
    """The line of the first clear of each local that is allocated before it in the entry block, by the local's name."""
    allocated, cleared = set(), {}
    for line in range(entry.begin, entry.end):
        if match := ALLOCATED.match(lines[line]):
            allocated.add(match[1])
        elif (match := CLEARED.match(lines[line])) and match[1] in allocated:
            cleared.setdefault(match[1], line)
    return cleared


def uses_of(lines, flow, cleared):
    """The lines that name each of these locals, other than its allocation and its clear, by the number of their block."""
    uses = {name: collections.defaultdict(list) for name in cleared}
    for number in flow.order:
        for line in range(flow.blocks[number].begin, flow.blocks[number].end):
            if not ALLOCATED.match(lines[line]):
                for name in set(NAME.findall(lines[line])) & cleared.keys():
                    if line != cleared[name]:
                        # Nothing may stand before a phi. Where one names a local, the entry block counts as using it, so its clear stays.
                        uses[name][0 if " = phi " in lines[line] else number].append(line)
    return uses


def late_in(lines):
    """The lines of a function, each clear that may go further at its new place."""
    flow = Flow(lines)
    cleared = clears_of(lines, flow.blocks[0])
    moved = collections.defaultdict(list)
    for name, uses in uses_of(lines, flow, cleared).items():
        place = flow.place_for(list(uses)) if uses else 0
        if place:
            moved[min(uses.get(place, [flow.blocks[place].terminator]))].append(cleared[name])
    gone = {line for clears in moved.values() for line in clears}
    made = []
    for line, text in enumerate(lines):
        made.extend(lines[clear] for clear in moved.get(line, []))
        if line not in gone:
            made.append(text)
    if sorted(made) != sorted(lines):
        raise ValueError("lines were lost of " + lines[0].strip())
    return made


def late_clears(lines):
    """The lines of a module in LLVM's language, each clear of a local that may go further at its new place."""
    function = []
    for line in lines:
        if "returns_twice" in line:
            raise ValueError("a function may return twice: " + line.strip())
        if function or line.startswith("define "):
            function.append(line)
            if line == "}\n":
                yield from late_in(function)
                function = []
        else:
            yield line
    if function:
        raise ValueError("a function doesn't end: " + function[0].strip())
