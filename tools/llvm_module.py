"""Reads a module of LLVM, as text, for tools/printed: its functions, and of each the blocks and how they follow
each other."""
import re
from collections import defaultdict

# a name, without the sign before it; what an instruction may take; and the types of what it takes
NAME = r'(?:"[^"]*"|[\w.$-]+)'
VALUE = rf"(?:%{NAME}|@{NAME}|inttoptr \(i64 -?\d+ to ptr\)|-?\d+|null|poison|undef|true|false|zeroinitializer)"
TYPE = r"(?:\{[^}]*\}|\[\d+ x i8\]|i\d+|ptr|void)"
FUNCTION = re.compile(r"^(define .*?) \{\n(.*?)^\}", re.M | re.S)
HEAD = rf"define (.*?)@({NAME})\((.*?)\) (?:unnamed_addr|local_unnamed_addr|#)"
GROUP = re.compile(r"^attributes (#\d+) = \{(.*)\}", re.M)
# a function that only the module calls, with its name, and a name of the module wherever it stands
OWN = re.compile(rf"^define internal [^\n]*?@({NAME})\([^\n]* \{{\n.*?^\}}\n", re.M | re.S)
CALLED = re.compile(rf"@({NAME})")
# attributes that hold a type or a value of their own
NUMBERED = re.compile(r"(?:range|dereferenceable|captures)\([^)]*\)")
# the cases of a switch have a line each
CASES = re.compile(r"\[\n(.*?)\n  \]", re.S)
# what tells debuggers and alias analyses something
NOTES = re.compile(r", ![\w.]+ !\d+")


def groups_of(pattern, line):
    """What the groups of a pattern match. A line of another form is one that nobody here knows."""
    found = re.match(pattern, line)
    if not found:
        raise SystemExit(f"llvm_module: a line of an unknown form: {line}")
    return found.groups()


def bare(name):
    """A name without its sign and its quotes."""
    return name.strip().lstrip("%").strip('"')


def parted(text, opening="([{", closing=")]}"):
    """What stands between commas that no bracket and no quote holds."""
    found, depth, is_quoted = [""], 0, False
    for sign in text:
        is_quoted ^= sign == '"'
        depth += 0 if is_quoted else (sign in opening) - (sign in closing)
        if sign == "," and depth == 0 and not is_quoted:
            found.append("")
        else:
            found[-1] += sign
    return [it.strip() for it in found if it.strip()]


def result_type(text):
    """The type behind attributes, of what a function returns."""
    return re.findall(TYPE, NUMBERED.sub("", text))[-1]


class Graph:
    """The blocks that can be reached from the first: which dominate which, and which are loops."""

    def __init__(self, successors):
        self.successors = successors
        self.order = self.blocks_in_order()
        self.rank = {block: at for at, block in enumerate(self.order)}
        self.predecessors = defaultdict(list)
        for block in self.order:
            for other in successors[block]:
                self.predecessors[other].append(block)
        self.parent = self.dominators()
        self.children = defaultdict(list)
        for block in self.order[1:]:
            self.children[self.parent[block]].append(block)
        back = {(it, head) for head in self.order for it in self.predecessors[head] if self.dominates(head, it)}
        self.loops = self.loops_of(back)
        # where several ways meet, those of a loop back to its head aside
        self.joins = {it for it in self.order if sum((one, it) not in back for one in self.predecessors[it]) > 1}

    def blocks_in_order(self):
        """Each block before those that it leads to, loops aside."""
        first = next(iter(self.successors))
        left, seen, ended = [(first, iter(self.successors[first]))], {first}, []
        while left:
            block, others = left[-1]
            other = next(others, None)
            if other is None:
                ended.append(block)
                left.pop()
            elif other not in seen:
                seen.add(other)
                left.append((other, iter(self.successors[other])))
        return ended[::-1]

    def dominators(self):
        """Of each block the nearest other one that every way to it passes; of the first itself."""
        parent, is_changed = {self.order[0]: self.order[0]}, True

        def nearest(one, other):
            while one != other:
                while self.rank[one] > self.rank[other]:
                    one = parent[one]
                while self.rank[other] > self.rank[one]:
                    other = parent[other]
            return one

        while is_changed:
            is_changed = False
            for block in self.order[1:]:
                known = [it for it in self.predecessors[block] if it in parent]
                found = known[0]
                for it in known[1:]:
                    found = nearest(found, it)
                is_changed |= parent.get(block) != found
                parent[block] = found
        return parent

    def dominates(self, one, other):
        """Whether every way to the other block passes this one."""
        while self.rank[other] > self.rank[one]:
            other = self.parent[other]
        return one == other

    def loops_of(self, back):
        """The blocks of each loop, by its head."""
        loops = {}
        for last, head in back:
            body, left = loops.setdefault(head, {head}), [last]
            while left:
                block = left.pop()
                if block not in body:
                    body.add(block)
                    left += self.predecessors[block]
        return loops


class Function:
    """A function: its name and types, its blocks with their instructions, and where each value is used."""

    def __init__(self, head, body, attributes):
        before, name, places = groups_of(HEAD, head)
        self.name, self.result = name.strip('"'), result_type(before)
        self.attributes = attributes[re.search(r"(#\d+)$", head.strip())[1]]
        self.parameters = [(re.match(TYPE, it)[0], bare(it.split()[-1])) for it in parted(places)]
        self.blocks = self.blocks_of(CASES.sub(lambda it: f"[ {' ; '.join(map(str.strip, it[1].splitlines()))} ]", body))
        last = {block: lines[-1] for block, lines in self.blocks.items()}
        self.graph = Graph({it: [bare(name) for name in re.findall(rf"label (%{NAME})", last[it])] for it in last})
        self.joined = {it: [self.joined_by(line) for line in lines if " = phi " in line] for it, lines in self.blocks.items()}
        self.made_by, users = self.instructions()
        # what is printed again at each use: it reads no memory, and costs nothing
        self.free = {
            it for it, line in self.made_by.items() if re.match(r"getelementptr .*, i64 -?\d+$|extractvalue|freeze", line)
        }
        self.uses = self.uses_by(users)
        self.leave_out_unused()

    @staticmethod
    def blocks_of(body):
        blocks, current = {}, None
        for line in body.split("\n"):
            label = re.match(rf"^({NAME}):", line)
            if label:
                current = blocks[bare(label[1])] = []
            elif line.startswith("  "):
                current.append(NOTES.sub("", line.strip()))
        return blocks

    @staticmethod
    def joined_by(line):
        """A value that depends on the block before: its name, its type, and by block what it then is."""
        name, kind, cases = groups_of(rf"(%{NAME}) = phi ({TYPE}) (.*)", line)
        return bare(name), kind, {bare(block): it for it, block in re.findall(rf"\[ ({VALUE}), (%{NAME}) \]", cases)}

    def instructions(self):
        """By value the instruction that makes it, and for each value who uses it: another value or None, and the block."""
        made_by, users = {}, defaultdict(list)
        for block in self.graph.order:
            for line in self.blocks[block]:
                name, code = groups_of(rf"(?:(%{NAME}) = )?(.*)", line)
                if code.startswith("phi "):
                    continue
                if name:
                    made_by[bare(name)] = code
                if not re.search(r"@llvm\.(lifetime|assume)", code):
                    for used in re.findall(rf"%({NAME})", re.sub(rf"label %{NAME}", "", code)):
                        users[bare(used)].append((bare(name) if name else None, block))
            for other in dict.fromkeys(self.graph.successors[block]):
                for _, _, cases in self.joined[other]:
                    if cases[block].startswith("%"):
                        users[bare(cases[block])].append((None, block))
        return made_by, users

    def uses_by(self, users):
        """For each value who uses it, through those that are printed again at each use."""

        def real(value):
            return [it for user in users[value] for it in (real(user[0]) if user[0] in self.free else [user])]

        return {it: real(it) for it in [*self.made_by, *(one[0] for every in self.joined.values() for one in every)]}

    def returned(self):
        """The values that are returned, or of which what is returned is made or chosen."""
        cases = {value: its.values() for every in self.joined.values() for value, _, its in every}
        left, found = [line.split()[-1] for lines in self.blocks.values() for line in lines if line.startswith("ret ")], set()
        while left:
            value = bare(left.pop())
            if value not in found:
                found.add(value)
                code = self.made_by.get(value, "")
                parts = re.findall(rf"%{NAME}", code) if re.match("insertvalue|extractvalue|select|zext|freeze", code) else []
                left += [*cases.get(value, []), *parts]
        return found

    def leave_out_unused(self):
        """Takes out what nobody uses, calls aside, until all that is left is used."""
        while True:
            unused = [
                it for it, line in self.made_by.items() if self.uses.get(it) == [] and not re.match(r"(?:\w+ )?call ", line)
            ]
            if not unused:
                return
            for value in unused:
                del self.uses[value]
            for value, users in self.uses.items():
                self.uses[value] = [it for it in users if it[0] not in unused]


def merged(text):
    """A module with one function in place of several that have the same path and, but for their names, the same text. Types that
    lie alike in memory have each an instance of their own, and the optimiser would make each another function."""
    while True:
        first, same = {}, {}
        for it in OWN.finditer(text):
            form = it[1].partition("::<")[0], it[0].replace(f"@{it[1]}(", "@(")
            same[it[1]] = first.setdefault(form, it[1])
        if len(first) == len(same):
            return text
        text = OWN.sub(lambda it: it[0] if same[it[1]] == it[1] else "", text)
        text = CALLED.sub(lambda it: f"@{same.get(it[1], it[1])}", text)


def kept_apart(text, ends):
    """A module that keeps the functions apart whose names end so: LLVM may inline none of them."""
    for it in ends:
        head = rf'^(define [^\n]*@"[^"\n]*::{it}(?:::<[^"\n]*)?"\([^\n]*\) )#\d+ \{{$'
        text, count = re.subn(head, r"\1noinline nounwind {", text, flags=re.M)
        if not count:
            raise SystemExit(f"llvm_module: no function is called {it}")
    return text


def functions_of(text):
    """The functions that a module defines."""
    attributes = dict(GROUP.findall(text))
    return [Function(head, body, attributes) for head, body in FUNCTION.findall(text)]
