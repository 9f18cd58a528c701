"""Finds where variables of a function in C are declared, for tools/portable.py: where a variable is set first, or at the
start of the innermost block that has all its uses.

A jump into a block may pass neither declaration, since C++ refuses a jump past a value, and a variable that is left and entered
again has lost its own."""
import os.path
import re


class Scopes:
    """The blocks and the jumps of a function, whose lines are given without what opens and closes the whole."""

    def __init__(self, lines):
        self.lines, self.blocks, opened = lines, [], []
        for at, line in enumerate(lines):
            if line[0] == "}":
                opened.pop()
            # the lines that open the blocks of this line, from the outermost
            self.blocks.append(tuple(opened))
            if line[-1] == "{":
                opened.append(at)
        places = {line: at for at, line in enumerate(lines) if line.endswith(":;")}
        self.jumps = [(at, places[f"{line[5:-1]}:;"]) for at, line in enumerate(lines) if line.startswith("goto ")]

    def is_entered(self, block, start):
        """Whether a jump from elsewhere leads to what is behind a line in a block."""
        inside = {at for at in range(start + 1, len(self.lines)) if self.blocks[at][: len(block)] == block}
        return any(target in inside and at not in inside for at, target in self.jumps)

    def is_switch(self, block):
        return bool(block) and self.lines[block[-1]].startswith("switch ")

    def declaration(self, name):
        """The line that declares a variable as it sets it, or that opens the block at whose start it is declared, or -1 for the
        function's start; and whether it is set there."""
        uses = [at for at, line in enumerate(self.lines) if re.search(rf"\b{name}\b", line)]
        block, first = os.path.commonprefix([self.blocks[at] for at in uses]), uses[0]
        if self.blocks[first] == block and self.lines[first].startswith(f"{name} = "):
            if not self.is_switch(block) and not self.is_entered(block, first):
                return first, True
        while block and (self.is_switch(block) or self.is_entered(block, block[-1])):
            block = block[:-1]
        return block[-1] if block else -1, False
