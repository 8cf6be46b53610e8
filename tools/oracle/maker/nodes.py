"""The text of a script in pieces: a node for each declaration and statement, so that one can be found by its line and taken out."""
from __future__ import annotations

from random import Random
from typing import List, Optional, Tuple

BLANKS = (" ", " ", " ", "\n", "\n\n", "\t", " \r\n", "  ", " # while\n", "#}!\xff\n")


class Node:
    """A declaration or statement: the text before its block, its block, and the block after `else`."""

    def __init__(self, head: str, body: "Optional[List[Node]]" = None, other: "Optional[List[Node]]" = None) -> None:
        self.head, self.body, self.other = head, body, other
        self.line = 0

    def write(self, lines: List[str]) -> None:
        self.line = len(lines) + 1
        lines.append(self.head if self.body is None else f"{self.head} {{")
        for it in self.body or []:
            it.write(lines)
        if self.other is not None:
            lines.append("} else {")
            for it in self.other:
                it.write(lines)
        if self.body is not None:
            lines.append("}")

    def blocks(self) -> "List[List[Node]]":
        """The blocks in it, at any depth."""
        own = [it for it in (self.body, self.other) if it is not None]
        return own + [block for one in own for it in one for block in it.blocks()]


class BodyNode(Node):
    """A procedure or service, with the numbers of its heading."""

    def __init__(self, name: str, parameters: Optional[str], body: List[Node]) -> None:
        super().__init__("", body)
        self.name, self.parameters = name, parameters
        self.put_numbers((0, 0, 0))

    def put_numbers(self, numbers: Tuple[int, int, int]) -> None:
        self.numbers = numbers
        promised = f"within {numbers[0]} cycles event {numbers[1]} words"
        is_service = self.parameters is None
        self.head = f"service {self.name} {promised}" if is_service else f"proc {self.name}({self.parameters}) {promised} steps {numbers[2]}"


def text_of(nodes: List[Node]) -> str:
    """The text, each declaration and statement on a line of its own. The nodes get their lines."""
    lines: List[str] = []
    for it in nodes:
        it.write(lines)
    return "".join(f"{it}\n" for it in lines)


def remove_at(nodes: List[Node], line: int) -> bool:
    """Takes the statement of a line out, and returns whether there was one."""
    for node in nodes:
        for block in node.blocks():
            for inner in block:
                if inner.line == line:
                    block.remove(inner)
                    return True
    return False


def spread(random: Random, text: str) -> str:
    """The text in another layout: other blanks and comments between its words."""
    joined = "".join(random.choice(BLANKS) if it in " \n" and random.random() < 0.4 else it for it in text)
    return joined if random.random() < 0.7 else joined.rstrip("\n")
