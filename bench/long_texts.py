"""Long texts: as many parts as there is room for."""
import os

from measuring import OUT

# A rule that does nothing.
SKIP = "rule M = skip\n"


def filled(size, before, part, after):
    """As many parts as there is room for; a part is a text or a function of its number."""
    parts, room, k = [], size - len(before) - len(after), 0
    while True:
        one = part if isinstance(part, str) else part(k)
        if room < len(one):
            return before + "".join(parts) + after
        parts.append(one)
        room -= len(one)
        k += 1


def written(name, text):
    """The file of this text."""
    os.makedirs(OUT, exist_ok=True)
    path = os.path.join(OUT, name + ".asm")
    with open(path, "w") as out:
        out.write(text)
    return path
