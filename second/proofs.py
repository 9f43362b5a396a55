"""Proofs of an audit: the canonical one, and the reader."""
from texts import read_decimal, refused_as, require

def canonical_proof(survivors):
    lines = ["proof 1", "entries %d" % len(survivors.entries)]
    for place, ancestors in survivors.ancestors.items():
        vias = {}
        for via in [place, *sorted(ancestors, reverse=True)]:
            for ancestor in survivors.parents[via]:
                vias.setdefault(ancestor, via)
        words = ["%d:%d" % pair for pair in sorted(vias.items(), reverse=True)]
        lines.append(" ".join(["past %d" % place, *words]))
    return "".join(line + "\n" for line in lines).encode()

def read_proof(octets, survivors):
    """The ancestors of the survivors that have a line, by their numbers."""
    ancestors, lines, newlines = {}, octets.decode("latin-1").split("\n"), octets.count(b"\n")
    if lines[-1] == "" and newlines > 1:
        lines.pop()
    for number, line in enumerate(lines, 1):
        words, ended = line.split(" "), number <= newlines
        with refused_as(number):
            if number == 1:
                require(words == ["proof", "1"] and ended, "Form")
            elif number == 2:
                require(words[0] == "entries" and len(words) > 1, "Form")
                require(read_word(words[1]) == len(survivors.entries), "WrongCount")
                require(len(words) == 2 and ended, "Form")
            else:
                read_past(words, ended, survivors, ancestors)
    return ancestors

def read_word(word):
    number = read_decimal(word)
    require(number is not None, "Form")
    return number

def read_past(words, ended, survivors, ancestors):
    """Read a line `past`: the ancestors of a survivor after those that have had a line."""
    require(words[0] == "past" and len(words) > 1, "Form")
    place = read_word(words[1])
    require(place < len(survivors.entries), "OutOfRange")
    require(place > max(ancestors, default=-1), "NotRising")
    ticked = [place]
    for word in words[2:]:
        require(word.count(":") == 1, "Form")
        ancestor, via = map(read_word, word.split(":"))
        require(max(ancestor, via) < len(survivors.entries), "OutOfRange")
        require(len(ticked) == 1 or ancestor < ticked[-1], "NotFalling")
        require(via in ticked, "NotReached")
        require(ancestor in survivors.parents[via], "NotParent")
        ticked.append(ancestor)
    require(ended, "Form")
    found = set(ticked[1:])
    require(all(found.issuperset(survivors.parents[one]) for one in ticked), "NotClosed")
    ancestors[place] = found
