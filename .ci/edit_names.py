"""How the names of goals and facts follow the code, and those of a proof file with them."""
import re


def renames(one, other):
    """The names of a function's goals, places and steps that are others now, each with its new name."""
    found = {}
    steps = lambda names: [it[2] for it in names["places"] if it[2][0]]
    alike = [(one["needs"], other["needs"]), (steps(one), steps(other))]
    alike.append((list(zip(one["places"], one["places_by_name"])), list(zip(other["places"], other["places_by_name"]))))
    for were, now in alike:
        if len(were) == len(now):
            pairs = zip(were, now)
        else:
            # By what they are called by their order in the code, where a step more or less lies between.
            by = lambda it: it[0] if isinstance(it[0], str) else it[0][0]
            there = {by(it): it for it in now}
            pairs = ((it, there[by(it)]) for it in were if by(it) in there)
        found.update({old[1]: new[1] for old, new in pairs if old[1] != new[1]})
    return found


def follow(name, renamed):
    """A name of a proof file as it is now. The way into a join is named by the tests on it, as `then-x-eq0` and `then-x-eq0-via-else-x-eq0+then-y` for `if-x-eq0`."""
    if name in renamed:
        return renamed[name]
    if re.match(r"(then|else)-", name):
        for old, new in renamed.items():
            if old.startswith("if-") and new.startswith("if-"):
                name = re.sub(rf"(?<=then-|else-){re.escape(old[3:])}(?=$|[-+])", lambda _: new[3:], name)
    return name


def function_at(text, line):
    """The function, or the constant, in whose text a line of the code stands. An attribute is of the function below it."""
    lines = (text or "").split("\n")
    while line < len(lines) and lines[line - 1].lstrip().startswith("#["):
        line += 1
    found = re.findall(r"\bfn (\w+)|^ *(?:pub )?const (\w+)", "\n".join(lines[:line]), re.M)
    return "".join(found[-1]) if found else None
