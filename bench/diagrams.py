"""Diagrams of a chosen number of outcomes, as texts that nego reads."""


def header(agents):
    return ["nego 1"] + [f"agent {name} {size}" for name, size in agents]


def outcome(name, case, nexts):
    return [f"out {name}", f"case {case}"] + [f"next {atom} {' '.join(agents)}" for atom, agents in nexts]


def text(lines, first, last):
    return "\n".join(lines + [f"first {first}", f"last {last}", "end"]) + "\n"


def stages(outcomes):
    """Stages one behind the other, each with four outcomes that lead to the next one, so that they merge."""
    agents = [("a", 4), ("b", 4)]
    count = outcomes // 4
    lines = header(agents)
    for i in range(count):
        lines.append(f"atom s{i} a b")
        for j in range(4):
            nexts = [(f"s{i + 1}", ["a", "b"])] if i + 1 < count else []
            lines += outcome(f"o{j}", f": a:={j}", nexts)
    return text(lines, "s0", f"s{count - 1}")


def loops(outcomes):
    """Stages of which each may be repeated, and is left by three outcomes."""
    agents = [("a", 4), ("b", 4)]
    count = outcomes // 4
    lines = header(agents)
    for i in range(count):
        lines.append(f"atom s{i} a b")
        nexts = [(f"s{i + 1}", ["a", "b"])] if i + 1 < count else []
        again = [(f"s{i}", ["a", "b"])] if i + 1 < count else []
        lines += outcome("again", ": a:=a+1", again)
        for j in range(3):
            lines += outcome(f"o{j}", f": b:=b-{j}", nexts)
    return text(lines, "s0", f"s{count - 1}")


def forks(outcomes):
    """Forks of two agents who each decide alone, and meet again; the choices come together by shortcuts."""
    agents = [("a", 4), ("b", 4)]
    count = max(1, (outcomes - 1) // 7)
    lines = header(agents)
    for i in range(count):
        lines.append(f"atom m{i} a b")
        lines += outcome("go", ":", [(f"a{i}", ["a"]), (f"b{i}", ["b"])])
        for agent in "ab":
            lines.append(f"atom {agent}{i} {agent}")
            for j in range(3):
                lines += outcome(f"o{j}", f": {agent}:={j}", [(f"m{i + 1}", [agent])])
    lines.append(f"atom m{count} a b")
    lines += outcome("ok", ":", [])
    return text(lines, "m0", f"m{count}")


def hub():
    """A hub that sends two agents to fifteen and fourteen places, from which they come back: it meets the limit of nodes."""
    lines = header([("a", 1), ("b", 1)])
    lines.append("atom hub a b")
    for i in range(15):
        for j in range(14):
            lines += outcome(f"p_{i}_{j}", ":", [(f"x{i}", ["a"]), (f"y{j}", ["b"])])
    lines += outcome("stop", ":", [("end", ["a", "b"])])
    for agent, place, count in (("a", "x", 15), ("b", "y", 14)):
        for i in range(count):
            lines.append(f"atom {place}{i} {agent}")
            lines += outcome("back", ":", [("hub", [agent])])
    lines.append("atom end a b")
    lines += outcome("ok", ":", [])
    return text(lines, "hub", "end")


def counter(size, other, rounds):
    """Loops one behind the other, over two agents with so many values: what an answer costs."""
    lines = header([("a", size), ("b", other)])
    for i in range(rounds):
        lines.append(f"atom s{i} a b")
        lines += outcome("again", ": a:=a+1", [(f"s{i}", ["a", "b"])])
        lines += outcome("on", ": b:=b+1", [(f"s{i + 1}", ["a", "b"])])
    lines.append(f"atom s{rounds} a b")
    lines += outcome("ok", ":", [])
    return text(lines, "s0", f"s{rounds}")


def long_way(ways, steps):
    """A fork that leaves eight agents two places each, in so many ways, and a ninth with many steps to go: an answer from
    an expression of many nodes."""
    places = [(f"x{i}_{j}", f"a{i}") for i in range(8) for j in range(2)]
    walk = [(f"w{k}", "z") for k in range(steps)]
    agents = [f"a{i}" for i in range(8)] + ["z"]
    lines = header([(agent, 2) for agent in agents])
    lines.append("atom fork " + " ".join(agents))
    for way in range(ways):
        nexts = [(f"x{i}_{way >> i & 1}", [f"a{i}"]) for i in range(8)] + [("w0", ["z"])]
        lines += outcome(f"o{way}", ":", nexts)
    for k, (atom, agent) in enumerate(walk):
        lines.append(f"atom {atom} {agent}")
        lines += outcome("go", f": {agent}:={k % 2}", [(f"w{k + 1}" if k + 1 < steps else "meet", [agent])])
    for atom, agent in places:
        lines.append(f"atom {atom} {agent}")
        lines += outcome("go", f": {agent}:={atom[-1]}", [("meet", [agent])])
    lines.append("atom meet " + " ".join(agents))
    lines += outcome("ok", ":", [])
    return text(lines, "fork", "meet")


def cut(made):
    """What `make` prints, without the line behind the diagram."""
    return "".join(made.splitlines(keepends=True)[:-1])


FAMILIES = {"stages": stages, "loops": loops, "forks": forks}


def long_run():
    """A turn of two agents, and a schedule of 10,000 events in which it is repeated: each time its Ready is told and given,
    the other agent decides, and its Decide is given."""
    again = outcome("again", ": a:=a+1", [("turn", ["a", "b"])])
    stop = outcome("stop", ": b:=1", [("end", ["a", "b"])])
    lines = header([("a", 4), ("b", 2)]) + ["atom turn a b"] + again + stop + ["atom end a b"] + outcome("ok", ":", [])
    events = [f"tell b\ngive {2 * i}\ndecide a 0 0\ngive {2 * i + 1}\n" for i in range(2500)]
    return text(lines, "turn", "end") + "schedule 1\n" + "".join(events) + "end\n"


def long_replay():
    """An atom that leads to itself for ever, and a certificate of as many uses as the limit of nodes allows, and one more."""
    diagram = "nego 1\nagent a 1\natom start a\nout go\ncase :\nnext x a\natom x a\nout u\ncase :\nnext x a\natom end a\nout ok\ncase :\nfirst start\nlast end\nend\n"
    return diagram + "certificate 1\n" + "shortcut 0 1\n" * 19998 + "end\n"
