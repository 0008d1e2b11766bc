"""What tests/command holds the command against: the rules of docs/FORMAT.md once more, written from that page alone, and policies, packets and texts in the
notation (docs/NOTATION.md) as they are drawn."""

import copy

# ---- Matches, actions and operators. A match is a tuple of the six fields, None where a value is unconstrained, an address with its length; NEVER is the
# ---- match of no packet. An action is its kind and its rate.

ROOM = 1024
FIELDS = ("in_port", "source", "destination", "protocol", "source_port", "destination_port")
SIDES = (1, 2)
VALUES = (0, 3, 4, 5)
LARGEST = (65535, 2**32 - 1, 2**32 - 1, 255, 65535, 65535)
PORTED = (6, 17)
ANY = (None, (0, 0), (0, 0), None, None, None)
NEVER = None
NONE, ALLOW, DENY = (0, 0), (1, 0), (2, 0)
CAP = 100_000_000
SHOWING = [ALLOW, DENY, (3, 1), (3, 2), (3, 4)]
CELLS = {
    "sibling": (1, 2, 4, 2, 2, 2, 3, 2, 5),
    "parent": (1, 2, 4, 1, 2, 4, 3, 2, 5),
    "adding": (1, 2, 4, 2, 2, 2, 3, 2, 7),
    "cautious": (1, 2, 4, 2, 2, 2, 3, 2, 6),
}
ROLES = ("inside", "between", "below")
MIRRORED = {1: 1, 2: 2, 3: 4, 4: 3}
USUAL = {"inside": "sibling", "between": "sibling", "below": "parent"}


def is_empty(match):
    return match is NEVER or ((match[4] is not None or match[5] is not None) and match[3] not in (None, *PORTED))


def agrees(address, prefix):
    return (address ^ prefix[0]) >> (32 - prefix[1]) == 0


def meets(match, packet):
    if match is NEVER or not all(agrees(packet[i], match[i]) for i in SIDES):
        return False
    if (match[4] is not None or match[5] is not None) and packet[3] not in PORTED:
        return False
    return all(match[i] is None or match[i] == packet[i] for i in VALUES)


def common(first, second):
    """The match of the packets that meet both, NEVER if there are none."""
    if is_empty(first) or is_empty(second):
        return NEVER
    both = []
    for i, (a, b) in enumerate(zip(first, second)):
        if i in SIDES:
            short, long = (a, b) if a[1] <= b[1] else (b, a)
            if not agrees(long[0], short):
                return NEVER
            both.append(long)
        elif a is not None and b is not None and a != b:
            return NEVER
        else:
            both.append(b if a is None else a)
    return NEVER if is_empty(tuple(both)) else tuple(both)


def lies_inside(match, other):
    if is_empty(match):
        return True
    if is_empty(other) or any(other[i] is not None and other[i] != match[i] for i in VALUES):
        return False
    return all(other[i][1] <= match[i][1] and agrees(match[i][0], other[i]) for i in SIDES)


def join(cells, left, right):
    if left == NONE or right == NONE:
        return right if left == NONE else left
    code = cells[3 * (left[0] - 1) + right[0] - 1]
    rate = {5: max(left[1], right[1]), 6: min(left[1], right[1]), 7: min(left[1] + right[1], CAP)}
    return {1: ALLOW, 2: DENY, 3: left, 4: right}.get(code) or (3, rate[code])


def broken_law(cells):
    """The first actions of the showing list that break a law: two, or three, or None."""
    for a in SHOWING:
        for b in SHOWING:
            if join(cells, a, b) != join(cells, b, a):
                return (a, b)
    for a in SHOWING:
        for b in SHOWING:
            for c in SHOWING:
                if join(cells, join(cells, a, b), c) != join(cells, a, join(cells, b, c)):
                    return (a, b, c)
    return None


# ---- Trees, the steps in which they settle, and rows.


class Rule:
    def __init__(self, label, action, match):
        self.label, self.action, self.match = label, action, match


class Node:
    def __init__(self, name, depth):
        self.name, self.depth, self.rules, self.children = name, depth, [], []
        self.uses, self.says = dict(USUAL), set()


class Policy:
    def __init__(self, root, declared, cells):
        self.root, self.declared, self.cells = root, declared, cells
        self.nodes = list(preorder(root))
        self.atoms = [(node, rule) for node in self.nodes for rule in node.rules]
        self.matches = [rule.match for _, rule in self.atoms]

    def renamed(self):
        """The same policy with the names that one gets that is read from words."""
        policy = copy.deepcopy(self)
        for i, node in enumerate(policy.nodes):
            node.name = f"node-{i}"
        for i, (_, rule) in enumerate(policy.atoms):
            rule.label = f"rule-{i}"
        return policy


def preorder(node):
    yield node
    for child in node.children:
        yield from preorder(child)


def shown(action):
    kind = ("none", "allow", "deny", "reserve")[action[0]]
    return {"kind": kind, "kbit/s": action[1]} if action[0] == 3 else {"kind": kind}


def steps(policy, met):
    """What the tree makes of the atoms that are met, and its nodes' steps, each folded from the last."""
    told, flags = {}, {id(rule): flag for (_, rule), flag in zip(policy.atoms, met)}

    def settle(node):
        own, below, rules = NONE, NONE, []
        for child in reversed(node.children):
            made = settle(child)
            told[child.name]["rest"] = shown(below)
            below = join(policy.cells[node.uses["between"]], made, below)
            told[child.name]["joined"] = shown(below)
        for rule in reversed(node.rules):
            rest, flag = own, flags[id(rule)]
            own = join(policy.cells[node.uses["inside"]], rule.action, own) if flag else own
            rules.insert(0, {"rule": rule.label, "met": flag, "rest": shown(rest), "made": shown(own)})
        made = join(policy.cells[node.uses["below"]], own, below)
        told[node.name] = {"node": node.name, "rules": rules, "own": shown(own), "below": shown(below), "made": shown(made)}
        return made

    made = settle(policy.root)
    told[policy.root.name].update(rest=shown(NONE), joined=shown(made))
    return made, [told[node.name] for node in policy.nodes]


def settled(policy, packet, without=None):
    return steps(policy, [i != without and meets(match, packet) for i, match in enumerate(policy.matches)])[0]


def over(policy, match, without=None):
    """The tree's action over the atoms that a match lies inside."""
    return steps(policy, [i != without and lies_inside(match, it) for i, it in enumerate(policy.matches)])[0]


def many_rows(policy):
    """Whether more sets of atoms than there is room for have a packet that meets all of the set."""
    count = 0

    def grow(first, match):
        nonlocal count
        for i in range(first, len(policy.matches)):
            both = common(match, policy.matches[i])
            if both is not NEVER and count <= ROOM:
                count += 1
                grow(i + 1, both)

    grow(0, ANY)
    return count > ROOM


def rows_of(policy):
    """The rows that stay, each a match and an action, or None where there is no room for all."""
    if many_rows(policy):
        return None

    def joined(cells, tables):
        table = []
        for before in reversed(tables):
            both = [(common(m, n), join(cells, a, b)) for m, a in before for n, b in table]
            table = [it for it in both if it[0] is not NEVER] + before + table
        return table

    def compiled(node):
        own = joined(policy.cells[node.uses["inside"]], [[(it.match, it.action)] for it in node.rules if not is_empty(it.match)])
        below = joined(policy.cells[node.uses["between"]], [compiled(child) for child in node.children])
        return joined(policy.cells[node.uses["below"]], [own, below])

    stay, seen = [], set()
    for match, action in compiled(policy.root):
        if match not in seen and not any(lies_inside(match, above) for above, _ in stay):
            stay.append((match, action))
        seen.add(match)
    return stay


def levels_of(matches):
    levels = []
    for i, match in enumerate(matches):
        levels.append(1 + max((levels[j] for j in range(i) if common(matches[j], match) is not NEVER), default=-1))
    return levels


def chain_of(matches, levels):
    if not matches:
        return []
    chain = [levels.index(max(levels))]
    while levels[chain[0]] > 0:
        at = chain[0]
        chain.insert(0, next(j for j in range(at) if levels[j] == levels[at] - 1 and common(matches[j], matches[at]) is not NEVER))
    return chain


class Table:
    """The rows of a policy that stay, as the model has them, with what the command says of each."""

    def __init__(self, policy, rows):
        self.matches = [match for match, _ in rows]
        levels = levels_of(self.matches)
        self.count = max(levels, default=-1) + 1
        self.chain = chain_of(self.matches, levels)
        self.rows = [
            {"priority": self.count - level, "match": shown_match(match), "action": shown(action), "rules": origins(policy, match)}
            for (match, action), level in zip(rows, levels)
        ]

    def found(self, packet):
        for i, match in enumerate(self.matches):
            if meets(match, packet):
                return {"row": i + 1, "priority": self.rows[i]["priority"], "rules": self.rows[i]["rules"], "tried": i + 1}
        return {"row": None, "tried": len(self.matches)}

    def listing(self):
        """The rows as docs/FORMAT.md lists them."""
        lines = [f"rows {len(self.rows)} priorities {self.count}"]
        for match, row in zip(self.matches, self.rows):
            fields = [f"{dotted(it[0])}/{it[1]}" if i in SIDES else "*" if it is None else str(it) for i, it in enumerate(match)]
            action = " ".join(map(str, row["action"].values())).replace("reserve", "gmb")
            lines.append(" ".join([str(row["priority"]), *fields, action]))
        return "\n".join(lines) + "\n"


def origins(policy, match):
    return [{"node": node.name, "rule": rule.label} for node, rule in policy.atoms if lies_inside(match, rule.match)]


def dotted(address):
    return ".".join(str(address >> shift & 255) for shift in (24, 16, 8, 0))


def address_of(text):
    return sum(int(part) << shift for part, shift in zip(text.split("."), (24, 16, 8, 0)))


def prefix_of(text):
    return (address_of(text.split("/")[0]), int(text.split("/")[1]))


def shown_match(match):
    return {name: f"{dotted(it[0])}/{it[1]}" if i in SIDES else it for i, (name, it) in enumerate(zip(FIELDS, match)) if it is not None}


def match_of(value):
    return tuple(prefix_of(value[name]) if i in SIDES else value.get(name) for i, name in enumerate(FIELDS))


def shown_packet(packet):
    return {name: dotted(it) if i in SIDES else it for i, (name, it) in enumerate(zip(FIELDS, packet))}


def packet_of(value):
    return tuple(address_of(value[name]) if i in SIDES else value[name] for i, name in enumerate(FIELDS))


# ---- Policies and packets are drawn.

PREFIXES = [prefix_of(text) for text in (
    "0.0.0.0/0", "0.0.0.0/1", "10.0.0.0/8", "10.0.0.0/9", "10.7.0.0/16", "10.7.0.0/17", "10.7.3.0/24", "10.7.3.8/29", "10.7.3.9/32", "10.7.3.10/32",
    "10.7.128.0/17", "128.0.0.0/1", "255.255.255.255/32", "0.0.0.0/32")]
PORTS = [0, 53, 80, 81, 65535]
IN_PORTS = [0, 1, 65535]
PROTOCOLS = [6, 6, 6, 17, 17, 1]
PORTLESS = [0, 1, 255]
RATES = [1, 2, 999, 1000, 40_000, 60_000_000, 99_999_999, CAP]
NESTED = 10


def draw_action(draw):
    kind = draw.random()
    return NONE if kind < 0.03 else ALLOW if kind < 0.2 else DENY if kind < 0.35 else (3, draw.choice(RATES))


def draw_match(draw):
    """Mostly one that nests with others: of the prefixes the first ones more often, and few values."""
    kind = draw.random()
    if kind < 0.08:
        return NEVER if kind < 0.03 else ANY
    pools = (IN_PORTS, PREFIXES[:NESTED], PREFIXES[:NESTED] if kind < 0.9 else PREFIXES, PROTOCOLS, PORTS[2:], PORTS[2:] if kind < 0.8 else PORTS)
    match = [draw.choice(pool) if draw.random() < chance else ANY[i] for i, (pool, chance) in enumerate(zip(pools, (0.15, 0.3, 0.6, 0.3, 0.08, 0.25)))]
    if kind < 0.11:
        match[3], match[5] = draw.choice(PORTLESS), draw.choice(PORTS)
    return tuple(match)


def draw_policy(draw):
    """A tree of 1 to 8 nodes with 0 to 4 rules each; one without room for its rows only now and then."""
    while True:
        nodes, most = [Node("n0", 1)], draw.choice([1, 2, 4, 4, 4])
        for i in range(1, draw.randint(1, 8)):
            above = draw.choice(nodes)
            nodes.append(Node(f"n{i}", above.depth + 1))
            above.children.append(nodes[-1])
        cells = dict(CELLS, odd=tuple(draw.randint(1, 4) for _ in range(8)) + (draw.randint(1, 7),))
        drawn = []
        for node in preorder(nodes[0]):
            for role in ROLES:
                names = ["sibling", "adding", "cautious"] + ["parent", "parent", "odd"] * (role == "below")
                node.uses[role] = draw.choice(names) if draw.random() < 0.6 else USUAL[role]
                if node.uses[role] != USUAL[role] or draw.random() < 0.2:
                    node.says.add(role)
            for i in range(draw.randint(0, most)):
                equal = drawn and draw.random() < 0.1
                action, match = draw.choice(drawn) if equal else (draw_action(draw), draw_match(draw))
                drawn.append((action, match))
                node.rules.append(Rule(f"r{i}", action, match))
        used = {name for node in nodes for name in node.uses.values()}
        declared = [name for name in cells if name in used and name not in USUAL.values() or draw.random() < 0.3]
        draw.shuffle(declared)
        policy = Policy(nodes[0], declared, cells)
        if not many_rows(policy) or draw.random() < 0.2:
            return policy


def ends(prefix):
    return [prefix[0], prefix[0] + 2 ** (32 - prefix[1]) - 1]


def draw_packet(policy, draw):
    """A packet at the edge of what some rules have in common, or one beside it."""
    match = draw.choice([it for it in policy.matches if not is_empty(it)] or [ANY])
    for other in draw.sample(policy.matches, draw.randint(0, len(policy.matches))):
        both = common(match, other)
        match = match if both is NEVER else both
    pools = (IN_PORTS, None, None, PROTOCOLS + PORTLESS if match[4:] == (None, None) else PORTED, PORTS, PORTS)
    packet = []
    for i, it in enumerate(match):
        if i in SIDES:
            packet.append(draw.choice(ends(it) if it[1] else [end for prefix in PREFIXES for end in ends(prefix)]))
        else:
            packet.append(draw.choice(pools[i]) if it is None else it)
    if draw.random() < 0.3:
        i = draw.randrange(6)
        packet[i] = (packet[i] + draw.choice([1, -1])) % (LARGEST[i] + 1)
    return tuple(packet)


# ---- Policies and packets are written (docs/NOTATION.md).

NAMED = {6: "tcp", 17: "udp", 1: "icmp"}
UNITS = [("kbit/s", 1), ("Mbit/s", 1000), ("Gbit/s", 1_000_000)]
CODES = ("allow", "deny", "left", "right", "larger", "smaller", "sum")
KINDS = ("allow", "deny", "reserve")


def action_text(action, draw):
    if action[0] < 3:
        return ("none", "allow", "deny")[action[0]]
    unit, size = draw.choice([it for it in UNITS if action[1] % it[1] == 0])
    return f"reserve {action[1] // size} {unit}"


def match_text(match, draw):
    if match in (NEVER, ANY):
        return "never" if match is NEVER else draw.choice(["any", "to 0.0.0.0/0"])
    parts = [] if match[0] is None else [f"in {match[0]}"]
    if match[3] is not None:
        parts.append(NAMED[match[3]] if match[3] in NAMED and draw.random() < 0.8 else f"protocol {match[3]}")
    for word, prefix, port in (("from", match[1], match[4]), ("to", match[2], match[5])):
        if prefix[1] or port is not None:
            address = dotted(prefix[0]) + ("" if prefix[1] == 32 and draw.random() < 0.5 else f"/{prefix[1]}")
            parts += [word] + [address] * (prefix[1] > 0) + [f"port {port}"] * (port is not None)
    return " ".join(parts)


class Written:
    """A policy's text, the places of its rules and operators, each a line and a column, and the words that it gives."""

    def __init__(self, policy, draw):
        self.lines, self.rules, self.order, self.places, self.draw, self.warned = [], [], list(policy.declared), {}, draw, 0
        for name in policy.declared:
            self.put_operator(name, policy.cells[name])
        self.root = None
        self.put_node(policy.root)
        self.text = "\n".join(self.lines) + "\n"
        self.words = [len(self.order)] + [code for name in self.order for code in policy.cells[name]] + [len(policy.atoms)]
        for _, rule in policy.atoms:
            self.words += match_words(rule.match) + list(rule.action)
        self.words.append(len(policy.nodes))
        for node in policy.nodes:
            indexes = [self.order.index(node.uses[role]) for role in ("inside", "below", "between")]
            self.words += indexes + [len(node.rules), len(node.children)]

    def put_operator(self, name, cells):
        self.places[name] = (len(self.lines) + 1, len("operator ") + 1)
        if name in USUAL.values():
            self.lines.append(f"operator {name}")
            return
        self.lines += [f"operator {name} {{", "    allow deny reserve"]
        self.lines += [f"    {kind} " + " ".join(CODES[code - 1] for code in cells[3 * i:3 * i + 3]) for i, kind in enumerate(KINDS)] + ["}"]

    def put_node(self, node):
        blanks = " " * 4 * (node.depth - 1)
        line, at = f"{blanks}node {node.name}", (len(self.lines) + 1, len(blanks) + len("node ") + 1)
        for role in ROLES:
            name, place = node.uses[role], at
            if role in node.says:
                line += f" {role} {name}"
                place = (len(self.lines) + 1, len(line) - len(name) + 1)
            if name not in self.order:
                self.order.append(name)
                self.places[name] = place
        self.lines.append(line + " {" + " # a node" * (self.draw.random() < 0.1))
        self.root = self.root or len(self.lines)
        for rule in node.rules:
            self.rules.append((len(self.lines) + 1, len(blanks) + 5))
            self.lines.append(f"{blanks}    {rule.label}: {action_text(rule.action, self.draw)} {match_text(rule.match, self.draw)}")
        for child in node.children:
            self.put_node(child)
        self.lines.append(blanks + "}")


def match_words(match):
    if match is NEVER:
        return [0] * 8 + [16]
    flags = sum(flag for flag, i in ((1, 0), (2, 3), (4, 4), (8, 5)) if match[i] is not None)
    return [it[0] if i in SIDES else it or 0 for i, it in enumerate(match)] + [match[1][1], match[2][1], flags]


def packet_words(packet, draw):
    protocol = NAMED[packet[3]] if packet[3] in NAMED and draw.random() < 0.7 else packet[3]
    return [str(packet[0]), dotted(packet[1]), dotted(packet[2]), str(protocol), str(packet[4]), str(packet[5])]
