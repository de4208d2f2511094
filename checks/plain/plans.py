"""The text of a plan: a node a line, behind an arrow and six spaces further in at each level, its details below."""
from pruning import TURNED


class Naming:
    """How a plan names columns: the items of FROM with their names, whether these are aliases, and their columns; and whether it
    names parameters, or tells their values."""

    def __init__(self, items, has_params=False):
        self.items, self.has_params = items, has_params

    def column(self, item, place):
        name, _, columns = self.items[item]
        return (f"{name}." if len(self.items) > 1 else "") + columns[place]

    def alias(self, item):
        name, is_alias, _ = self.items[item]
        return f" {name}" if is_alias else ""


def constant(value):
    if value is None:
        return "NULL"
    if isinstance(value, bool):
        return "true" if value else "false"
    if isinstance(value, int):
        return str(value)
    doubled = str(value).replace("'", "''")
    return f"'{doubled}'"


def operand(naming, side):
    if naming.has_params and side.param is not None:
        return f"${side.param}"
    return constant(side.of(None)) if side.item is None else naming.column(side.item, side.place)


def in_a_row(word, texts):
    return texts[0] if len(texts) == 1 else "(" + f" {word} ".join(texts) + ")"


def atom_text(naming, atom):
    """The text of a conjunct."""
    sort = atom[0]
    if sort == "or":
        return in_a_row("OR", [in_a_row("AND", [atom_text(naming, inner) for inner in choice]) for choice in atom[1]])
    if sort == "known":
        return constant(atom[1])
    if sort != "compare":
        return f"({operand(naming, atom[1])} IS {'NOT ' if sort == 'not null' else ''}NULL)"
    _, sign, left, right = atom
    if left.item is None and right.item is not None:
        sign, left, right = TURNED[sign], right, left
    return f"({operand(naming, left)} {sign} {operand(naming, right)})"


def node(depth, text, details=(), counted=""):
    arrow = " " * (6 * depth - 4) + "->  " if depth else ""
    return [arrow + text + counted] + [" " * (6 * depth + 2) + detail for detail in details]


def details(naming, word, atoms):
    return [f"{word}: " + in_a_row("AND", [atom_text(naming, atom) for atom in atoms])] if atoms else []


def counted(rows, loops=1):
    """What ANALYZE tells of a node."""
    return f" (rows={rows} loops={loops})" if loops else " (never executed)"


def scan_lines(plan, naming, item, leaves, depth, analyzes):
    own = plan.scans(item)
    for leaf in leaves:
        told = counted(plan.counts["rows", item, leaf], plan.counts["loops", item, leaf]) if analyzes else ""
        yield from node(depth, f"Seq Scan on {leaf.name}{naming.alias(item)}", details(naming, "Filter", own), told)


def item_lines(plan, naming, item, depth, analyzes, part=None):
    leaves = plan.in_part(item, part, plan.leaves)
    told = counted(plan.counts["rows", item, part], plan.counts["loops", item, part]) if analyzes else ""

    def scans(depth):
        return scan_lines(plan, naming, item, leaves, depth, analyzes)
    planned = len(plan.in_part(item, part, plan.planned))
    if planned == 1 and not (plan.prunes_beside(item) or plan.prunes and plan.has_params(item)):
        return list(scans(depth))
    removed = [f"Subplans Removed: {planned - len(leaves)}"] if planned > len(leaves) else []
    return node(depth, "Append", removed, told) + list(scans(depth + 1))


def ordered_lines(plan, naming, parts, keys, depth, analyzes):
    """An Ordered Append: each part is sorted by itself."""
    lines = node(depth, "Ordered Append", (), counted(plan.counts["rows"]) if analyzes else "")
    for part in parts:
        told = counted(sum(plan.counts["rows", 0, leaf] for leaf in part)) if analyzes else ""
        lines += node(depth + 1, "Sort", keys, told)
        if len(part) > 1:
            lines += node(depth + 2, "Append", (), told)
        lines += scan_lines(plan, naming, 0, part, depth + (2 if len(part) == 1 else 3), analyzes)
    return lines


def pair_lines(plan, naming, depth, analyzes):
    """The first two items, joined partition by partition."""
    told = counted(sum(plan.counts["joined", 1, part] for part in plan.parts)) if analyzes else ""
    if not plan.parts:
        return node(depth, "Result", ["One-Time Filter: false"], told)
    if len(plan.parts) == 1:
        return joined(plan, naming, 2, depth, analyzes, plan.parts[0])
    lines = node(depth, "Append", (), told)
    return lines + [line for part in plan.parts for line in joined(plan, naming, 2, depth + 1, analyzes, part)]


def joined(plan, naming, count, depth, analyzes, part=None):
    """The first items, joined from the left; over one partition of each where there is a place of such."""
    last = count - 1
    if last == 1 and part is None and plan.parts is not None:
        return pair_lines(plan, naming, depth, analyzes)
    if last == 0:
        return item_lines(plan, naming, 0, depth, analyzes, part)
    told = counted(plan.counts["joined", last, part]) if analyzes else ""
    found_by = plan.hash_conds(last)
    asked = details(naming, "Hash Cond", found_by) + details(naming, "Join Filter", [atom for atom in plan.joins(last) if atom not in found_by])
    lines = node(depth, "Hash Join" if found_by else "Nested Loop", asked, told)
    return lines + joined(plan, naming, last, depth + 1, analyzes, part) + item_lines(plan, naming, last, depth + 1, analyzes, part)


def plan_lines(plan, naming, keys, parts, is_cut, analyzes=False):
    """The lines of a plan; keys are the texts of the keys of ORDER BY, and parts what is sorted by itself. Where it was run, each node
    tells its rows and loops."""
    lines, depth = [], 0
    rows, cut = (counted(plan.counts[name]) if analyzes else "" for name in ("rows", "cut"))
    if is_cut:
        lines, depth = node(0, "Limit", (), cut), 1
    sorted_by = ["Sort Key: " + ", ".join(keys)]
    if parts:
        return lines + ordered_lines(plan, naming, parts, sorted_by, depth, analyzes)
    if keys:
        lines += node(depth, "Sort", sorted_by, rows)
        depth += 1
    if plan.is_empty():
        return lines + node(depth, "Result", ["One-Time Filter: false"], rows)
    if not plan.trees:
        return lines + node(depth, "Result", (), rows)
    return lines + joined(plan, naming, len(plan.trees), depth, analyzes)
