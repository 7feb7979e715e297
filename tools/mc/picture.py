"""The definitions of functions as a picture for graphviz: which calls and enters which, and where each is left."""
from mc import listing
from mc.syntax import RETURN, Again, Call, If, exit_text


def picture(groups):
    """The lines of a graph with a cluster for each function."""
    yield "digraph {"
    for k, group in enumerate(groups):
        yield from _cluster(k, group)
    yield "}"


def _edges(number, body, exits, after=""):
    """The edges of a body: from which definition, to which one or to which exit, and what is told of it. `after` is how the last call left."""
    end = body.end
    if isinstance(end, If):
        yield from _edges(number, end.then, exits, after)
        yield from _edges(number, end.otherwise, exits, after)
    elif isinstance(end, Again):
        yield f"d{number}", f"d{number}", f"again {after}".rstrip()
    elif isinstance(end, Call):
        yield f"d{number}", f"d{end.target}", after
        for arm in () if listing.passes(end, exits) else end.arms:
            yield from _edges(number, arm.body, exits, "after return" if arm.exit == RETURN else f"after {exit_text(arm.exit)}")
    else:
        yield f"d{number}", exit_text(exits[end.exit]), after


def _cluster(k, group):
    last = len(group.definitions) - 1
    edges = dict.fromkeys(edge for d, definition in enumerate(group.definitions) for edge in _edges(d, definition.body, definition.exits))
    name = group.name.replace("\\", "\\\\").replace('"', '\\"')
    yield f'  subgraph cluster_{k} {{ label="{name}";'
    for d, definition in enumerate(group.definitions):
        kind = listing.kind(definition)
        shape = "doubleoctagon" if d == last else "ellipse" if kind == "loop" else "box"
        yield f'    g{k}d{d} [shape={shape}, label="d{d} {kind}\\n{definition.entry:#x}"];'
    for target in dict.fromkeys(target for _, target, _ in edges if not target.startswith("d")):
        yield f'    g{k}{target} [shape=plaintext, label="{"return" if target == RETURN else f"leave to {target}"}"];'
    for source, target, told in edges:
        yield f'    g{k}{source} -> g{k}{target} [label="{told}"];'
    yield "  }"
