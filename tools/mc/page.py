"""The functions of a text as one page of HTML, which needs nothing from elsewhere."""
import html
import re

from mc import listing, notation
from mc.syntax import Call, exit_text

STYLE = """
:root { color-scheme: light dark; --line: #d5d9e0; --soft: #f5f6f8; --dim: #667; --key: #7a2e8e; --link: #0b5cad; --note: #8a5a00; }
@media (prefers-color-scheme: dark) { :root { --line: #3a3f4a; --soft: #22252b; --dim: #9aa; --key: #d6a3e6; --link: #7db8f2; --note: #e0b15a; } }
body { margin: 0 auto; padding: 1rem 2rem 4rem; max-width: 100rem; font: 15px/1.5 system-ui, sans-serif; }
h1 { font-size: 1.3rem; } h2 { font-size: 1.15rem; margin: 2.5rem 0 .3rem; }
code, .listing, summary, dl { font: 13px/1.55 ui-monospace, "DejaVu Sans Mono", Menlo, Consolas, monospace; }
a { color: var(--link); text-decoration: none; } a:hover { text-decoration: underline; }
nav a, .names code { display: inline-block; margin: 0 1.2em .2em 0; }
.facts, .callers { color: var(--dim); } .names { margin: .2rem 0 1rem; }
details.definition { border: 1px solid var(--line); border-radius: 6px; margin: .6rem 0; overflow: hidden; }
details.definition > summary { background: var(--soft); padding: .35rem .8rem; cursor: pointer; }
details.definition:target > summary { outline: 2px solid var(--link); outline-offset: -2px; }
summary b { font-weight: 700; } .callers { float: right; margin-left: 2em; font-size: 12px; }
.listing { display: flex; flex-wrap: wrap; align-items: flex-start; }
.code { box-sizing: border-box; flex: 0 0 auto; min-width: 23rem; padding: .5rem 1.2rem .6rem .8rem; color: var(--dim); white-space: pre; border-right: 1px solid var(--line); align-self: stretch; }
.body { box-sizing: border-box; flex: 1 1 30rem; min-width: 0; padding: .5rem .8rem .6rem; overflow-wrap: anywhere; }
.line { padding-left: calc(var(--depth) * 2em + 2em); text-indent: -2em; white-space: pre-wrap; } .line:target { background: color-mix(in srgb, var(--link) 18%, transparent); }
.key { color: var(--key); font-weight: 600; } .note { color: var(--note); white-space: pre-wrap; }
@media (max-width: 60rem) { body { padding: 1rem; } .code { flex-basis: 100%; border-right: 0; border-bottom: 1px dashed var(--line); } }
dl { display: grid; grid-template-columns: max-content auto; gap: 0 1.5em; margin: .4rem 0; } dt { white-space: pre; } dd { margin: 0; }
"""
LEGEND = (
    ("/u %u <u >=u >>u", "unsigned"),
    ("/s %s <s >=s >>s", "signed"),
    ("+w -w *w ..", "on the low 32 bits, their sign extended"),
    ("sx1(a) sx2(a) sx4(a)", "the low 1, 2 or 4 bytes, their sign extended"),
    ("mem[a]:4", "the 4 bytes at the address a"),
    ("mem[a]:4 := b", "the memory after a store"),
    ("stk", "the second memory: in a text of split, what the function has on its stack"),
    ("a0'", "a0 as a call left it; else registers have the values at the entry of their definition"),
    ("need 2: c, (need 2)", "c, or that the bytes of the access are there, must be so, or nothing is claimed: else `mcdec eval` says `refused side D 2`"),
    ("with ..", "the registers and memories that get another value; all others stay as they are there"),
    ("a0 = x10 = v1 = w1", "a register by the ABI, by its number, in the text, and in a script of `mcdec smt`"),
)
KEYS = re.compile(r"^(need \d+:|if|else:|call|continue as|again|leave to|return to|after its return:|after it left to)(?= |$)")


def page(title, groups, fold, beside):
    """The lines of the page."""
    yield from ("<!DOCTYPE html>", '<html lang="en">', '<meta charset="utf-8">', f"<title>{html.escape(title)}</title>", f"<style>{STYLE}</style>")
    yield f"<h1>{html.escape(title)}</h1>"
    for warning in beside.warnings if beside else ():
        yield f'<p class="note">{html.escape(warning)}</p>'
    if len(groups) > 1:
        yield "<nav>" + "".join(f'<a href="#f{k}">{html.escape(group.name)}</a>' for k, group in enumerate(groups)) + "</nav>"
    yield "<details><summary>How to read this</summary><dl>"
    yield from (f"<dt>{html.escape(sign)}</dt><dd>{html.escape(says)}</dd>" for sign, says in LEGEND)
    yield "</dl></details>"
    for k, group in enumerate(groups):
        yield from _function(k, group, fold, beside)
    yield "</html>"


def _function(k, group, fold, beside):
    yield f'<section id="f{k}">'
    yield f'<h2>{html.escape(group.name)}</h2><div class="facts">{html.escape(listing.heading(group).partition(": ")[2])}</div>'
    yield '<div class="names">' + "".join(f"<code>{html.escape(name)}</code>" for name in notation.names_line(group)) + "</div>"
    blocks = listing.blocks(group, fold)
    codes = [beside.code(block.definition.axioms) if beside else [] for block in blocks]
    if beside and not any(codes) and beside.all_code(group):
        yield '<details class="definition" open><summary>the code</summary><div class="listing">'
        yield _code(beside.all_code(group)) + "</div></details>"
    callers = _callers(group)
    for block, code in zip(blocks, codes):
        yield from _definition(k, group, block, code, callers[block.number], beside)
    yield "</section>"


def _code(lines):
    """Instructions, a line each."""
    return f'<div class="code">{html.escape(chr(10).join(lines))}</div>'


def _callers(group):
    """For each definition the later ones that call it."""
    found = [[] for _ in group.definitions]
    for d, definition in enumerate(group.definitions):
        for target in dict.fromkeys(end.target for end in listing.ends(definition.body) if isinstance(end, Call)):
            found[target].append(d)
    return found


def _definition(k, group, block, code, callers, beside):
    title = html.escape(listing.title(group, block.number, beside.place if beside else exit_text))
    own, _, rest = title.partition(", ")
    links = " ".join(f'<a href="#f{k}d{d}">d{d}</a>' for d in callers)
    called = f'<span class="callers">called by {links}</span>' if callers else ""
    yield f'<details class="definition" id="f{k}d{block.number}" open><summary>{called}<b>{own}</b>, {rest}</summary><div class="listing">'
    if code:
        yield _code(code)
    yield '<div class="body">'
    yield from (_line(k, block.number, line, beside) for line in block.lines)
    yield "</div></div></details>"


def _line(k, number, line, beside):
    words = html.escape(line.text)
    words = KEYS.sub(lambda match: f'<span class="key">{match[1]}</span>', words)
    if line.target is not None:
        words = re.sub(rf"\bd{line.target}\b", f'<a href="#f{k}d{line.target}">d{line.target}</a>', words, count=1)
    notes = beside.notes(line.terms) if beside else []
    noted = f'<span class="note">    {html.escape(". ".join(notes))}</span>' if notes else ""
    place = f' id="f{k}d{number}need{line.need}"' if line.need is not None else ""
    return f'<div class="line" style="--depth: {line.depth}"{place}>{words}{noted}</div>'
