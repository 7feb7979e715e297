#!/usr/bin/env python3
"""What a reader has to believe of a contract: the definitions that it cites, and those that these stand on.

    tools/definitions.py            prints the counts and the table of the contracts below
    tools/definitions.py --write    writes docs/DEFINITIONS.md anew: the counts, and the items of
                                    definitions between its marks. An item holds the comment above
                                    its definitions. It also shortens tools/shared_names.txt, where
                                    that has names that are no longer shared
    tools/definitions.py --check    fails where the document would be written otherwise, where a
                                    definition that a contract in EXPLAINED stands on has no item,
                                    and where a public definition gets a name that another crate's
                                    has: tools/shared_names.txt has those that do today, with the
                                    number of crates, and may only get shorter
    tools/definitions.py --names    names the definitions of each file, needed and not
    tools/definitions.py --lemmas   lists the lemmas (proofs/) that crates above their own cite, by
                                    file, and which crates do

A mark of the document is a line `<!-- rows: CRATE FILE, FILE; CRATE FILE -->`, or
`<!-- files: .. -->` for files that get one item each, or `<!-- rows: the others -->` for all files
that no mark names. What stands behind it up to `<!-- end of rows -->` is written.

Lines are those of definitions in specs/, without imports, comments and blank lines. A name that a
lambda binds and that is spelled like a definition counts as that definition, so a figure may be a
little high. What the toolchain's libraries define isn't counted.
"""
import collections
import itertools
import os
import re
import sys

from wrapping import wrapped

TOP = os.path.dirname(os.path.dirname(os.path.abspath(__file__)))
CRATES = os.path.join(TOP, 'crates')
DOCUMENT = os.path.join(TOP, 'docs', 'DEFINITIONS.md')
SHARED = os.path.join(TOP, 'tools', 'shared_names.txt')
BEGIN, END = '<!-- definitions.py: begin -->\n', '<!-- definitions.py: end -->\n'
MARK = re.compile(r'(<!-- (rows|files): (.*?) -->\n).*?(<!-- end of rows -->\n)', re.S)

# The contracts that are counted: a title, the file, the function, and its clauses (none: all). Without a file: definitions by name.
CONTRACTS = [
    ('`EvalGives` and `RunGives`: answers of `eval` and `run`', None, ('mcdec_commands.specs.EvalAnswer.EvalGives', 'mcdec_commands.specs.RunAnswer.RunGives'), ()),
    ('`run_words`, all clauses', 'mcdec_commands/src/commands.rt', 'run_words', ()),
    ('`run_words`, `headline`', 'mcdec_commands/src/commands.rt', 'run_words', ('headline',)),
    ('`run_words`, `written`', 'mcdec_commands/src/commands.rt', 'run_words', ('written',)),
    ('`check_bytes`, all clauses', 'checker/src/check.rt', 'check_bytes', ()),
    ('`Thm::triple`, a theorem is valid', 'triple_kernel/src/thm.rt', 'triple', ('valid',)),
    ('`FunThm::def`, a closed definition', 'loop_rule/src/closing.rt', 'def', ('closed',)),
    ('`find_loops`, loops and cuts', 'loop_forest/src/forest.rt', 'find_loops', ()),
]

# Those that the document explains whole: each definition that they stand on has a row.
EXPLAINED = [CONTRACTS[0], CONTRACTS[2]]
# That whose definitions stand bold in the rows.
HEADLINE = CONTRACTS[2]

NAME = re.compile(r"[A-Za-z_][A-Za-z_0-9'\-]*(?:\.[A-Za-z_][A-Za-z_0-9'\-]*)*")
OPERATOR = re.compile(r'(?<=[\s(])([^\s\w(){},.;:"]+)(?=[\s)])')
HEAD = re.compile(r'(?:(?:abbrev|unfoldable)\s+)?(?:pub\s+)?(?:(record|data)\s+)?([^\s:(]+)\s*(?:\(.*?\)\s*|\{.*?\}\s*)*:(?!:)')
IMPORT = re.compile(r'\buse\s+Rattle\.([\w.]+?)\.\{([^}]*)\}')
ALIAS = re.compile(r'\buse\s+Rattle\.([\w.]+?)\s+as\s+(\w+)')


def imports_of(text):
    """The names that a file imports, and its names of whole modules."""
    named = {}
    for match in IMPORT.finditer(text):
        for item in match[2].split(','):
            name, _, alias = item.strip().partition(' as ')
            if name:
                named[(alias or name).strip()] = (match[1], name.strip())
    return named, {match[2]: match[1] for match in ALIAS.finditer(text)}


def names_in(text):
    text = re.sub(r'"[^"]*"', '', re.sub(r'--.*', '', text))
    return set(NAME.findall(text)) | {f'◌{operator}◌' for operator in OPERATOR.findall(text)}


class Module:
    """A file of definitions: the lines of each, the comment above it, of which data type each constructor is, and the first sentence of the file."""

    def __init__(self, path):
        with open(path, encoding='utf8') as file:
            text = file.read()
        self.imports, self.aliases = imports_of(text)
        self.definitions, self.constructors, self.comments, self.public = collections.OrderedDict(), {}, {}, set()
        head = list(itertools.takewhile(lambda line: line.startswith('--'), text.split('\n')))
        self.head = ' '.join(line[2:].strip() for line in itertools.takewhile(lambda line: line.strip('- '), head))
        current, kind, mutual, above = None, None, False, []
        for line in text.split('\n')[len(head):]:
            words = line.strip()
            if words.startswith('--'):
                above = [] if words.startswith('-- ----') else above + [words[2:].strip()]
                continue
            if not words or re.match(r'(pub )?(use|mod)\b', words):
                above = []
                continue
            if words.startswith('infix'):
                continue
            if re.match(r'(abbrev |unfoldable )?mutual$', words):
                current, mutual = None, True
                continue
            indent = len(line) - len(line.lstrip())
            mutual = mutual and indent > 0
            if indent == 0 or (mutual and indent == 2):
                head = HEAD.match(words)
                if head and (head[1] or re.match(r'(abbrev|unfoldable|pub|[^\s]+ :)', words)) and not re.match(r'[^:]* = ', words):
                    of_one = mutual and current is not None and not above
                    comment = self.comments[current] if of_one else ' '.join(above)
                    current, kind = head[2], head[1]
                    self.definitions[current], self.comments[current] = [], comment
                    if re.match(r'((abbrev|unfoldable) )?pub ', words):
                        self.public.add(current)
                    above = []
            if current is not None:
                self.definitions[current].append(line)
                constructor = re.match(r'\s+([^\s:]+)\s*:', line)
                if kind == 'data' and len(self.definitions[current]) > 1 and constructor:
                    self.constructors[constructor[1]] = current


def modules_of(crates):
    """The files of definitions by name, and the modules that are passed on under another name."""
    modules, passed_on = {}, {}
    for crate in sorted(os.listdir(crates)):
        top = os.path.join(crates, crate, 'specs')
        for folder, folders, files in os.walk(top):
            folders.sort()
            for file in sorted(files):
                path = os.path.join(folder, file)
                name = os.path.relpath(path, top)[:-len('.antt')].replace(os.sep, '.')
                if file == 'Lib.antt':
                    with open(path, encoding='utf8') as lib:
                        for match in re.finditer(r'pub use Rattle\.([\w.]+)(?: as (\w+))?', lib.read()):
                            passed_on[f"{crate}.specs.{match[2] or match[1].split('.')[-1]}"] = match[1]
                elif file.endswith('.antt'):
                    modules[f'{crate}.specs.{name}'] = Module(path)
    return modules, passed_on


class Definitions:
    def __init__(self):
        self.modules, self.passed_on = modules_of(CRATES)

    def found(self, module, name):
        """The definition of that name in a module, or of the data type of which it is a constructor."""
        module = self.passed_on.get(module, module)
        if module not in self.modules:
            return None
        here = self.modules[module]
        if name in here.definitions:
            return module, name
        if name in here.constructors:
            return module, here.constructors[name]
        return self.found(*here.imports[name]) if name in here.imports else None

    def meant(self, named, aliases, module, name):
        """The definition that a name stands for in a file with these imports."""
        own = self.found(module, name) if module else None
        if own and own[0] == module:
            return own
        if name in named:
            return self.found(*named[name])
        head, _, rest = name.partition('.')
        if rest and head in aliases:
            return self.found(aliases[head], rest)
        return self.meant(named, aliases, module, head) if rest else None

    def needed(self, file, function, clauses):
        """The definitions that the clauses of a function stand on, and those that were named themselves."""
        if file is None:
            return self.all_below([tuple(name.rsplit('.', 1)) for name in function])
        with open(os.path.join(CRATES, file), encoding='utf8') as source:
            text = source.read()
        head = re.search(r'fn\s+%s\b.*?\n\s*\{(?=\n|\})' % re.escape(function), text, re.S)
        if not head:
            sys.exit(f'{file} has no function {function}')
        parts = re.findall(r'(?:ensures|requires)\s+(\w*)\s*\{(.*?)\}\s*(?=\n\s*(?://|ensures|requires|\{))', head[0] + '\n{', re.S)
        named, aliases = imports_of('\n'.join(line for line in text.split('\n') if 'ghost use' in line))
        cited = names_in('\n'.join(part for name, part in parts if not clauses or name in clauses))
        return self.all_below([self.meant(named, aliases, None, name) for name in cited])

    def all_below(self, todo):
        """These definitions, and those that they stand on."""
        seen = set()
        while todo:
            definition = todo.pop()
            if definition is None or definition in seen:
                continue
            seen.add(definition)
            module = self.modules[definition[0]]
            for name in names_in('\n'.join(module.definitions[definition[1]])):
                todo.append(self.meant(module.imports, module.aliases, definition[0], name))
        return seen

    def lines(self, seen, module):
        return sum(len(lines) for name, lines in self.modules[module].definitions.items() if (module, name) in seen)


def table(definitions):
    """The contracts with what they stand on in all, and a table of the lines in each file."""
    needs = [definitions.needed(*contract[1:]) for contract in CONTRACTS]
    rows = []
    for number, (contract, seen) in enumerate(zip(CONTRACTS, needs), 1):
        files = {module for module, _ in seen}
        lines = sum(definitions.lines(seen, module) for module in files)
        total = f'{contract[0]}: {lines:,} lines, {len(seen)} definitions, {len(files)} files.'
        rows += wrapped(total, f'{number}. ', '   ')
    numbers = [str(number) for number in range(1, len(CONTRACTS) + 1)]
    rows += ['', '| File | ' + ' | '.join(numbers) + ' |', '|---|' + '---:|' * len(CONTRACTS)]
    for module in definitions.modules:
        counts = [definitions.lines(seen, module) for seen in needs]
        if any(counts):
            rows.append(f'| {title(module)} | ' + ' | '.join(str(count or '') for count in counts) + ' |')
    return '\n' + '\n'.join(rows) + '\n\n'


def files_of(definitions, mark, others):
    """The files that a mark names: of each the name of its module."""
    if mark == 'the others':
        return others
    files = []
    for part in mark.split(';'):
        crate, _, names = part.strip().partition(' ')
        files += [f'{crate}.specs.{name.strip()}' for name in names.split(',')]
    unknown = [file for file in files if file not in definitions.modules]
    if unknown:
        sys.exit(f"docs/DEFINITIONS.md: no file of definitions is called {', '.join(unknown)}")
    return files


def title(module):
    crate, _, name = module.partition('.specs.')
    return f'{crate}, {name}'


def rows_of(definitions, module, bold):
    """The items of a file: definitions with one comment stand in one, those without one in the last."""
    here = definitions.modules[module]
    shown = {name: f'**`{name.strip("◌")}`**' if (module, name) in bold else f'`{name.strip("◌")}`' for name in here.definitions}
    by_comment = collections.OrderedDict()
    for name in here.definitions:
        by_comment.setdefault(here.comments[name], []).append(shown[name])
    without = by_comment.pop('', [])
    yield from wrapped(f'**{title(module)}.** {here.head}')
    yield ''
    for comment, names in by_comment.items():
        figure = re.sub('─+', 20 * '─', comment)
        yield from wrapped(f"{', '.join(names)}: {figure}", '- ', '  ')
    if without:
        told = 'what the names say' if by_comment else here.head
        yield from wrapped(f"{', '.join(without)}: {told}", '- ', '  ')
    yield ''


def written(definitions, document):
    """The document with its table and its rows written anew."""
    before, _, rest = document.partition(BEGIN)
    _, _, after = rest.partition(END)
    document = before + BEGIN + table(definitions) + END + after
    named = [file for _, _, mark, _ in MARK.findall(document) if mark != 'the others' for file in files_of(definitions, mark, [])]
    twice = [file for file, count in collections.Counter(named).items() if count > 1]
    if twice:
        sys.exit(f"docs/DEFINITIONS.md: two marks name {', '.join(twice)}")
    others = [module for module in definitions.modules if is_public(module) and module not in named]
    bold = definitions.needed(*HEADLINE[1:])

    def rows(match):
        files = files_of(definitions, match[3], others)
        if match[2] == 'rows':
            lines = [line for file in files for line in rows_of(definitions, file, bold)]
        else:
            items = [f'{title(file)}: {definitions.modules[file].head}' for file in files]
            lines = [line for item in items for line in wrapped(item, '- ', '  ')] + ['']
        return match[1] + '\n' + '\n'.join(lines) + match[4]

    return MARK.sub(rows, document)


def is_public(module):
    """Whether the file holds definitions that contracts of public calls may cite."""
    return re.search(r'\.(inner|declared|formers)\b', module) is None


def shared_names(definitions):
    """The public names that several crates define, and how many do."""
    crates = collections.defaultdict(set)
    for module, here in definitions.modules.items():
        if is_public(module):
            for name in here.public:
                crates[name].add(module.partition('.')[0])
    return {name: len(where) for name, where in crates.items() if len(where) > 1}


def allowed_names():
    with open(SHARED, encoding='utf8') as file:
        return {name: int(count) for name, count in (line.split() for line in file if line.strip() and not line.startswith('#'))}


def write_shared(definitions):
    """Shortens the list of names that several crates may define."""
    shared, allowed = shared_names(definitions), allowed_names()
    with open(SHARED, 'w', encoding='utf8') as file:
        file.write("# The public names of definitions that several crates have, and how many do. It may only get shorter: tools/definitions.py --write.\n")
        for name, count in sorted(allowed.items()):
            if name in shared:
                file.write(f'{name} {min(count, shared[name])}\n')


def faults(definitions, document):
    """Definitions that ought to be explained and aren't, and names that too many crates have."""
    explained = {file for _, kind, mark, _ in MARK.findall(document) if kind == 'rows' and mark != 'the others' for file in files_of(definitions, mark, [])}
    explained |= {module for module in definitions.modules if is_public(module)} if '<!-- rows: the others -->' in document else set()
    for contract, *where in EXPLAINED:
        for module, name in sorted(definitions.needed(*where)):
            if module not in explained:
                yield f'docs/DEFINITIONS.md has no item for {name} of {module}: {contract}'
    by_hand = MARK.sub('', document[document.find(END):])
    for line in re.findall(r'^(?:\||- `|- \*\*`).*', by_hand, re.M):
        yield f'docs/DEFINITIONS.md: a row stands outside the marks: {line[:60]}'
    shared, allowed = shared_names(definitions), allowed_names()
    for name, count in sorted(shared.items()):
        if count > allowed.get(name, 1):
            where = sorted({module.partition('.')[0] for module, here in definitions.modules.items() if is_public(module) and name in here.public})
            yield f"the public name {name} stands in {count} crates, {', '.join(where)}: give the new one a name of its own"
    for name, count in sorted(allowed.items()):
        if shared.get(name, 1) < count:
            yield f'tools/shared_names.txt has {name} {count}, which is too many today: tools/definitions.py --write'


def cited_lemmas():
    """The lemmas that other crates cite: for each crate and file of proofs/ their names, and the crates."""
    cited = collections.defaultdict(lambda: (set(), set()))
    for crate in sorted(os.listdir(CRATES)):
        for folder, folders, files in os.walk(os.path.join(CRATES, crate)):
            folders[:] = [name for name in folders if name != 'out']
            for file in files:
                if file.endswith(('.antt', '.rt')):
                    with open(os.path.join(folder, file), encoding='utf8') as text:
                        for module, names in IMPORT.findall(text.read()):
                            lower, _, name = module.partition('.proofs.')
                            if name and lower != crate and os.path.isdir(os.path.join(CRATES, lower)):
                                cited[lower, name][0].update(item.strip().partition(' as ')[0] for item in names.split(',') if item.strip())
                                cited[lower, name][1].add(crate)
    return cited


def main():
    if sys.argv[1:] == ['--lemmas']:
        cited = cited_lemmas()
        for (crate, file), (names, crates) in sorted(cited.items()):
            print(f"{crate}, {file}: {' '.join(sorted(names))}; cited by {' '.join(sorted(crates))}")
        print(f'{sum(len(names) for names, _ in cited.values())} lemmas of {len(cited)} files')
        return
    definitions = Definitions()
    if sys.argv[1:] == ['--names']:
        for title, *contract in CONTRACTS:
            seen = definitions.needed(*contract)
            print(title)
            for module, here in definitions.modules.items():
                used = [name for name in here.definitions if (module, name) in seen]
                if used:
                    spare = [name for name in here.definitions if name not in used]
                    print(f"  {module}: {' '.join(used)}" + (f"; not needed: {' '.join(spare)}" if spare else ''))
        return
    text = table(definitions)
    if not sys.argv[1:]:
        print(text, end='')
        return
    with open(DOCUMENT, encoding='utf8') as file:
        document = file.read()
    if sys.argv[1:] == ['--write']:
        current = written(definitions, document)
        with open(DOCUMENT, 'w', encoding='utf8') as file:
            file.write(current)
        write_shared(definitions)
    elif sys.argv[1:] == ['--check']:
        if document != written(definitions, document):
            sys.exit('docs/DEFINITIONS.md is to be written anew: tools/definitions.py --write')
        wrong = list(faults(definitions, document))
        if wrong:
            sys.exit('\n'.join(wrong))
    else:
        sys.exit(__doc__)


if __name__ == '__main__':
    main()
