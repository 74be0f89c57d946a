"""What the tools here share: reading the functions and types of .rt sources and the definitions of .antt files. No program of its own."""
import glob, os, re

ROOT = os.path.dirname(os.path.dirname(os.path.abspath(__file__)))


def read(path):
    with open(path, encoding='utf-8') as f:
        return f.read()


def rows(root=ROOT):
    """The lines of crates.txt, less remarks: the words before the colon, and those behind it."""
    lines = [l.split('#')[0].strip() for l in read(os.path.join(root, 'crates.txt')).splitlines()]
    return [(l.split(':')[0].split(), l.split(':')[1].split()) for l in lines if l]


def crates(root=ROOT):
    """Names in crates.txt, in its order."""
    return [words[0] for words, _ in rows(root)]


def used(root=ROOT):
    """What each crate uses of the others, and which are static libraries."""
    names = crates(root)
    return {words[0]: [u for u in uses if u in names] for words, uses in rows(root)}, [words[0] for words, _ in rows(root) if 'staticlib' in words]


def closing(text, at):
    """The place after the bracket that closes the one at `at`."""
    pairs = {'(': ')', '{': '}', '[': ']'}
    depth, opening, close = 0, text[at], pairs[text[at]]
    for i in range(at, len(text)):
        if text[i] == opening:
            depth += 1
        elif text[i] == close:
            depth -= 1
            if depth == 0:
                return i + 1
    return len(text)


def blank_comments(text):
    """A .rt source with its comments and strings as spaces, so that places stay the same."""
    keep = lambda m: re.sub(r'[^\n]', ' ', m.group(0)) if m.group(0)[0] == '/' else '"' + ' ' * (len(m.group(0)) - 2) + '"'
    return re.sub(r'//[^\n]*|/\*.*?\*/|"(?:\\.|[^"\\\n])*"', keep, text, flags=re.S)


class Function:
    """A function of an .rt source: its name (Type::name in an impl, Trait::name in a trait), line, how public it is, signature, its clauses, whether a trait
    declares it, and in an impl of a trait the trait's name and whether the impl gives its ghost member NAME_gives, which stands for a clause of a trait of std."""

    def __init__(self, path, name, line, public, extern, signature, clauses, declared=False, trait=None, gives=False):
        self.path, self.name, self.line, self.public, self.extern = path, name, line, public, extern
        self.signature, self.clauses, self.declared, self.trait, self.gives = signature, clauses, declared, trait, gives

    def has(self, word):
        return any(w == word for w, _ in self.clauses)


FN = re.compile(r'(?P<pub>\bpub\s*(?P<scope>\([^)]*\))?\s+)?(?P<mods>(?:(?:const|unsafe|ghost|extern\s*"[^"]*")\s+)*)\bfn\s+(?P<name>[A-Za-z_0-9]+)')
IMPL = re.compile(r'^\s*impl\b[^{;]*\{', re.M)
TRAIT = re.compile(r'^\s*(?P<pub>pub\s+)?(?:pub\s*\([^)]*\)\s*)?trait\s+(?P<name>\w+)[^{;]*\{', re.M)


def functions(path):
    """Every function of an .rt source. `pub` alone is public, `pub(crate)` is not."""
    text = blank_comments(read(path))
    impls = []
    for m in IMPL.finditer(text):
        head = text[m.start():m.end() - 1]
        kind = re.sub(r'<[^>]*>', '', head).split(' for ')[-1].replace('impl', '').strip()
        end = closing(text, m.end() - 1)
        trait = re.search(r'(\w+)(?:<[^{]*>)?\s+for\s', head)
        gives = re.findall(r'\bghost (\w+)_gives\b', text[m.end():end])
        impls.append((m.end() - 1, end, kind, ' for ' in head, False, trait and trait.group(1), gives))
    for m in TRAIT.finditer(text):
        impls.append((m.end() - 1, closing(text, m.end() - 1), m.group('name'), bool(m.group('pub')), True, None, []))
    found = []
    for m in FN.finditer(text):
        at = m.end()
        if at < len(text) and text[at] == '<':
            at = text.index('>', at) + 1
        while at < len(text) and text[at].isspace():
            at += 1
        if at >= len(text) or text[at] != '(':
            continue
        at = closing(text, at)
        signature_end, clauses = at, []
        word = re.compile(r'[a-z_]+')
        while at < len(text) and text[at] not in '{;':
            w = word.match(text, at)
            if text[at] in '([':                                          # of the result's type
                at = closing(text, at)
            elif w and w.group(0) in ('ensures', 'requires', 'decreases', 'invariant', 'modifies'):
                signature_end = min(signature_end, at) if clauses else at
                open_at = text.index('{', w.end())
                end = closing(text, open_at)
                clauses.append((w.group(0), text[open_at + 1:end - 1]))
                at = end
            else:
                at = w.end() if w else at + 1
        if not clauses:
            signature_end = at
        inside = [i for i in impls if i[0] < m.start() < i[1]]
        name = (inside[-1][2] + '::' if inside else '') + m.group('name')
        public = bool(m.group('pub')) and not m.group('scope') or bool(inside and inside[-1][3])
        found.append(Function(path, name, text.count('\n', 0, m.start('name')) + 1, public, 'extern' in m.group('mods'),
                              text[m.start():signature_end], clauses, *(inside[-1][4:6] if inside else ()), gives=bool(inside) and m.group('name') in inside[-1][6]))
    return found


def is_program(crate, root=ROOT):
    return os.path.exists(os.path.join(root, 'crates', crate, 'src', 'main.rt'))


def rt_sources(crate, root=ROOT):
    return sorted(glob.glob(os.path.join(root, 'crates', crate, 'src', '**', '*.rt'), recursive=True))
