"""Files of definitions (.antt) and of code (.rt) as items with the names that they use. Nothing here knows of
M2UA."""
import pathlib
import re

CRATES = pathlib.Path(__file__).resolve().parents[2] / "crates"
TOKEN = re.compile(r"[^\s(){}.,;]+")
SIGNATURE = re.compile(r"(?:(?:abbrev|unfoldable|opaque|pub) )*(?!record |data |module |ruleset |infix|use |mod )(\S+) :(?: |$)")


def words(text):
    """Every word of a text without its comments."""
    return set(TOKEN.findall(re.sub(r"--(?: .*)?$|//.*$", "", text, flags=re.M)))


def uses_word(name, found):
    """Whether a name is among the words; of an operator `◌if◌` its parts are."""
    return all(part in found for part in name.split("◌") if part)


class Item:
    """A declaration with its comment. `names` are all that it declares: itself, or a type with its
    constructors."""

    def __init__(self, lines, header=""):
        self.lines, self.header = lines, header
        self.names = []
        code = [l for l in lines if not l.lstrip().startswith("--") and l.strip()]
        self.code = "\n".join(code)
        if not code:
            return
        first = code[0]
        if first.startswith("module _"):
            self.names = [m[1] for l in code[1:] if (m := SIGNATURE.match(l.strip()) or re.match(r"(?:pub )?(?:record|data) (\S+)", l.strip()))]
            return
        m = re.match(r"(?:pub )?(record|data) (\S+)", first)
        if m:
            self.names = [m[2]]
            if m[1] == "data":
                self.names += [x[1] for l in code[1:] if (x := re.match(r"  (\S+) : ", l))]
            return
        m = re.match(r"(?:pub )?ruleset (\S+) =", first) or re.match(r"infix\w* \d+ (\S+)", first) or SIGNATURE.match(first)
        if m:
            self.names = [m[1]]

    @property
    def fixity(self):
        return self.code.startswith("infix")


def chunks(lines):
    """Runs of lines; a new one starts at a line at the margin after a blank line, and around a line of
    infix."""
    out, cur, blank = [], [], True
    for line in lines:
        margin = line[:1] not in ("", " ")
        if (blank and margin or line.startswith("infix") or cur and cur[-1].startswith("infix")) and cur:
            out.append(cur)
            cur = []
        if line.strip() or cur:
            cur.append(line)
        blank = not line.strip()
    if cur:
        out.append(cur)
    for c in out:
        while c and not c[-1].strip():
            c.pop()
    return [c for c in out if c]


class Antt:
    """One file: its comment, its `use` lines, its items; an item of a section has the section's line as
    header."""

    def __init__(self, path, crate, module):
        self.path, self.crate, self.module = path, crate, module
        lines = path.read_text(encoding="utf-8").splitlines()
        self.uses = [l for l in lines if l.startswith("use ")]
        self.mods = [l for l in lines if l.startswith(("pub mod ", "mod "))]
        n = next((i for i, l in enumerate(lines) if l.startswith("use ")), 0)
        self.comment = [l for l in lines[:n] if l.startswith("--")]
        body = [l for l in (lines[n:] if n else lines) if not l.startswith(("use ", "pub mod ", "mod "))]
        self.items = []
        for c in chunks(body):
            start = next((i for i, l in enumerate(c) if not l.startswith("--")), None)
            if start is not None and c[start].startswith("module _"):
                end = start
                while not c[end].rstrip().endswith(" where"):
                    end += 1
                head = "\n".join(c[start : end + 1])
                inner = [l[2:] if l.startswith("  ") else l for l in c[end + 1 :]]
                for i, d in enumerate(chunks(inner)):
                    self.items.append(Item((c[:start] if i == 0 else []) + d, head))
            else:
                self.items.append(Item(c))
        self.imports, self.aliases = imports(self.uses, crate)
        self.own = {n: it for it in self.items for n in it.names}

    def refers(self, item):
        """What an item names: (crate, module, name)."""
        return refers(item.header + "\n" + item.code, self.imports, self.aliases, {n: (self.crate, self.module, n) for n in self.own}) - {
            (self.crate, self.module, n) for n in item.names
        }


def target(dotted, crate):
    """`Rattle.x.specs.Y`, `Rattle.x.specs.Inner.Y`, `Rattle.x.proofs.Y`: (x, 'specs/Y'). What is the kit's
    has none."""
    m = re.fullmatch(r"Rattle\.([a-z0-9_]+)\.(specs|proofs)\.(.+)", dotted)
    return (m[1], m[2] + "/" + m[3].replace(".", "/")) if m and (CRATES / m[1]).is_dir() else None


def imports(lines, crate):
    named, aliases = {}, {}
    for line in lines:
        m = re.match(r"(?:ghost )?use (\S+?)\.\{(.*)\};?\s*$", line)
        if m:
            t = target(m[1], crate)
            for n in filter(None, (x.strip() for x in m[2].split(","))):
                if t:
                    named[n.split(" as ")[-1]] = (*t, n.split(" as ")[0])
            continue
        m = re.match(r"(?:ghost )?use (\S+) as (\S+?);?\s*$", line)
        if m and (t := target(m[1], crate)):
            aliases[m[2]] = t
    return named, aliases


def refers(text, named, aliases, own):
    text = re.sub(r"--(?: .*)?$|//.*$", "", text, flags=re.M)
    found = set(TOKEN.findall(text))
    out = {t for n, t in {**named, **own}.items() if uses_word(n, found)}
    for a, (crate, module) in aliases.items():
        for m in re.finditer(r"(?<![\w.-])" + re.escape(a) + r"\.([^\s(){}.,;]+)", text):
            out.add((crate, module, m[1]))
    return out


def tree(root):
    """Every file of definitions and laws: (crate, module) -> Antt."""
    files = {}
    for crate in sorted((root / "crates").iterdir()):
        for part in ("specs", "proofs"):
            for p in sorted((crate / part).rglob("*.antt")):
                module = str(p.relative_to(crate).with_suffix(""))
                files[crate.name, module] = Antt(p, crate.name, module)
    return files


def models(root, text):
    """The types of the code that a text of contracts names, of which a clause sees what an `impl Model` says:
    (path, name, the lines of the type and of the `impl`, without comments)."""
    found, known = [], set(re.findall(r"\w+", text))
    for path in sorted((root / "crates").glob("*/src/**/*.rt")):
        code = "\n".join(l for l in path.read_text(encoding="utf-8").splitlines() if l.strip() and not l.lstrip().startswith("//"))
        for m in re.finditer(r"^impl(?:<.*?>)? Model for (\w+).*?^}$", code, re.M | re.S):
            if m[1] in known:
                declared = re.search(rf"^(?:#\[[^\n]*\]\n)*pub (?:struct|enum) {m[1]}\b.*?^}}$", code, re.M | re.S)
                found.append((path, m[1], (declared[0] if declared else "").splitlines() + m[0].splitlines()))
    return found


def functions(root):
    """Every function of the code: (crate, name) -> (path, signature with its contract, imports)."""
    out = {}
    for p in sorted((root / "crates").glob("*/src/*.rt")):
        text = p.read_text(encoding="utf-8")
        named, aliases = imports(text.splitlines(), p.parts[-3])
        for m in re.finditer(r"^( *)((?:#\[unsafe\(no_mangle\)\]\n *)?(?:pub )?(?:extern \"C\" )?fn (\w+).*?)^\1\{$", text, re.M | re.S):
            out[p.parts[-3], m[3]] = (p, m[2], named, aliases)
    return out
