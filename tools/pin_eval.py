"""An evaluator for the definitions of crates/rules/specs and the worked facts of crates/rules/proofs, for tools/pin: definitions become
Python functions, a fact `LEFT ≡ RIGHT` is two values to compare. It proves nothing: it only says quickly that a fact fails of a mutant. That
every fact holds of the definitions as they stand is tested whenever it is loaded."""
import re, struct, sys, time

TOKEN = re.compile(r'--[^\n]*|text\.\[\]|"(?:\\.|[^"\\])*"|«\w+»|0x[0-9A-Fa-f_]+|\d+|[()\[\]{};]|\.(?=[^\s.])|[^\s()\[\]{};"«».]+(?:\.[^\s()\[\]{};"«».]+)*|\.')

# files with no definition or fact to evaluate: the fact of BarLimit is a law, and its file would be 36,882 bytes long
UNREAD = {"Lib", "Computing", "Claims", "BarLimit"}

class Unsupported(Exception):
    pass

# ---- values: ℕ int, Bool bool, List tuple, Option and other data (constructor, argument ..), record dict, Float F

class F:
    __slots__ = ("bits",)
    def __init__(self, bits):
        self.bits = bits
    def __eq__(self, other):
        return self.bits == other.bits
    def __repr__(self):
        return f"F({self.bits:#x})"
    def value(self):
        return struct.unpack("<d", struct.pack("<Q", self.bits))[0]

NAN, INF = F(0x7FF8 << 48), F(0x7FF0 << 48)

def of_bits(n):
    x = F(n % 2 ** 64)
    return NAN if x.value() != x.value() else x

def is_price(x):
    return x.bits >> 52 & 0x7FF != 0x7FF and x.bits != 1 << 63

def bytes_of(k, n):
    return tuple(n >> 8 * i & 255 for i in range(k))

def get(l, i):
    return ("some", l[i]) if i < len(l) else ("none",)

LIBRARY = {
    "eqb": lambda a, b: a == b, "leb": lambda a, b: a <= b, "ltb": lambda a, b: a < b,
    "lt": lambda a, b: a.value() < b.value(), "le": lambda a, b: a.value() <= b.value(), "eq": lambda a, b: a.value() == b.value(),
    "length": lambda l: len(l), "take": lambda n, l: l[:n], "drop": lambda n, l: l[n:], "get_elem?": get,
    "get_or": lambda l, i, d: l[i] if i < len(l) else d, "replicate": lambda n, x: (x,) * n,
    "set": lambda l, i, x: l[:i] + (x,) + l[i + 1:] if i < len(l) else l,
    "map": lambda f, l: tuple(call(f, x) for x in l), "get_last?": lambda l: ("some", l[-1]) if l else ("none",), "drop_last": lambda l: l[:-1],
    "not": lambda b: not b, "beq": lambda a, b: a == b, "min": lambda a, b: min(a, b), "suc": lambda n: n + 1, "some": lambda x: ("some", x),
    "pos": lambda n: n, "of_int": lambda f, n: F(struct.unpack("<Q", struct.pack("<d", float(n)))[0]), "of_bits": lambda f, n: of_bits(n),
    "to_bits": lambda f, x: x.bits, "inf": lambda s: F(INF.bits | s << 63), "code": lambda c: ord(c),
    "is_price": is_price, "all_prices": lambda l: all(map(is_price, l)), "lower": lambda a, b: b if b.value() < a.value() else a,
    "higher": lambda a, b: b if a.value() < b.value() else a, "bytes_of": bytes_of, "of_bytes": lambda l: sum(b << 8 * i for i, b in enumerate(l)),
    "price_bytes": lambda x: bytes_of(8, x.bits),
    "point_of": lambda o: ("At", o[1]["end_bar"], o[1]["end_price"]) if o[0] == "some" else ("Nowhere",),
}
# constructors without and with arguments; those of `specs` are added when it is read
PLAIN = {"none", "Missing", "Nowhere"}
MAKERS = {"Found": 1, "At": 2, "Ground.Zone": 1, "Ground.Anchor": 1}
CONSTANTS = {"true": "True", "false": "False", "zero": "0", "nan": "NAN", "binary64": "0"}

class Fn:
    """A function of n arguments, as a value."""
    __slots__ = ("n", "f", "held")
    def __init__(self, n, f, held=()):
        self.n, self.f, self.held = n, f, held

def call(f, *args):
    held = f.held + args
    if len(held) < f.n:
        return Fn(f.n, f.f, held)
    r = f.f(*held[:f.n])
    return call(r, *held[f.n:]) if len(held) > f.n else r

def foldl(f, z, l):
    for x in l:
        z = call(f, z, x)
    return z
LIBRARY["foldl"] = foldl

INFIX = {"||": (2, "r"), "&&": (3, "r"), "∷": (5, "r"), "++": (5, "r"), "+": (6, "l"), "-": (6, "l"), "*": (7, "l"), "/": (7, "l"),
         "%": (7, "l"), "^": (8, "r")}
PYTHON = {"||": "({} or {})", "&&": "({} and {})", "∷": "(({},) + {})", "++": "({} + {})", "+": "({} + {})", "-": "max(0, {} - {})",
          "*": "({} * {})", "/": "quotient({}, {})", "%": "remainder({}, {})", "^": "({} ** {})"}
STOP = {")", "]", "}", ";", "|", "↦", "in", "≡", "=", "→", ":"}

class Parser:
    """Terms, translated to Python source. `scope` maps a global name to (python name, arity); locals are Python variables."""
    def __init__(self, words, scope, known=()):
        self.words, self.at, self.scope, self.locals = words, 0, scope, dict(known)

    def peek(self):
        return self.words[self.at] if self.at < len(self.words) else "END"

    def next(self, want=None):
        w = self.peek()
        if want and w != want:
            raise Unsupported(f"{want} expected, {w} found near {' '.join(self.words[max(0, self.at - 8):self.at + 4])}")
        self.at += 1
        return w

    def local(self, name):
        new = "v%d" % len(self.locals) + "".join(c if c.isalnum() and c.isascii() else "_" for c in name)
        self.locals = {**self.locals, name: new}
        return new

    def term(self, level=0):
        w = self.peek()
        if w == "let":
            self.next()
            name = self.next()
            self.next("=")
            value = self.term()
            self.next("in")
            kept = self.locals
            new = self.local(name)
            body = self.term()
            self.locals = kept
            return f"(lambda {new}: {body})({value})"
        if w == "λ":
            return self.lam()
        left = self.application()
        while self.peek() in INFIX and INFIX[self.peek()][0] >= level:
            op = self.next()
            strength, side = INFIX[op]
            right = self.term(strength + (side == "l"))
            left = PYTHON[op].format(left, right)
        return left

    def lam(self):
        self.next("λ")
        kept, names = self.locals, []
        while self.peek() != ".":
            if self.peek() == "(":
                self.next()
                while self.peek() != ":":
                    names.append(self.local(self.next()))
                depth = 1
                while depth:
                    w = self.next()
                    depth += (w == "(") - (w == ")")
            else:
                names.append(self.local(self.next()))
        self.next(".")
        body = self.term()
        self.locals = kept
        return f"Fn({len(names)}, lambda {', '.join(names)}: {body})"

    def application(self):
        if self.peek() == "elim":
            return self.elim()
        head = self.peek()
        args = []
        if head == "cond" and "cond" not in self.locals:
            self.next()
            args = [self.atom() for _ in range(3)]
            return f"({args[1]} if {args[0]} else {args[2]})"
        if head == "record":
            self.next()
            self.next("{")
            parts = []
            while self.peek() != "}":
                name = self.next().strip("«»")
                self.next("=")
                parts.append(f"{name!r}: {self.term()}")
                if self.peek() == ";":
                    self.next()
            self.next("}")
            return "{" + ", ".join(parts) + "}"
        if head == "text.[]":
            self.next()
            return '""'
        raw = None if head in "([{" or head[0] in '"0123456789' else head
        has_field = self.words[self.at + 1:self.at + 2] == ["."]
        if raw is not None and not has_field and raw not in self.locals and raw not in CONSTANTS and raw not in PLAIN:
            self.next()
            first = None
        else:
            raw, first = None, self.atom()
        while self.peek() not in STOP and self.peek() not in INFIX and self.peek() != "END":
            if self.peek() == "λ":
                args.append(self.lam())
                break
            if self.peek() == "{":  # an implicit argument
                self.at = self.words.index("}", self.at) + 1
            else:
                args.append(self.atom())
        if raw is None:
            return first if not args else f"call({first}, {', '.join(args)})"
        return self.named(raw, args)

    def named(self, name, args):
        python, arity = self.lookup(name)
        if len(args) == arity:
            return f"{python}({', '.join(args)})" 
        if len(args) > arity:
            inner = f"{python}({', '.join(args[:arity])})"
            return f"call({inner}, {', '.join(args[arity:])})"
        return f"Fn({arity}, lambda *a: {python}(*a), ({''.join(a + ', ' for a in args)}))"

    def lookup(self, name):
        if name in self.scope:
            return self.scope[name]
        if name not in MAKERS:
            name = name.split(".")[-1]  # a constructor of a module by its alias
        if name in LIBRARY:
            return f"LIBRARY[{name!r}]", LIBRARY[name].__code__.co_argcount
        if name in MAKERS:
            n = MAKERS[name]
            return f"make({name!r})", n
        raise Unsupported("no " + name)

    def atom(self):
        """a word or a bracketed term, with its fields"""
        value = self.bare()
        while self.peek() == ".":
            self.next()
            value = f"{value}[{self.next().strip('«»')!r}]"
        return value

    def bare(self):
        w = self.next()
        if w == "(":
            value = self.term()
            self.next(")")
            return f"({value})"
        if w == "[":
            self.next("]")
            return "()"
        if w == "record":
            self.at -= 1
            return self.application()
        if w.startswith('"'):
            return w
        if w[0].isdigit():
            return str(int(w.replace("_", ""), 0))
        if w in self.locals:
            return self.locals[w]
        if w in CONSTANTS:
            return CONSTANTS[w]
        if w in PLAIN:
            return f"({w!r},)"
        if w == "text.[]":
            return '""'
        return self.named(w, [])

    def elim(self):
        self.next("elim")
        subject = self.atom()
        self.next("[")
        arms = []
        if self.peek() == "|":
            self.next()
        kept = self.locals
        while True:
            self.locals = kept
            tests, binds = [], []
            self.pattern("e", tests, binds)
            self.next("↦")
            body = self.term()
            if binds:
                body = f"(lambda {', '.join(n for n, _ in binds)}: {body})({', '.join(v for _, v in binds)})"
            arms.append((" and ".join(tests) or "True", body))
            if self.next() == "]":
                break
        self.locals = kept
        chain = "stuck()"
        for test, body in reversed(arms):
            chain = f"({body} if {test} else {chain})"
        return f"(lambda e: {chain})({subject})"

    def pattern(self, of, tests, binds, whole=True):
        """A pattern of the value `of`; where whole, up to ↦ (infix ∷ and a constructor with arguments may stand bare)."""
        w = self.next()
        if w == "(":
            self.pattern(of, tests, binds, True)
            self.next(")")
            w = None
        elif w == "[":
            self.next("]")
            tests.append(f"len({of}) == 0")
            w = None
        elif w == "zero":
            tests.append(f"{of} == 0")
        elif w in ("true", "false"):
            tests.append(of if w == "true" else f"not {of}")
        elif w == "suc":
            tests.append(f"{of} > 0")
            self.pattern(f"({of} - 1)", tests, binds, False)
        elif w == "text.[]":
            tests.append(f'{of} == ""')
        elif w == "text.◌∷◌":
            tests.append(f'{of} != ""')
            self.pattern(f"{of}[0]", tests, binds, False)
            self.pattern(f"{of}[1:]", tests, binds, False)
        elif w in PLAIN:
            tests.append(f"{of}[0] == {w!r}")
        elif (w in MAKERS or w == "some") and whole and self.peek() not in (")", "↦", "∷", "="):
            tests.append(f"{of}[0] == {w!r}")
            for i in range(MAKERS.get(w, 1)):
                self.pattern(f"{of}[{i + 1}]", tests, binds, False)
        elif whole and self.peek() == "∷":
            # x ∷ y ∷ rest
            binds.append((self.local(w), f"{of}[0]"))
            tests.append(f"len({of}) > 0")
            self.next()
            self.pattern(f"{of}[1:]", tests, binds, True)
        else:
            binds.append((self.local(w), of))

def quotient(a, b):
    return a // b if b else 0

def remainder(a, b):
    return a % b if b else a

def stuck():
    raise Unsupported("no clause matches")

def make(name):
    return lambda *a: (name,) + a

def words_of(text, aliases={}):
    """The words of a text: `of_ground.Zone` as `Ground.Zone`, by the file's aliases; of any other `z.span.low` the name, and each dot and field."""
    found = []
    for w in TOKEN.findall(text):
        first, dot, rest = w.partition(".")
        if w.startswith("--"):
            continue
        if not first or not rest or first == "text" or w[0] in '"«':
            found.append(w)
        elif first in aliases:
            found.append(aliases[first] + "." + rest)
        else:
            found += re.split(r"(\.)", w)
    return found

def chunks(text):
    """Top-level pieces of a file, those of a `module _` block too."""
    found, inside = [], False
    for line in text.split("\n"):
        bare = line.strip()
        if bare and not bare.startswith("--"):
            indent = len(line) - len(line.lstrip())
            if not bare.startswith("}") and (indent == 0 or indent == 2 and inside):
                inside = bare.startswith("module _") or indent == 2
                found.append(line)
            else:
                found[-1] += "\n" + line
    return [f.strip() for f in found]

class Module:
    """The definitions of one file: signatures, clauses by name, and the facts of its records."""
    def __init__(self, key, text):
        self.key, self.clauses, self.uses, self.facts, self.aliases = key, {}, [], [], {}
        terms = set()  # the names of the definitions that are no types and no proofs
        for piece in chunks(text):
            if piece.startswith("use "):
                self.uses.append(" ".join(piece.split()))
                alias = re.match(r"use (\S+) as (\w+)$", self.uses[-1])
                if alias:
                    self.aliases[alias.group(2)] = alias.group(1).removesuffix(".TheVariants").split(".")[-1]
            elif re.match(r"pub record (Facts|Runs|Numbers)\b", piece):
                for m in re.finditer(r"\n  pub (\S+) :((?:.|\n)*?)(?=\n  pub |\Z)", piece):
                    self.facts.append((m.group(1), m.group(2)))
            elif piece.startswith("pub data "):
                for name, kind in re.findall(r"\n  (\S+) : (.*)", piece):
                    if "→" in kind:
                        MAKERS[name] = kind.count("→")
                    else:
                        PLAIN.add(name)
            elif re.match(r"pub record |module |pub mod |unfolding ", piece):
                continue
            elif re.match(r"(?:pub )?\S+ :\s", piece):
                continue
            elif re.match(r"(?:unfoldable |abbrev )(?:pub )?\S+ :\s", piece):
                if not piece.endswith("Type 0"):
                    terms.add(re.split(r" :\s", piece)[0].split()[-1])
            else:
                self.clauses.setdefault(piece.split()[0], []).append(piece)
        self.clauses = {name: c for name, c in self.clauses.items() if name in terms}

def arity_of(clauses):
    w = words_of(clauses[0])
    n, depth, at = 0, 0, 1
    while not (w[at] == "=" and depth == 0):
        if depth == 0 and w[at] not in (")", "]"):
            n += 1
        depth += (w[at] in "([") - (w[at] in ")]")
        at += 1
    return n

class World:
    def __init__(self, texts):
        """texts: {(side, name): text}"""
        sys.setrecursionlimit(60000)
        self.modules = {k: Module(k, t) for k, t in texts.items() if k[1] not in UNREAD}
        self.globals = {"LIBRARY": LIBRARY, "make": make, "Fn": Fn, "call": call, "stuck": stuck, "NAN": NAN, "quotient": quotient, "remainder": remainder}
        self.scopes, self.calls = {}, None
        for k, m in self.modules.items():
            self.scopes[k] = {}
        for k, m in self.modules.items():
            scope = self.scopes[k]
            for use in m.uses:
                g = re.match(r"use Rattle\.rules\.(\w+)\.(\w+)(?:\.\{(.*)\}| as \w+)$", use)
                if g and (g.group(1), g.group(2)) in self.modules:
                    source = self.modules[g.group(1), g.group(2)]
                    for name in re.split(r"[\s,]+", g.group(3)) if g.group(3) else source.clauses:
                        if name in source.clauses:
                            here = name if g.group(3) else source.key[1] + "." + name
                            scope[here] = (self.python(source.key, name), arity_of(source.clauses[name]))
            for name in m.clauses:
                scope[name] = (self.python(k, name), arity_of(m.clauses[name]))
        for k, m in self.modules.items():
            for name in m.clauses:
                try:
                    self.define(k, name, m.clauses[name], k[0] == "proofs")
                except Unsupported:
                    continue  # what uses it is not evaluated

    @staticmethod
    def python(key, name):
        return "d_" + re.sub(r"\W", lambda c: f"_{ord(c.group()):x}_", f"{key[0]}_{key[1]}_{name}")

    def source(self, key, name, clauses, memo=False):
        python, n = self.scopes[key][name]
        args = ["a%d" % i for i in range(n)]
        lines = [f"def {python}({', '.join(args)}):"]
        for clause in clauses:
            p = Parser(words_of(clause, self.modules[key].aliases), self.scopes[key])
            p.next()
            tests, binds = [], []
            for a in args:
                p.pattern(a, tests, binds, False)
            p.next("=")
            body = p.term()
            if p.peek() != "END":
                raise Unsupported(f"{name}: {p.words[p.at:p.at + 6]} is left")
            lines.append(f"  if {' and '.join(tests) or 'True'}:")
            lines += [f"    {n} = {v}" for n, v in binds]
            lines.append(f"    return {body}")
        lines.append("  stuck()")
        return "\n".join(lines)

    def define(self, key, name, clauses, memo=False):
        python, n = self.scopes[key][name]
        exec(compile(self.source(key, name, clauses), f"<{key[1]}.{name}>", "exec"), self.globals)
        if memo and n == 0:
            f, box = self.globals[python], []
            def once():
                if not box:
                    box.append(f())
                return box[0]
            self.globals[python] = once

    def sides(self, key, text):
        """The two sides of a fact as Python functions, or None where it is no equation of closed terms."""
        w = words_of(text, self.modules[key].aliases)
        if "→" in w or "≡" not in w:
            return None
        at = w.index("≡")
        out = []
        for part in (w[:at], w[at + 1:]):
            p = Parser(part, self.scopes[key])
            value = p.term()
            if p.peek() != "END":
                raise Unsupported(f"{p.words[p.at:p.at + 6]} is left")
            out.append(eval(f"lambda: {value}", self.globals))
        return out

class Evaluator:
    """The facts, evaluated once on the definitions as they stand; then what becomes of a mutant of one definition."""
    def __init__(self, texts):
        self.world = World(texts)
        names = self.world.globals
        touched = set()
        kept = {n: f for n, f in names.items() if n.startswith("d_specs_")}
        def traced(name, f):
            def g(*args):
                touched.add(name)
                return f(*args)
            return g
        for n, f in kept.items():
            names[n] = traced(n, f)
        self.facts = []
        for key, module in self.world.modules.items():
            for name, text in module.facts:
                touched.clear()
                began = time.perf_counter()
                try:
                    sides = self.world.sides(key, text)
                    same = sides is None or sides[0]() == sides[1]()
                except (Unsupported, NameError):
                    sides, same = None, True
                if sides is None:
                    continue
                if not same:
                    raise SystemExit(f"{key[1]}.{name} fails of the definitions as they stand, or is evaluated wrongly")
                self.facts.append((time.perf_counter() - began, sides, frozenset(touched)))
        names.update(kept)
        self.facts.sort(key=lambda f: f[0])

    def fate(self, file, name, text):
        """refused, ill-typed or passed: the definition `name`, with the file's text changed to this one"""
        key, names = ("specs", file), self.world.globals
        python = self.world.python(key, name)
        kept = names.get(python)
        if kept is None:
            return "passed"
        try:
            self.world.define(key, name, Module(key, text).clauses[name])
            for _, (left, right), touched in self.facts:
                if python in touched and left() != right():
                    return "refused"
            return "passed"
        except (Unsupported, KeyError, RecursionError):
            return "ill-typed"  # a name out of scope, a field that the record lacks, no end
        except (TypeError, AttributeError, IndexError, NameError):
            return "passed"  # the prover decides
        finally:
            names[python] = kept
