"""Which functions a function of the Rattle sources reaches, and what they divide by: read from the text alone, without the kit. Contracts,
comments and literal texts are no executable code, and constants are computed by the compiler. Whatever is named counts as called, a
call that leads to no function of these sources is told like a division, and forms that would be misread are refused."""
import re
from pathlib import Path
from typing import Dict, FrozenSet, Iterator, List, NamedTuple, Optional

NO_CODE = re.compile(
    r"""//[^\n]* | /\*(?:(?!/\*).)*?\*/ | \bbr(\#*)".*?"\1 | b?"(?:\\.|[^"\\])*" | b?'(?:\\[^']+|[^'\\])'""", re.VERBOSE | re.DOTALL
)
CLAUSE = re.compile(r"\b(?:(?:requires|ensures)\b(?:\s+\w+)?|ghost)\s*(?=\{)")
# Not read: comments in comments, modules inside a file, functions named like types; and in a contract what may hide a brace.
UNREAD = re.compile(r"/\*|\bmod\s+\w+\s*\{|\bfn\s+[A-Z]\w*")
UNREAD_IN_CLAUSE = re.compile(r'"|--|\{-|//|/\*')
# What asks for a proof's tactics is no code, also inside a function.
TACTIC = re.compile(r"#!?\[\s*tactic\b[^\]]*\]")
USE = re.compile(r"\b(ghost\s+|pub\s+)?use\s+([^;]*);")
# an impl: the trait and what it is given, where it is a trait's; the type
METHODS = re.compile(r"\bimpl\b(?:\s*<[^{]*?>)?\s+(?:(\w+)\s*(?:<([^{]*?)>)?\s+for\s+)?(\w+)\s*(?:<[^{]*?>\s*)?(?=\{)")
FUNCTION = re.compile(r"\bfn\s+(\w+)(?:[^{;]|;[^{;\]]*\])*(?=\{)")
EXPORTED = re.compile(r"#\[unsafe\(no_mangle\)\]\s*pub\s+extern\s+fn\s+(\w+)")
# a path; a dot before it that makes it a field or a method; what makes it a call
NAMED = re.compile(r"((?<!\.)\.\s*)?\b([^\W\d]\w*(?:\s*::\s*\w+)*)((?:\s*::\s*<[^()]*>)?[\s)]*\(|![(\[{])?")
DIVISION = re.compile(r"[/%]=?\s*(\w*(?:\s+as\b|\.(?!\.))?)")
BYTE = re.compile(r"256(?:u16|u32|u64|usize)?")

# Words before a parenthesis that call nothing, and the calls of the kit's library that the sources make, no others. Which of its functions
# such a call leads to, and what these divide by, a text does not tell: that is in the compiler's reading (reading.py).
KEYWORDS = {"if", "while", "match", "return", "break", "let", "in", "mut", "else", "for", "matches"}
LIBRARY_METHODS = (
    "all checked_sub cmp copied count count_ones enumerate fill fold into is_empty is_some iter iter_mut last len min ok_or rev "
    "to_be_bytes unwrap unwrap_or unwrap_or_else wrapping_add wrapping_mul"
).split()
NUMBER = r"[iu](?:8|16|32|64|size)"
OWN_CALLS = re.compile(
    rf"\w+::default|{NUMBER}::(?:count_ones|leading_zeros|trailing_zeros|from_be_bytes|from)|\.(?:{'|'.join(LIBRARY_METHODS)})"
)
# What calls a method without naming it: a loop over an iterator, and what turns one type into another.
UNNAMED = {"next": re.compile(r"\bfor\b[^{;]*\bin\b"), "from": re.compile(r"\?|\.\s*into\s*\(")}


class Function(NamedTuple):
    path: str
    owner: str  # its module, or the type whose method it is
    module: "Module"
    start: int  # after its name
    body: int
    end: int


class Division(NamedTuple):
    line: str
    by: str  # the first word of what it divides by


class Reached(NamedTuple):
    functions: Dict[str, Function]
    unfollowed: List[str]


def blank(text: str) -> str:
    """As many spaces, so that what follows keeps its place and its line."""
    return re.sub(r"[^\n]", " ", text)


def capital(name: str) -> str:
    """A type's name as it stands in the name of an impl."""
    return name[:1].upper() + name[1:]


def closing(code: str, start: int) -> int:
    """The place after the brace that closes the one at a place."""
    depth = 0
    for brace in re.compile(r"[{}]").finditer(code, start):
        depth += 1 if brace.group() == "{" else -1
        if depth == 0:
            return brace.end()
    raise ValueError("a brace is not closed")


def parted(names: str) -> List[str]:
    """The names between commas, but for those inside braces; the last may have a comma after it."""
    parts, depth = [""], 0
    for letter in names:
        depth += {"{": 1, "}": -1}.get(letter, 0)
        if letter == "," and depth == 0:
            parts.append("")
        else:
            parts[-1] += letter
    return [part.strip() for part in parts if part.strip()]


def refuse(file: str, found: Optional[re.Match]) -> None:
    if found:
        line = found.string.count("\n", 0, found.start()) + 1
        raise ValueError(f"{file}:{line}: '{found.group()}' is not read: write it in another form")


def executable(file: str, text: str) -> str:
    code = NO_CODE.sub(lambda found: blank(found.group()), text)
    while clause := CLAUSE.search(code):
        end = closing(code, clause.end())
        refuse(file, UNREAD_IN_CLAUSE.search(text, clause.end(), end))
        code = code[: clause.start()] + blank(code[clause.start() : end]) + code[end:]
    code = TACTIC.sub(lambda found: blank(found.group()), code)
    refuse(file, UNREAD.search(code))
    return code


class Module:
    """One file: what it uses under which name, and its functions."""

    def __init__(self, file: str, text: str):
        self.file = file
        self.crate, rest = re.fullmatch(r"crates/(\w+)/src/(.*)\.rt", file).groups()
        self.path = "::".join([self.crate] + (rest.split("/") if rest not in ("lib", "main") else []))
        self.code = executable(file, text)
        self.uses: Dict[str, str] = {}
        for kind, path in USE.findall(self.code):
            if kind.strip() != "ghost":
                self.use(kind + path)
        self.functions = list(self.read_functions())

    def use(self, path: str) -> None:
        """One name, or several in braces."""
        several = re.fullmatch(r"((?:\w+::)*)\{(.*)\}", path, re.DOTALL)
        if several:
            for part in parted(several.group(2)):
                self.use(several.group(1) + part)
            return
        name = path.split("::")[-1]
        if not re.fullmatch(r"(?!(?:self|super)\b)\w+(::(?!self\b)\w+)*", path) or name in self.uses:
            raise ValueError(f"{self.file}: 'use {path}' is not read: use each name by its own name, and no two alike")
        self.uses[name] = re.sub(r"^crate\b", self.crate, path)

    def read_functions(self) -> Iterator[Function]:
        types = [(found.end(), closing(self.code, found.end()), *found.groups()) for found in METHODS.finditer(self.code)]
        for found in FUNCTION.finditer(self.code):
            around = [rest for start, end, *rest in types if start < found.start() < end]
            owner = "::".join([self.path] + [name for _, _, name in around])
            # as the compiler names an impl of a trait: RuleTryFromClass for that of TryFrom<Class> for Rule
            impl = "::".join([self.path] + ["".join(map(capital, [name, trait or "", given or ""])) for trait, given, name in around])
            end = closing(self.code, found.end())
            yield Function(f"{impl}::{found.group(1)}", owner, self, found.end(1), found.end(), end)

    def line(self, place: int) -> str:
        return f"{self.file}:{self.code.count(chr(10), 0, place) + 1}"


class Sources:
    """The crates of a repository."""

    def __init__(self, modules: List[Module], cites: Optional[Dict[str, FrozenSet[str]]] = None):
        self.modules = modules
        # for each crate those whose methods it can call, by crates.txt; where nothing is known, each may call all
        self.cites = cites or {}
        self.functions = {function.path: function for module in modules for function in module.functions}
        self.methods = [function for function in self.functions.values() if function.owner != function.module.path]

    def entries(self) -> Dict[str, str]:
        """The functions exported for C, by their names there, as paths."""
        return {name: f"{module.path}::{name}" for module in self.modules for name in EXPORTED.findall(module.code)}

    def has_crate_of(self, path: str) -> bool:
        """Whether a function is of one of these crates; else it is the kit's."""
        return path.split("::")[0] in {module.crate for module in self.modules}

    def meant(self, function: Function, field: bool, path: str) -> List[str]:
        """The functions that a name inside a function may mean: a path begins with a crate or in the module, and may lead to a type's
        method; of a method, all methods with its name."""
        module = function.module
        if field:
            return [method for method in self.named(path) if self.can_call(module.crate, method)]
        first, *rest = path.split("::")
        owners = {"Self": function.owner, "self": module.path, "super": module.path.rpartition("::")[0], "crate": module.crate}
        whole = "::".join([owners.get(first) or module.uses.get(first) or first, *rest])
        owner, _, name = whole.rpartition("::")
        of_a_type = [method for method in self.named(name) if self.functions[method].owner in (owner, f"{module.path}::{owner}")]
        return [each for each in (whole, f"{module.path}::{whole}") if each in self.functions] + of_a_type

    def named(self, name: str) -> List[str]:
        """All methods with a name."""
        return [method.path for method in self.methods if method.path.rpartition("::")[2] == name]

    def can_call(self, crate: str, method: str) -> bool:
        """Whether a crate is the method's, or cites it, by others too."""
        return crate not in self.cites or self.functions[method].module.crate in self.cites[crate]

    def unnamed(self, function: Function) -> List[str]:
        """The methods that a function calls without naming them."""
        module = function.module
        found = [name for name, form in UNNAMED.items() if form.search(module.code, function.start, function.end)]
        return [method for name in found for method in self.named(name) if self.can_call(module.crate, method)]

    def reached(self, root: str) -> Reached:
        """All functions that calls lead to, and the calls that lead nowhere."""
        found = {root: self.functions[root]}
        unfollowed = []
        todo = [root]
        while todo:
            function = found[todo.pop()]
            for named in NAMED.finditer(function.module.code, function.start, function.end):
                field, path, called = bool(named.group(1)), re.sub(r"\s", "", named.group(2)), bool(named.group(3))
                targets = self.meant(function, field, path)
                known = targets or path in KEYWORDS or path.split("::")[-1][0].isupper() or OWN_CALLS.fullmatch("." * field + path)
                if called and not known:
                    unfollowed.append(f"{function.module.line(named.start())}: {function.path} calls {path}, which is not followed")
                todo += [target for target in targets if target not in found]
                found.update({target: self.functions[target] for target in targets})
            targets = self.unnamed(function)
            todo += [target for target in targets if target not in found]
            found.update({target: self.functions[target] for target in targets})
        return Reached(found, unfollowed)


def divisions(function: Function) -> List[Division]:
    """One for each `/`, `%`, `/=` and `%=`."""
    found = DIVISION.finditer(function.module.code, function.start, function.end)
    return [Division(function.module.line(each.start()), each.group(1)) for each in found]


def findings(sources: Sources, root: str, allowed: FrozenSet[str] = frozenset()) -> List[str]:
    """What a function reaches that it is not to reach: divisions but by 256 and by what is allowed, and calls not followed."""
    reached = sources.reached(root)
    return reached.unfollowed + [
        f"{line}: {function.path} divides by {by or '..'}"
        for function in reached.functions.values()
        for line, by in divisions(function)
        if not BYTE.fullmatch(by) and by not in allowed
    ]


def read_cites(root: Path) -> Dict[str, FrozenSet[str]]:
    """For each crate itself and all that it cites, by crates.txt."""
    lines = re.findall(r"^(\w+)[^:#\n]*:(.*)$", (root / "crates.txt").read_text(), re.M)
    direct = {crate: cited.split() for crate, cited in lines}

    def below(crate: str) -> FrozenSet[str]:
        return frozenset({crate}).union(*(below(cited) for cited in direct.get(crate, [])))

    return {crate: below(crate) for crate in direct}


def read_modules(root: Path) -> List[Module]:
    return [Module(str(file.relative_to(root)), file.read_text()) for file in sorted(root.glob("crates/*/src/**/*.rt"))]
