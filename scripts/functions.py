"""Functions in the sources of the crates: their lines, paths and names, and the public ones."""
import pathlib
import re

CRATES = pathlib.Path(__file__).resolve().parent.parent / "crates"
FUNCTION = re.compile(r'( *)(?:pub(?:\([^)]*\))? )?(?:(?:const|final|unsafe|extern "C") )*fn (\w+)')
OWNER = re.compile(r"( *)(?:pub(?:\([^)]*\))? )?(?:unsafe )?(impl|trait)\b(.*)")
ITEM = re.compile(r"(?:pub(?:\([^)]*\))? )?(\S+ \w+|.*)")


def end_of(lines, first):
    """The last line of a function in the layout of `rt fmt`: a brace aligned with its head, or the head if the body is short."""
    indent = FUNCTION.match(lines[first])[1]
    has_body = False
    for number in range(first, len(lines)):
        line = lines[number]
        has_body = has_body or line.endswith("{")
        if line == indent + "}" or not has_body and line.endswith((";", "{}")):
            return number
    return first


def function_at(lines, number):
    """The first and the last line of the function around a line; outside of functions, of the constant, macro or import.

    A line of a comment or an attribute belongs to the item below it."""
    while number + 1 < len(lines) and lines[number].lstrip().startswith(("//", "#[")):
        number += 1
    for first in range(number, -1, -1):
        if FUNCTION.match(lines[first]) and end_of(lines, first) >= number:
            return first, end_of(lines, first)
    first = next((at for at in range(number, -1, -1) if lines[at][:1].isalpha()), number)
    return first, next((at for at in range(number, len(lines)) if not lines[at].startswith(" ")), number)


def owner_of(lines, first):
    """The first line of the impl or trait that contains a function."""
    indent = len(lines[first]) - len(lines[first].lstrip())
    heads = ((number, OWNER.match(lines[number])) for number in range(first, -1, -1))
    return next((number for number, head in heads if head and len(head[1]) < indent), None)


def owner_parts(head):
    """The names of the type and of the trait in the head of an impl; empty where there is none."""
    while head != (shorter := re.sub(r"<[^<>]*>", "", head)):
        head = shorter
    trait, _, kind = re.sub(r"(?<!:):(?!:).*", "", head.partition(" where ")[0]).partition(" for ")
    parts = [re.findall(r"\w+", part)[-1] if re.search(r"\w", part) else "" for part in (kind, trait)]
    return parts if kind else parts[::-1]


def path_at(crate, file, lines, number):
    """The path of the function around a line: its module, its type followed by the implemented trait, if any, and its name."""
    first, _ = function_at(lines, number)
    owner, head = owner_of(lines, first), FUNCTION.match(lines[first])
    names = [*file.relative_to(CRATES / crate / "src").with_suffix("").parts]
    names += ["".join(owner_parts(OWNER.match(lines[owner])[3]))] if owner is not None else []
    return "::".join([*names, head[2] if head else ITEM.match(lines[first])[1]])


def names_at(lines, first):
    """The type or trait of a method, and the names of the function, the clearest first.

    `len` of `impl Chars` is `Chars::len` and `len`; `fmt` of `impl Display for Error` is also `Error::Display` and `Display`."""
    head, owner = FUNCTION.match(lines[first]), owner_of(lines, first)
    if not head or owner is None:
        return "", [head[2] if head else ITEM.match(lines[first])[1].split()[-1]]
    kind, trait = owner_parts(OWNER.match(lines[owner])[3])
    names = [head[2], trait] if trait not in ("Display", "Debug", "From") else [trait, head[2]]
    names = [name for name in names if name]
    return kind, [*(f"{kind}::{name}" for name in names), *names]


def sources(crate):
    """The lines of a crate's sources, by file."""
    return {file: file.read_text(encoding="utf-8").splitlines() for file in sorted((CRATES / crate / "src").rglob("*.rt"))}


def exported(crate):
    """The names that other crates can import: those that the root re-exports, and the public items of public modules."""
    texts = {file.stem: "\n".join(lines) for file, lines in sources(crate).items()}
    exports = re.findall(r"^pub use [\w:]+?(?:::\{([^}]*)\}|(\w+));", texts["lib"], re.M)
    names = {name for several, one in exports for name in re.findall(r"\w+", several or one)}
    for module in {"lib", *re.findall(r"^pub mod (\w+);", texts["lib"], re.M)}:
        names |= set(re.findall(r"^pub (?:struct|enum|trait|type|const fn|unsafe fn|fn) (\w+)", texts[module], re.M))
    return names


def public_functions(crate):
    """The functions that users of a crate can call: the file and the first line of each.

    A trait's method counts if it has a body. An impl of a trait counts if type and trait are public or of another crate."""
    files, names = sources(crate), exported(crate)
    declared = {name for lines in files.values() for name in re.findall(r"\b(?:struct|enum|trait|type) (\w+)", "\n".join(lines))}
    for file, lines in files.items():
        for first, line in enumerate(lines):
            if FUNCTION.match(line) and is_public(lines, first, names, declared - names):
                yield file, first


def is_public(lines, first, names, hidden):
    """Whether users can call a function, given the names that they can import and those that are private."""
    line, owner = lines[first], owner_of(lines, first)
    is_pub = line.lstrip().startswith("pub ")
    if owner is None:
        return is_pub and (FUNCTION.match(line)[2] in names or 'extern "C"' in line)
    head = OWNER.match(lines[owner])
    kind, trait = owner_parts(head[3])
    if kind in hidden or trait in hidden:
        return False
    if head[2] == "trait":
        return not lines[end_of(lines, first)].endswith(";")
    return is_pub or trait != ""
