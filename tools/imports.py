"""The imports of a file of specs or proofs, in both forms: one module a line, and modules with braces within braces."""
import re

# `use Rattle.x.y.{..}` in one line, with any braces inside. A `pub use`, and an import of a module, stay apart from it.
BRACED = re.compile(r"(use )(Rattle(?:\.[^\s{}]+)?)\.\{(.*)\}")


def parts(text):
    """Yields the parts of a text between the commas that stand in no braces."""
    depth, part = 0, ""
    for letter in text:
        if letter == "," and depth == 0:
            yield part.strip()
            part = ""
        else:
            depth += {"{": 1, "}": -1}.get(letter, 0)
            part += letter
    if part.strip():
        yield part.strip()


def names_in(module, inside):
    """Yields each name in the braces after a module, as (module, name). A name has its `as` with it."""
    for part in parts(inside):
        if part.endswith("}"):
            below, _, more = part.partition(".{")
            yield from names_in(f"{module}.{below}", more[:-1])
        else:
            path, dot, name = part.partition(" as ")[0].rpartition(".")
            yield (f"{module}.{path}", part[len(path) + 1 :]) if dot else (module, part)


def names_of(line):
    """Returns the names that one line imports, each as (module, name); none for an import of a module and for other lines."""
    use = BRACED.fullmatch(line)
    return list(names_in(use[2], use[3])) if use else []


def flat(text):
    """Returns a text with each import of several modules written as one import a module."""
    def lines(use):
        by_module = {}
        for module, name in names_in(use[3], use[4]):
            by_module.setdefault(module, []).append(name)
        return "\n".join(f"{use[1]}{use[2]}{module}.{{{', '.join(names)}}}" for module, names in by_module.items())
    return re.sub(r"^((?:pub )?)(use )(Rattle(?:\.[^\s{}]+)?)\.\{(.*[.{].*)\}$", lines, text, flags=re.M)
