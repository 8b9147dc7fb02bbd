"""The hints on inlining that sources give their functions: `rt try` drops them, and a proved program has them."""
import os
import re

# What a hint is in a module for LLVM.
ATTRIBUTES = {"#[inline]": "inlinehint", "#[inline(always)]": "alwaysinline", "#[inline(never)]": "noinline", "#[cold]": "cold"}
FUNCTION = re.compile(r'\s*(?:pub(?:\([^)]*\))? )?(?:const )?(?:unsafe )?(?:extern "C" )?fn (\w+)')
BLOCK = re.compile(r"(?:pub )?(?:unsafe )?(?:impl(?:<(?P<parameters>(?:[^<>]|<[^<>]*>)*)>)? (?P<head>.*)|trait (?P<trait>\w+).*)")
# What may stand between a hint and its function.
BETWEEN = re.compile(r"\s*(?:#|//|$)")


def type_word(text, parameters):
    """A type as it stands in the names of a module: `Vec` for `Vec<T>`, `RefStr` for `&str`, `Any` for a parameter."""
    text = text.strip()
    if text.startswith("&"): return "Ref" + type_word(re.sub(r"^&('\w+ )?(mut )?", "", text), parameters)
    if text.startswith("["): return "Slice"
    word = re.match(r"[\w:]*", text)[0].split("::")[-1]
    if word in parameters: return "Any"
    return word[:1].upper() + word[1:]


def trait_words(text, parameters):
    """A trait as it stands there: `IndexUsize` for `Index<usize>`; what is a parameter is left out."""
    name, _, arguments = text.partition("<")
    words = [type_word(it, parameters) for it in arguments.rstrip("> ").split(",") if it]
    return type_word(name, []) + "".join(it for it in words if it != "Any")


def owner_of(block):
    """The owner of a block's functions as it stands in their names: the type, with the trait behind it where there is one."""
    if block["trait"]: return block["trait"]
    parameters = re.findall(r"(?:^|, )(\w+)", block["parameters"] or "")
    trait, found, owner = block["head"].partition(" for ")
    if not found: return "slice+T" if block["head"].startswith("[T]") else type_word(block["head"], parameters)
    return type_word(owner, parameters) + trait_words(trait, parameters)


def hinted(path):
    """Each function of a source file that has hints: its owner, or None, its name, and the hints as attributes."""
    owner, hints = None, set()
    with open(path, encoding="utf-8") as file:
        for line in file:
            block, function = BLOCK.match(line), FUNCTION.match(line)
            if block: owner = owner_of(block)
            if line.startswith("}"): owner = None
            if line.strip() in ATTRIBUTES:
                hints.add(ATTRIBUTES[line.strip()])
            elif not BETWEEN.match(line):
                if function and hints: yield owner if line.startswith(" ") else None, function[1], hints
                hints = set()


def module_of(crate, path):
    """The name of the module that a file is, from its path in the crate's src."""
    parts = path.removesuffix(".rt").split(os.sep)
    return "::".join([crate, *(parts[:-1] if parts[-1] in ("lib", "main", "mod") else parts)])


class Hints:
    """The hints of all functions of the crates that lie in some folders."""

    def __init__(self, folders):
        self.table = {}
        for folder in folders:
            for crate in sorted(os.listdir(folder)):
                self.read(crate, f"{folder}/{crate}/src")

    def read(self, crate, top):
        for folder, _, names in os.walk(top):
            for name in names:
                if name.endswith(".rt"):
                    module = module_of(crate, os.path.relpath(f"{folder}/{name}", top))
                    for owner, function, hints in hinted(f"{folder}/{name}"):
                        # (a method's name has the module of its type, which may be of another file of the crate)
                        for place in {module, crate} if owner else {module}:
                            self.table.setdefault((place, owner, function), set()).update(hints)

    def of(self, name):
        """The hints of a function by its name in a module: `crate::module::Owner::function::<types>`."""
        *places, function = re.sub(r"::<.*", "", name).split("::")
        module, owner = "::".join(places[:-1]), places[-1] if places else None
        for key in ((module, owner, function), (places[0] if places else None, owner, function), ("::".join(places), None, function)):
            if key in self.table: return self.table[key]
        return set()
