"""Lists the public words of specs/ that no public clause rests on.

A word is public where its line in specs/ says `pub`. A public clause is one of a `pub fn` that its crate hands out, of a method of
a type or a trait, or a ghost member; it rests on the words that it names, and on those that their definitions name. What
is left is cited by private clauses, by proofs, or by nothing, and belongs in specs/inside, where this script doesn't look.

Usage, from the top of the repository: python3 bench/gate/words.py [CRATE ..]
"""
import glob
import os
import re
import sys

# a name of antt: no space and none of the characters that stand by themselves
NAME = r"[^\s(){}\[\],;:.\"]+"
IMPORT = re.compile(r"\b(?:ghost )?(?:pub )?use (Rattle\.\w+(?:\.[\w«»]+)*)(?:\.\{([^}]*)\}| as (\S+?))?;?$", re.M)
# the first line of a definition; in a `mutual` and in a module it is indented
HEAD = re.compile(rf"^ *(?:(?:abbrev|unfoldable|opaque) )*(pub )?(?:(?:record|data|abbrev) )?({NAME})(?: [^=]*)? :(?: |$)")


def read(path):
    with open(path, encoding="utf-8") as file:
        return file.read()


def imports_of(text):
    """The words that a file imports, by the names that it gives them, and its names for modules."""
    words, modules = {}, {}
    for module, listed, alias in IMPORT.findall(text):
        if alias:
            modules[alias] = module
        for each in filter(None, (it.strip() for it in listed.split(","))):
            word, _, called = each.partition(" as ")
            words[called or word] = module, word
    return words, modules


def tokens_of(text):
    """The names in a text, also those of operators and those behind a module's name."""
    code = re.sub(r"--.*|//.*", "", text)
    found = set(re.findall(rf"{NAME}\.{NAME}|{NAME}", code))
    return found | {part for it in found for part in it.split(".")}


def cited(text, module, words, modules, own):
    """The words of specs/ that a text names."""
    for token in tokens_of(text):
        if token in own:
            yield module, token
        if token in words:
            yield words[token]
        front, dot, back = token.partition(".")
        if dot and front in modules:
            yield modules[front], back
    # an operator's name has a ◌ in the place of each argument
    for name, word in [*words.items(), *((it, (module, it)) for it in own)]:
        if "◌" in name and all(part in text for part in name.split("◌") if part):
            yield word


def blocks(text):
    """The parts of a file that begin at the margin with a word of their own: a definition, or several that need one another."""
    found, names = [], set()
    for line in text.splitlines():
        head = HEAD.match(line)
        begins = line[:1] not in ("", " ") and (head or re.match(r"(abbrev|unfoldable|module|use|pub)\b|--", line))
        if begins or not found:
            found.append("")
        found[-1] += line + "\n"
    return found


def definitions(text):
    """The words that a file defines, each with the text of its definition, and those of them that are public."""
    found, public = {}, set()
    for block in blocks(text):
        inner = re.match(r"abbrev mutual|module\b", block)
        heads = [HEAD.match(line) for line in block.splitlines() if re.match(r"  \S" if inner else r"\S", line)]
        for head in filter(None, heads):
            found[head.group(2)] = block
            public |= {head.group(2)} if head.group(1) else set()
    return found, public


def specs():
    """For each word of specs/ the words that its definition names, and the public ones."""
    edges, public = {}, set()
    for path in sorted(glob.glob("crates/*/specs/**/*.antt", recursive=True)):
        crate, _, inner = path.removeprefix("crates/").partition("/specs/")
        module = f"Rattle.{crate}.specs." + inner.removesuffix(".antt").replace("/", ".")
        text = read(path)
        words, modules = imports_of(text)
        own, said = definitions(text)
        public |= {(module, name) for name in said}
        for name, body in own.items():
            edges[module, name] = set(cited(body, module, words, modules, own)) - {(module, name)}
    return edges, public


# ---- the public clauses of src/


def hands_out(crate, path):
    """Whether a crate hands out a free function of this name and file: by `pub use`, by a `pub mod`, or since it is a program."""
    top = f"crates/{crate}/src/lib.rt"
    if not os.path.isfile(top):
        return lambda name: True
    named = set(re.findall(r"\w+", " ".join(re.findall(r"pub use ([^;]*);", read(top)))))
    is_open = f"pub mod {os.path.basename(path).removesuffix('.rt')};" in read(top)
    return lambda name: is_open or name in named


FUNCTION = re.compile(r"( *)(pub |pub\([a-z]+\) )?(?:const |final )?fn (\w+)")


def public_clauses(path, is_handed_out):
    """The public clauses of a file: those of public functions, between the first line and the body, and ghost members."""
    kept, is_public, is_trait = [], False, False
    for line in read(path).splitlines():
        head = FUNCTION.match(line)
        if re.match(r"(impl|(pub )?trait)\b", line):
            is_trait = bool(re.match(r"impl\b.* for |(pub )?trait\b", line))
        if head:
            indent, said, name = head.groups()
            is_public = said == "pub " and (bool(indent) or is_handed_out(name)) or not said and bool(indent) and is_trait
        elif re.match(r" *\{}?$", line):
            # the body
            is_public = False
        if is_public or re.match(r" *(pub )?ghost \w+ *[:=]", line):
            kept.append(line)
    return "\n".join(kept)


def roots():
    """The words that public clauses name."""
    found = set()
    for path in sorted(glob.glob("crates/*/src/**/*.rt", recursive=True)):
        crate = path.split("/")[1]
        text = read(path)
        words, modules = imports_of(text)
        found.update(cited(public_clauses(path, hands_out(crate, path)), "", words, modules, {}))
    return found


def rested_on(edges, roots):
    """All words that these rest on."""
    seen, waiting = set(), list(roots)
    while waiting:
        word = waiting.pop()
        if word not in seen:
            seen.add(word)
            waiting += edges.get(word, ())
    return seen


def main(crates):
    edges, public = specs()
    seen = rested_on(edges, roots())
    left = [it for it in sorted(public) if it not in seen and ".specs.inside." not in it[0]]
    for module, word in left:
        crate, _, file = module.removeprefix("Rattle.").partition(".specs.")
        if not crates or crate in crates:
            print(f"{crate}/specs/{file}: {word}")
    print(f"{len(left)} of {len(public)} public words", file=sys.stderr)


main(sys.argv[1:])
