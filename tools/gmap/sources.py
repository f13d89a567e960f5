"""The repository's sources as text: the public functions of a Rattle file with their promises, the types that it declares, and the
definitions of an antt file. Texts are compared without comments and layout."""
import collections
import re

# A public function: its name with the type that has it, its line, and its promise as `parameters`, `requires` and `ensures`.
Function = collections.namedtuple("Function", "name line parts")

FUNCTION = re.compile(r'\bpub\s+(?:(?:const|unsafe)\s+)*(?:extern\s+"C"\s+)?fn\s+(\w+)')
OPEN, CLOSE = "([{", ")]}"


def flat(text):
    """The text without layout: single spaces, none inside brackets, and no comma or semicolon before a closing one."""
    text = re.sub(r"\s+", " ", text).strip()
    text = re.sub(r"([(\[{]) ", r"\1", text)
    return re.sub(r"[,;]? ?([)\]}])", r"\1", text)


def bare(source):
    """A Rattle source without comments, line for line."""
    return re.sub(r"//[^\n]*", "", source)


def closed(source, at):
    """The place after the bracket that closes the one at `at`."""
    depth = 0
    while at < len(source):
        depth += (source[at] in OPEN) - (source[at] in CLOSE)
        at += 1
        if depth == 0:
            break
    return at


def functions(source):
    """The public functions of a Rattle source."""
    source = bare(source)
    blocks = [(block.start(), closed(source, block.end() - 1), block.group(1))
              for block in re.finditer(r"^impl(?:<[^>]*>)?\s+(\w+)[^{]*\{", source, re.M)]
    for start in FUNCTION.finditer(source):
        at = source.find("(", start.end())
        if at < 0:
            continue
        at = closed(source, at)
        head = re.match(r"\s*(?:->(?:\[[^\]]*\]|[^{;\[])*?)?(?=\s*(?:requires|ensures|ghost|\{|;))", source[at:])
        at += head.end() if head else 0
        parts = {"parameters": flat(source[start.end():at]), "requires": "", "ensures": ""}
        while True:
            word = re.match(r"\s*(requires|ensures|ghost)\b[^{]*\{", source[at:])
            if not word:
                break
            end = closed(source, at + word.end() - 1)
            if word.group(1) in parts:
                parts[word.group(1)] += flat(source[at:end]) + " "
            at = end
        owner = next((name + "::" for begin, end, name in blocks if begin < start.start() < end), "")
        yield Function(owner + start.group(1), source.count("\n", 0, start.start()) + 1, parts)


def types(source):
    """The public structs and enums of a Rattle source: name and text."""
    source = bare(source)
    for start in re.finditer(r"^pub\s+(?:struct|enum)\s+(\w+)[^{;(]*[{(]", source, re.M):
        yield start.group(1), flat(source[start.start():closed(source, start.end() - 1)])


SIGNATURE = re.compile(r"(?:(?:abbrev|unfoldable|pub) +)*(?:(?:record|data) +(\S+)|(\S+)(?= +:(?: |$)))")
FIXITY = re.compile(r"infix[lr]? +\S+ +(\S+)")


def definitions(source):
    """The definitions of an antt file: name and text. The parameters of the modules around a definition are part of its text."""
    source = re.sub(r"\{-.*?-\}", "", source, flags=re.S)
    lines = [re.sub(r"(?:^|(?<=\s))--.*$", "", line).rstrip() for line in source.splitlines()]
    texts, modules, name = {}, [], None
    for line in filter(None, lines):
        indent = len(line) - len(line.lstrip())
        while modules and indent <= modules[-1][0]:
            modules.pop()
        inside = modules[-1][1] if modules else 0
        if inside is None:  # the first line of a module says how deep it stands
            modules[-1][1] = inside = indent
        word = line.strip()
        if indent == inside:
            if re.match(r"(?:pub +)?(?:use|mod)\b", word):
                name = None
                continue
            if re.match(r"(?:pub +)?module\b", word):
                modules.append([indent, None, word])
                name = None
                continue
            found = SIGNATURE.match(word)
            fixity = FIXITY.match(word)
            if fixity or found:
                name = fixity.group(1) if fixity else found.group(1) or found.group(2)
                texts.setdefault(name, [module[2] for module in modules])
        if name is not None:
            texts[name].append(word)
    return {name: flat(" ".join(text)) for name, text in texts.items()}
