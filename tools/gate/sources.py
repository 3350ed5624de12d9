"""Reads sources: where the functions of a file and their bodies stand, and how the checker names them."""
import functools
import re


def past_text(text, at):
    """Returns the place behind a comment, a string or a character that begins here, or None."""
    if text.startswith("//", at):
        end = text.find("\n", at)
        return len(text) if end < 0 else end
    if text.startswith("/*", at):
        end = text.find("*/", at)
        return len(text) if end < 0 else end + 2
    if text[at] == '"':
        found = re.compile(r'"(?:[^"\\]|\\.)*"', re.S).match(text, at)
        return found.end() if found else len(text)
    if text[at] == "'" and (not (at and re.match(r"[\w']", text[at - 1])) or re.search(r"(?<!\w)b$", text[max(0, at - 2) : at])):
        found = re.compile(r"'(?:\\[^'\n]+|[^'\\\n])'").match(text, at)
        return found.end() if found else None
    return None


def places(text, at, end=None):
    """Gives the places from one on that stand in no comment, string or character."""
    while at < (len(text) if end is None else end):
        past = past_text(text, at)
        if past is None:
            yield at
            past = at + 1
        at = past


def closing(text, at):
    """Returns the place behind the bracket that closes the one here."""
    depth = 0
    for at in places(text, at):
        depth += (text[at] in "([{") - (text[at] in ")]}")
        if not depth:
            return at + 1
    return len(text)


def holders(text):
    """Lists the impls, traits and modules of a file: where their braces stand, and their heads."""
    found = []
    word = re.compile(r"(?:pub(?:\([^)]*\))? )?(?:unsafe )?(impl|trait|mod)\b([^{;]*)\{")
    for at in places(text, 0):
        head = word.match(text, at) if text[at] in "pumti" and not text[:at].rsplit("\n", 1)[-1].strip() else None
        if head:
            found.append((head.end() - 1, closing(text, head.end() - 1), head[1], " ".join(head[2].split())))
    return found


def body_of(text, at):
    """Returns where the body of a function stands, whose parameters begin here; its clauses stand before it."""
    last = at = closing(text, at)
    while at < len(text):
        past = past_text(text, at)
        if past is not None:
            at = past
        elif text[at] == ";":
            return None
        elif text[at] in "([":
            at = closing(text, at)
        elif text[at] == "{":
            end = closing(text, at)
            if not re.search(r"\b(requires|ensures|ghost)\b", text[last:at]):
                return at, end
            at = last = end
        else:
            at += 1
    return None


@functools.cache
def bodies(text):
    """Lists the functions of a file that have a body: name, where the body begins and ends, the heads around it, and where it begins."""
    found, around, word, skip = [], holders(text), re.compile(r"fn\s+(\w+)"), 0
    for at in places(text, 0):
        named = word.match(text, at) if text[at] == "f" and not re.match(r"\w", text[at - 1] if at else " ") else None
        if not named or at < skip:
            continue
        start = next((it for it in places(text, named.end()) if text[it] == "("), None)
        body = body_of(text, start) if start else None
        if body:
            inside = [it for it in around if it[0] < at < it[1]]
            found.append((named[1], *body, tuple((it[2], it[3]) for it in inside), at))
            skip = body[1]
    return found


def headed_from(text, at):
    """Returns where the attributes and comments right above a function begin: a goal may be told to stand there."""
    at = text.rfind("\n", 0, at) + 1
    while at:
        above = text.rfind("\n", 0, at - 1) + 1
        if not re.match(r"\s*(#\[|//)", text[above:at]):
            break
        at = above
    return at


def without_parameters(text):
    """Returns a head's text behind the type parameters of its `impl`."""
    if not text.startswith("<"):
        return text.strip()
    depth = 0
    for at, sign in enumerate(text):
        depth += (sign == "<") - (sign == ">" and text[at - 1] != "-")
        if not depth:
            return text[at + 1 :].strip()
    return text


def word_of(name):
    """Returns how the checker writes a type in a name, without its arguments."""
    name = re.sub(r"\bwhere\b.*", "", name).strip()
    by_ref = "Ref" if name.startswith("&") else ""
    bare = re.sub(r"^&\s*(?:'\w+\s*)?(?:mut\s+)?", "", name).split("<")[0].strip()
    last = bare.split("::")[-1]
    return by_ref + last[:1].upper() + last[1:]


def named_by(file, name, around, known):
    """Names a function as the checker does, where one of the names that it knows fits alone."""
    fits = [it for it in known if it.split("::")[-1] == name]
    parts = [it for it in file[len("src/") : -len(".rt")].split("/") if it not in ("lib", "main", "mod")]
    module = "::".join(parts + [it[1] for it in around if it[0] == "mod"])
    kind, head = around[-1] if around and around[-1][0] != "mod" else ("", "")
    if kind == "impl" and " for " in without_parameters(head):
        of_trait, of_type = without_parameters(head).split(" for ", 1)
        begins, argument = word_of(of_type) + word_of(of_trait), re.search(r"<(.*)>", of_trait)
        owners = {begins, begins + word_of(argument[1]) if argument else begins}
        near = [it for it in fits if it.split("::")[-2] in owners] or [it for it in fits if it.split("::")[-2].startswith(begins)]
    elif kind:
        owner = word_of(without_parameters(head).split(":")[0] if kind == "trait" else without_parameters(head))
        near = [it for it in fits if len(it.split("::")) > 2 and it.split("::")[-2].split("+")[0] == owner]
    else:
        near = [it for it in fits if "::".join(it.split("::")[1:-1]) == module]
    if len(near) > 1:
        near = [it for it in near if "::".join(it.split("::")[1:]).startswith(module + "::" if module else "")] or near
    return near[0] if len(near) == 1 else None
