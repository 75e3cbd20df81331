"""Which public functions nothing calls."""
import collections
import re

BLOCK = r"\{(?:[^{}]|\{(?:[^{}]|\{[^{}]*\})*\})*\}"
CONTRACTS = r"\b(?:requires|ensures)(?: \w+)? %s|\bghost \w+\s*[=:]\s*%s" % (BLOCK, BLOCK)
CLOSURE = r"(?<=[(,=])\s*\|[^|]*\|(?:\s*->[^{]*)?"  # up to its body
NAME = r"(\bfn )?\b([a-z]\w*)\b(?:::<[^()]*?>)?(\()?"
# a public function that isn't a law, up to its parameters
HEAD = r'^ *pub (extern "C" )?fn (\w+)(?:<(?:[^<>]|<[^<>]*>)*>)?(?=\()(?!\(\)\s*\{\s*\})'
SELF = r"\(\s*(?:&(?:'\w+ )?)?(?:mut )?self\b"
LONGEST = 4000  # characters of a call


def code_of(text):
    """What of a file runs: no comments, imports, contracts and ghost items, and of closures only the bodies."""
    text = re.sub(r"//.*|^ *#\[.*$|^ *(?:pub )?(?:ghost )?use [^;]*;", "", text, flags=re.M)
    return re.sub(CLOSURE, "", re.sub(CONTRACTS, "", text))


def length_of(text, opening, closing):
    """The length of the list in brackets that a text begins with."""
    depth, commas, last = 0, 0, ""
    for char in text[:LONGEST]:
        depth += (char in opening) - (char in closing)
        if not depth:
            return commas + (last not in "(,")
        commas += char == "," and depth == 1
        last = last if char.isspace() else char
    return None


def uncalled(texts, others):
    """The file and the name of each public function that nothing calls by its name and its number of arguments, and
    nothing passes on by its name. An exported one is called if `others`, texts in other languages, have its name."""
    codes = {path: code_of(text) for path, text in texts.items()}
    called = collections.defaultdict(set)
    for code in codes.values():
        for call in re.finditer(NAME, code):
            if not call[1]:
                count = length_of(code[call.end() - 1: call.end() + LONGEST], "([{", ")]}") if call[3] else None
                called[call[2]].add((code[call.start() - 1] == ".", count))
    for path, code in codes.items():
        code = code.replace("->", "==")
        for head in re.finditer(HEAD, code, re.M):
            parameters = code[head.end(): head.end() + LONGEST]
            count = length_of(parameters, "([{<", ")]}>")
            ways = {(False, None), (False, count)}
            if re.match(SELF, parameters):
                ways.add((True, count - 1))
            if not (re.search(r"\b%s\b" % head[2], others) if head[1] else ways & called[head[2]]):
                yield path, head[2]
