"""What is left of a text of code if its values are left out."""

import re

TOKEN = re.compile(
    r"""//[^\n]*|b?"(?:\\.|[^"\\])*"|b?'(?:\\[^']*|[^'\\])'|'\w+|[A-Za-z_]\w*!?|\d\w*(?:\.\d\w*)?|==|!=|<=|>=|&&|\|\||[-+*/%^]=|<<|>>|->|=>|::|\.\.=?|\S"""
)
WORDS = {"if", "else", "match", "for", "while", "loop", "let", "return", "break", "continue", "in", "mut", "as", "fn", "move"}
OPERATORS = {
    "compare": {"==", "!=", "<", "<=", ">", ">="},
    "logic": {"&&", "||"},
    "range": {"..", "..="},
    "compute": {"+", "-", "*", "/", "%", "^", "|", "<<", ">>", "+=", "-=", "*=", "/=", "%=", "^="},
}
KINDS = {operator: kind for kind, operators in OPERATORS.items() for operator in operators}


def shape(text):
    """What is left of a text if its values are left out: literals, names, fields, variants, operators of one kind, and
    whether a condition is turned round."""
    tokens = [it for it in TOKEN.findall(text) if not it.startswith("//") and it != "!"]
    kinds = []
    for token, after in zip(tokens, [*tokens[1:], ""]):
        kind = kind_of(token, after)
        # A path and the fields of a value are one value.
        if kind == "value" and len(kinds) > 1 and kinds[-1] in ("::", ".") and kinds[-2] == "value":
            kinds.pop()
        else:
            kinds.append(kind)
    return kinds


def kind_of(token, after):
    """What a token is for a shape. `after` is the next one."""
    if token in ("true", "false") or token[0].isdigit() or token[0] in "\"'" or token[:2] in ("b'", 'b"'):
        return "value"
    if re.match(r"[A-Za-z_]", token) and token not in WORDS:
        # A function that is called stays; a variant or a name is a value.
        return token if after == "(" and token[0].islower() else "value"
    return KINDS.get(token, token)


def differing(body):
    """What keeps a body's shapes from being right: a twin of another shape than the body, no twin where the body has
    another shape than the code, or a comment, which would hide what follows it."""
    if any("//" in text for it in body.pairs for text in (it.new, it.right or "")):
        return "it puts a comment into the code"
    if any(it.right is not None and shape(it.right) != shape(it.new) for it in body.pairs):
        return "its right twin has another shape"
    if body.type_name and not body.has_twin():
        return "it is said not to compile, and has no right twin"
    is_kept = all(shape(it.old) == shape(it.new) for it in body.pairs)
    if not (is_kept or body.has_twin() or body.test):
        return "it changes more than a value, and has no right twin"
    return None
