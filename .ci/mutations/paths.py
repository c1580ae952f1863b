"""Tells which goals of a function a change of its body reaches: those at the changed statement or after it on the same path.

A loop begins anew with its invariant, so a change in its body reaches the rest of the turn and the goal that the invariant is
kept, and nothing after the loop but by a break. An inserted `if` that leaves the function changes no path but its own; where
statements trade places, those between them alone see another order. Goals have the names and places that the prover gives them.
"""
import re

TOKEN = re.compile(
    r"""\s+|//[^\n]*|(b?"(?:\\.|[^"\\])*"|b?'(?:\\[^']*|[^\\'])'|'?[A-Za-z_]\w*|\d\w*"""
    r"""|=>|->|&&|\|\||::|\.\.=?|[-+*/%&|^<>=!]=|.)""",
    re.S,
)
BRANCHES = ("if", "match", "loop", "while", "for")
CLOSING = {"(": ")", "[": "]", "{": "}"}
CLAUSES = ("requires", "ensures", "ghost")
# How the paths to a place stand to the change: none leads there, none has passed it, one has.
DEAD, CLEAN, TOUCHED = 0, 1, 2


class Token:
    def __init__(self, text, start):
        self.text, self.start, self.at, self.state, self.statement = text, start, 0, DEAD, None


class Group:
    """What is between two brackets."""

    def __init__(self, opening):
        self.opening, self.items, self.closing = opening, [], opening

    text = property(lambda self: self.opening.text)


def tokens(text):
    return [Token(found[1], found.start(1)) for found in TOKEN.finditer(text) if found[1]]


def grouped(found):
    """Returns tokens as a list of tokens and groups."""
    outer = [Group(Token("", 0))]
    for token in found:
        if token.text in CLOSING:
            group = Group(token)
            outer[-1].items.append(group)
            outer.append(group)
        elif token.text in CLOSING.values() and len(outer) > 1:
            outer.pop().closing = token
        else:
            outer[-1].items.append(token)
    return outer[0].items


def body_span(text):
    """Returns where the braces of a function's body are in its text, or None where it has none."""
    items = grouped(tokens(text))
    begins = next((at for at, it in enumerate(items) if it.text == "fn"), len(items))
    is_clause = False
    for item in items[begins:]:
        if item.text == ";":
            return None
        if item.text in CLAUSES:
            is_clause = True
        elif item.text == "{" and is_clause:
            is_clause = False
        elif item.text == "{":
            return item.opening.start, item.closing.start
    return None


def body(text):
    """Returns the tokens between the braces of a function's body, or None where it has none."""
    span = body_span(text)
    return [it for it in tokens(text) if span[0] < it.start < span[1]] if span else None


def texts(some):
    return [it.text for it in some]


def difference(was, now):
    """Returns between which of the tokens now has those that was has not, and whether none of was is gone."""
    old, new = texts(was), texts(now)
    least = min(len(old), len(new))
    begins = next((at for at in range(least) if old[at] != new[at]), least)
    after = next((at for at in range(least - begins) if old[-1 - at] != new[-1 - at]), least - begins)
    ends = len(new) - after
    is_insertion = begins + after == len(old)
    # A statement that is inserted may begin as the next one does: then it stands one token or more before.
    back = 0
    while is_insertion and begins - back > 0 and new[begins - back - 1] not in ("{", "}", ";"):
        if ends - back - 1 < begins or new[begins - back - 1] != new[ends - back - 1]:
            return begins, ends, True
        back += 1
    return begins - back, ends - back, is_insertion


def statements(items):
    """Cuts items at semicolons."""
    cut = [[]]
    for item in items:
        cut[-1].append(item)
        if item.text == ";":
            cut.append([])
    return [it for it in cut if it]


class Exit:
    """Where the function is left: by a `return`, a `?`, or at its end, and in which arms that is."""

    def __init__(self, token, state, arms, names):
        self.token, self.state, self.arms, self.names = token, state, list(arms), names


class Loop:
    def __init__(self, token, names, state):
        self.token, self.names, self.before, self.after, self.left = token, names, state, DEAD, DEAD


class Arm:
    """One way that an `if` or a `match` goes: its number among them, and how the names of goals call it."""

    def __init__(self, branch, number, kind, names):
        self.branch, self.number, self.kind, self.names, self.holds_change, self.after = branch, number, kind, names, False, CLEAN

    def is_named(self, label):
        """Tells whether a goal's name, without its clause, says that the path goes this way."""
        kind, _, rest = label.partition("-")
        if kind != self.kind:
            return False
        words = [re.sub(r"^(lt|le|gt|ge|eq|ne)(?=[A-Z\d])", "", it) for it in re.split(r"[-+]", rest) if it not in self.names]
        known = {"", "not", "lt", "le", "gt", "ge", "eq", "ne", "to", "up", *(["branch"] if "?" in self.names else [])}
        return all(it in self.names or it in known for it in words)


class Change:
    """A change of a function: its text before and after, and where that stands: a file that was checked, and a line of it."""

    def __init__(self, was, now, file, first_line):
        self.text, self.file, self.first_line = now, file, first_line
        old, self.tokens = body(was), body(now)
        self.exits, self.loops, self.arms, self.tail = [], [], [], DEAD
        self.is_known = old is not None and self.tokens is not None
        if self.is_known:
            self.begins, self.ends, self.is_insertion = difference(old, self.tokens)
            self.changeable = changeable(now)
            self.settles = self.trades_places(old) or self.is_aside()
            if self.begins == self.ends:
                # What follows what is gone, or the statement that is shorter.
                begins = self.begins - (self.begins > 0 and self.tokens[self.begins - 1].text not in ("{", "}", ";"))
                self.begins, self.ends = begins, begins + 1
            for at, token in enumerate(self.tokens):
                token.at = at
            self.open, self.inside, self.number = [], [], 0
            self.tail = self.block(grouped(self.tokens), CLEAN)
            if self.tail and self.begins == len(self.tokens):
                self.tail = TOUCHED

    def trades_places(self, old):
        """Tells whether the same statements stand there as before, in another order."""
        begins, ends, less = self.begins, self.ends, len(old) - len(self.tokens)
        while begins > 0 and self.tokens[begins - 1].text not in ("{", "}", ";"):
            begins -= 1
        while 0 < ends < len(self.tokens) and self.tokens[ends - 1].text not in (";", "}"):
            ends += 1
        some = [sorted(texts(it) for it in statements(part)) for part in (old[begins : ends + less], self.tokens[begins:ends])]
        if less or some[0] != some[1] or len(some[0]) < 2:
            return False
        self.begins, self.ends = begins, ends
        return True

    def is_aside(self):
        """Tells whether whole statements were put in that change nothing which the rest knows, but by leaving the function."""
        before, some = self.tokens[: self.begins], self.tokens[self.begins : self.ends]
        is_whole = some and some[-1].text in (";", "}") and (not before or before[-1].text in ("{", "}", ";"))
        if not (self.is_insertion and is_whole):
            return False
        stays = [it.text for it in staying(grouped(some))]
        bound = {stays[at + 1] for at, it in enumerate(stays[:-1]) if it == "let"}
        others = set(texts(before + self.tokens[self.ends :]))
        return not (set(stays) & self.changeable or bound & others or any(it in ("+=", "-=") for it in stays))

    # How the state goes on over a body: each of these returns the state after what it is given.

    def token(self, token, state):
        is_changed = self.begins <= token.at < self.ends
        state = TOUCHED if is_changed and state else state
        if self.settles and token.at == self.ends and state == TOUCHED:
            state = CLEAN
        token.state, token.statement = state, self.open[-1]
        if is_changed:
            for arm in self.inside:
                arm.holds_change = True
        return state

    def block(self, items, state):
        """A block, which has statements of its own."""
        self.number += 1
        self.open.append(self.number)
        state = self.sequence(items, state, True)
        self.open.pop()
        return state

    def sequence(self, items, state, is_block=False):
        at = 0
        while at < len(items):
            item, before = items[at], at
            rest = items[at + 1 :]
            if item.text in ("return", "break", "continue"):
                ends = at + 1 + next((n for n, it in enumerate(rest) if it.text in (";", ",")), len(rest))
                state = self.leave(item, items[at + 1 : ends], state)
                at = ends
            elif item.text in BRANCHES and any(it.text == "{" for it in rest):
                at, state = self.branch(items, at, state)
            elif item.text == "else" and rest and rest[0].text == "{":
                # The block of a `let .. else` leaves.
                state = self.token(item, state)
                self.within(items[at + 1], state, Arm(object(), 0, "in_default", set()))
                at += 2
            elif item.text in ("|", "||") and (at == 0 or items[at - 1].text in ("=", ",", "move", "return")):
                at, state = self.closure(items, at, state)
            elif isinstance(item, Group):
                state = self.group(item, state)
                at += 1
            else:
                state = self.token(item, state)
                if item.text == "?":
                    self.exits.append(Exit(item, state, self.inside, self.called(items, at)))
                at += 1
            if is_block and self.is_statement(items, before, at):
                self.number += 1
                self.open[-1] = self.number
        return state

    @staticmethod
    def is_statement(items, begins, ends):
        """Tells whether a statement ends there: at a semicolon, or what needs none."""
        starts = begins == 0 or items[begins - 1].text in (";", "{")
        is_whole = starts and items[begins].text in BRANCHES and ends < len(items) and items[ends].text not in (".", "?")
        return is_whole or items[ends - 1].text == ";"

    @staticmethod
    def called(items, at):
        """Returns the names by which goals may call what a `?` ends: what is called, and what is bound."""
        begins = max((n for n in range(at) if items[n].text in (";", "{")), default=-1)
        return {it.text for it in items[begins + 1 : at] if isinstance(it, Token) and re.match(r"[A-Za-z_]", it.text)}

    def group(self, group, state):
        state = self.token(group.opening, state)
        state = self.sequence(group.items, state)
        return self.token(group.closing, state) if group.closing is not group.opening else state

    def within(self, group, state, arm):
        """An arm that is a block."""
        self.arms.append(arm)
        self.inside.append(arm)
        state = self.token(group.opening, state)
        arm.after = self.end(group, self.block(group.items, state))
        self.inside.pop()
        return arm.after

    def end(self, group, state):
        """The end of a block, which is no part of the statement that the block belongs to."""
        state = self.token(group.closing, state)
        group.closing.statement = None
        return state

    def leave(self, token, items, state):
        state = self.sequence(items, self.token(token, state))
        loop = next((it for it in reversed(self.inside) if isinstance(it, LoopArm)), None)
        if token.text == "return":
            self.exits.append(Exit(token, state, self.inside, {"return"}))
        elif loop and token.text == "break":
            loop.loop.left = max(loop.loop.left, state)
        elif loop:
            loop.loop.after = max(loop.loop.after, state)
        return DEAD

    def closure(self, items, at, state):
        """A closure, which the outer body only makes."""
        ends = at + 1
        if items[at].text == "|":
            ends = at + 2 + next((n for n, it in enumerate(items[at + 1 :]) if it.text == "|"), 0)
        while ends < len(items) and items[ends].text not in (",", ";"):
            ends += 1
        for token in flat(items[at:ends]):
            state = self.token(token, state)
        return ends, state

    def branch(self, items, at, state):
        """An `if`, a `match` or a loop, with what belongs to it."""
        word = items[at].text
        block = next(n for n in range(at + 1, len(items)) if items[n].text == "{")
        state = self.token(items[at], state)
        head = items[at + 1 : block]
        names = {it.text for it in flat(head)}
        if word in ("loop", "while", "for"):
            label = {items[at - 2].text.strip("'")} if at > 1 and items[at - 1].text == ":" else set()
            return block + 1, self.loop(items[at], head, items[block], names | label, state)
        state = self.sequence(head, state)
        if word == "match":
            return block + 1, self.match(items[block], state)
        taken, other = ways(head, names)
        after = self.within(items[block], state, taken)
        ends, otherwise = block + 1, state
        if ends + 1 < len(items) and items[ends].text == "else":
            state = self.token(items[ends], state)
            if items[ends + 1].text == "if":
                self.arms.append(other)
                self.inside.append(other)
                ends, otherwise = self.branch(items, ends + 1, state)
                self.inside.pop()
            else:
                otherwise = self.within(items[ends + 1], state, other)
                ends += 2
        else:
            self.arms.append(other)
        return ends, max(after, otherwise)

    def match(self, group, state):
        """A match: what its patterns are is looked at in turn."""
        node, after, items = object(), DEAD, group.items
        state, at, number = self.token(group.opening, state), 0, 0
        while at < len(items):
            arrow = next((n for n in range(at, len(items)) if items[n].text == "=>"), len(items) - 1)
            self.number += 1
            self.open.append(self.number)
            pattern = [*flat(items[at:arrow])]
            state = self.sequence(items[at : arrow + 1], state)
            is_rest = re.fullmatch(r"(?!true$|false$)[a-z_]\w*", " ".join(texts(pattern)))
            arm = Arm(node, number, "in_default" if is_rest else "in", pattern_names(texts(pattern)))
            if arrow + 1 < len(items) and items[arrow + 1].text == "{":
                after = max(after, self.within(items[arrow + 1], state, arm))
                at = arrow + 2
            else:
                ends = next((n for n in range(arrow + 1, len(items)) if items[n].text == ","), len(items))
                self.arms.append(arm)
                self.inside.append(arm)
                arm.after = self.block(items[arrow + 1 : ends], state)
                after = max(after, arm.after)
                self.inside.pop()
                at = ends
            self.open.pop()
            if at < len(items) and items[at].text == ",":
                self.token(items[at], state)
                at += 1
            number += 1
        return self.end(group, after)

    def loop(self, token, head, group, names, state):
        loop = Loop(token, names, state)
        self.loops.append(loop)
        arm = LoopArm(loop)
        state = self.sequence(head, state)
        ended = self.within(group, state, arm)
        loop.after = max(loop.after, ended)
        return max(DEAD if token.text == "loop" else state, loop.left)

    # What is asked.

    def reaches(self, goal, place=None, is_inner=False):
        """Tells whether it reaches a goal, which has a place, as a file, a line and a column, where the prover says it."""
        if not self.is_known:
            return True
        token = self.token_at(place) if place else None
        clause_free = re.sub(r"-clause-\w+$", "", goal)
        loop = re.fullmatch(r"(.+?)-(init|preserved|smaller)", goal)
        if loop and not is_inner:
            return self.reaches_loop(loop[1], loop[2], token)
        if goal.startswith("returns") and not is_inner:
            label = re.sub(r"-\d+$", "", clause_free.removeprefix("returns").removeprefix("-"))
            return self.reaches_exit(label, token, place is not None)
        if token:
            return self.statement_state(token) == TOUCHED
        words = set(re.split(r"[-_]", goal)) | set(goal.split("-"))
        return any(self.statement_state(it) == TOUCHED for it in self.tokens if it.text in words)

    def token_at(self, place):
        """Returns the token at a place, or None where that is not in the body."""
        line, column = place[1] - self.first_line, place[2] - 1
        lines = self.text.split("\n")
        if place[0] != self.file or not 0 <= line < len(lines) or not self.tokens:
            return None
        at = sum(len(it) + 1 for it in lines[:line]) + column
        found = [it for it in self.tokens if it.start <= at < it.start + len(it.text)]
        return found[0] if found else None

    def statement_state(self, token):
        """Returns the state at the end of a token's statement, without what is in its blocks."""
        return max(it.state for it in self.tokens if it is token or it.statement and it.statement == token.statement)

    def reaches_loop(self, name, kind, token):
        words = set(name.removeprefix("loop-").split("-"))
        loops = [it for it in self.loops if token and it.token.at in (token.at, token.at + 2)]
        loops = loops or [it for it in self.loops if words <= it.names] or self.loops
        return any((it.before if kind == "init" else max(it.before, it.after)) == TOUCHED for it in loops)

    def reaches_exit(self, label, token, is_at_end):
        """Tells whether it reaches the goals at a return: that at a place, or else at the function's end."""
        if token:
            exits = [it for it in self.exits if it.token.at == token.at]
            exits = exits or [it for it in self.exits if it.token.statement == token.statement]
            return max((it.state for it in exits), default=self.statement_state(token)) == TOUCHED
        if label.startswith("in_err"):
            found = [it for it in self.exits if set(label.split("-")[1:]) <= it.names]
            if found:
                return any(it.state == TOUCHED for it in found)
        return self.reaches_end(label, is_at_end)

    def reaches_end(self, label, is_at_end):
        """Tells whether it reaches the function's end, by the arms that the goal's name says."""
        inside = [it for it in self.arms if it.holds_change]
        for arm in inside:
            beside = [it for it in self.arms if it.branch is arm.branch and it is not arm]
            if not arm.is_named(label) and any(it.is_named(label) for it in beside):
                return False
        # A `return` that is in no arm is the function's end.
        end = max([self.tail, *(it.state for it in self.exits if it.token.text == "return" and not it.arms)])
        named = [it for it in self.arms if it.is_named(label)]
        left = [it.state for it in self.exits if it.arms and it.arms[-1] in named and it.arms[-1].after == DEAD]
        if not named and not is_at_end:
            # A test that isn't called by its words: an exit of any such arm.
            left = [it.state for it in self.exits if it.arms and it.arms[-1].kind == label.partition("-")[0]] + [end]
        if left:
            return max(left) == TOUCHED
        if inside and not label and self.is_tail(inside[0]):
            # The way that has no name is the last.
            return all(arm.number == max(it.number for it in self.arms if it.branch is arm.branch) for arm in inside)
        return end == TOUCHED

    def is_tail(self, arm):
        """Tells whether an arm's value is the function's."""
        return bool(self.tokens) and self.tokens[-1].text == "}" and not isinstance(arm, LoopArm)


class LoopArm(Arm):
    """The body of a loop."""

    def __init__(self, loop):
        super().__init__(object(), 0, "loop", set())
        self.loop = loop


def ways(head, names):
    """Returns both arms of an `if`: an `if let` is called as a `match` of its pattern and the rest is."""
    node = object()
    if not head or head[0].text != "let":
        return Arm(node, 0, "then", names), Arm(node, 1, "else", names)
    pattern = texts(flat(head[1:]))
    pattern = pattern[: pattern.index("=")]
    return Arm(node, 0, "in", pattern_names(pattern)), Arm(node, 1, "in_default", set())


def staying(items):
    """Returns the tokens of items without those of blocks that leave the function."""
    for item in items:
        if isinstance(item, Group):
            if not (item.text == "{" and any(it.text == "return" for it in item.items)):
                yield from staying(item.items)
        else:
            yield item


def changeable(text):
    """Returns the names of a function's text that what it does can change: mutable borrows and variables."""
    outer, inner = tokens(text), set()
    for at, token in enumerate(outer):
        if token.text == "mut" and at + 1 < len(outer):
            inner.add(outer[at + 1].text)
            named = at - 1 - (outer[at - 1].text.startswith("'"))
            if outer[named].text == "&" and outer[named - 1].text == ":":
                inner.add(outer[named - 2].text)
    return inner


def pattern_names(words):
    """Returns the words by which goals' names call a pattern: a byte or a character by its number, a slice by its length."""
    numbers = {str(ord(it[-2])) for it in words if re.fullmatch(r"b?'[^\\]'", it)}
    length = "empty" if words == ["[", "]"] else f"len{words.count(',') + (words[-2:-1] != ['..'])}"
    return {*words, *numbers, length}


def flat(items):
    """Returns the tokens of items, with those of their groups."""
    for item in items:
        if isinstance(item, Group):
            yield item.opening
            yield from flat(item.items)
            yield item.closing
        else:
            yield item


def first(item):
    return item.opening if isinstance(item, Group) else item


def last(item):
    return item.closing if isinstance(item, Group) else item
