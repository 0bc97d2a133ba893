"""Queries for objects, as a script says them, in SQLAlchemy's words."""

import sqlalchemy as sa
from mapped_classes import Words, is_value, plain, value
from sqlalchemy import orm

# Comparisons of two sums.
COMPARED = {
    "==": lambda a, b: a == b, "!=": lambda a, b: a != b, "<": lambda a, b: a < b, "<=": lambda a, b: a <= b,
    ">": lambda a, b: a > b, ">=": lambda a, b: a >= b, "like": lambda a, b: a.op("like", is_comparison=True)(b),
    "ilike": lambda a, b: a.ilike(b),
}
FUNCTIONS = ("lower", "upper", "length", "coalesce")
KINDS = ((bool, sa.Boolean()), (int, sa.BigInteger()), (str, sa.Text()), (bytes, sa.LargeBinary()))


def literal(word):
    """A literal with its kind."""
    given = value(word)
    if given is None:
        return sa.null()
    return sa.literal(given, next(kind for of, kind in KINDS if isinstance(given, of)))


class Query:
    """A query whose words are taken from the front of `words`: its select is `text`, which answers objects of its class."""

    def __init__(self, mapped, words):
        self.mapped, self.words, self.inner = mapped, words, []
        self.named = words.name()
        self.top = mapped.classes[self.named]
        self.entities = [(self.named, self.top)]
        self.text = sa.select(self.top)
        self.is_ordered, self.along = False, []
        self.read()

    def read(self):
        words = self.words
        while words.takes("join"):
            owner, link = self.path()
            target = self.target(owner, link)
            alias = orm.aliased(self.mapped.classes[target])
            self.text = self.text.join(getattr(self.entity(owner), link).of_type(alias))
            self.entities.append((target, alias))
        if words.takes("where"):
            self.text = self.text.where(self.either())
        if words.takes("order"):
            words.take()
            self.order()
        for part in ("limit", "offset"):
            if words.takes(part):
                self.text = getattr(self.text, part)(int(words.take()))
        if words.takes("with"):
            self.option()
            while words.takes(","):
                self.option()

    def order(self):
        self.is_ordered = True
        while True:
            key = self.either()
            self.text = self.text.order_by(key.desc() if self.words.takes("desc") else key)
            self.words.takes("asc")
            if not self.words.takes(","):
                return

    def option(self):
        """Takes an option. SQLAlchemy refuses one link that is loaded in two ways: the first one counts."""
        how = orm.joinedload if self.words.take() == "joined" else orm.selectinload
        _, link = self.path()
        if link not in self.along:
            self.along.append(link)
            self.text = self.text.options(how(getattr(self.top, link)))

    def path(self):
        owner = self.words.name()
        self.words.take()
        return owner, self.words.name()

    def target(self, owner, name):
        line = self.mapped.line_of(owner)
        return next(link.target for link in self.mapped.links if link.name == name and link.owner in line)

    def entity(self, name):
        return next(it for named, it in self.entities if named == name)

    # Expressions, from the loosest to the tightest

    def either(self):
        found = [self.both()]
        while self.words.takes("or"):
            found.append(self.both())
        return sa.or_(*found) if len(found) > 1 else found[0]

    def both(self):
        found = [self.negation()]
        while self.words.takes("and"):
            found.append(self.negation())
        return sa.and_(*found) if len(found) > 1 else found[0]

    def negation(self):
        return sa.not_(self.negation()) if self.words.takes("not") else self.comparison()

    def comparison(self):
        left, words = self.sum(), self.words
        word = words.peek()
        if word in ("==", "!=") and words.peek(1) == "null":
            words.take(), words.take()
            return left.is_(None) if word == "==" else left.is_not(None)
        if word == "is":
            words.take()
            same = words.takes("not")
            words.take(), words.take()
            right = self.sum()
            return left.is_not_distinct_from(right) if same else left.is_distinct_from(right)
        is_not = words.takes("not")
        word = words.peek()
        if word == "in":
            words.take()
            found = self.among(left)
        elif word == "between":
            words.take()
            low = self.sum()
            words.take()
            found = left.between(low, self.sum())
        elif word in COMPARED:
            words.take()
            found = COMPARED[word](left, self.sum())
        else:
            return left
        return sa.not_(found) if is_not else found

    def among(self, left):
        self.words.take()
        found = []
        while not self.words.takes(")"):
            found.append(literal(self.words.take()))
            self.words.takes(",")
        return left.in_(found) if found else sa.false()

    def sum(self):
        left, words = self.product(), self.words
        while True:
            word = words.peek()
            if word in ("+", "-", "||"):
                words.take()
                right = self.product()
                left = left + right if word == "+" else left - right if word == "-" else left.op("||")(right)
            elif word[:1] == "-" and word[1:].isdigit():
                words.words[words.at] = word[1:]
                left = left - self.product()
            else:
                return left

    def product(self):
        left = self.sign()
        while self.words.takes("*"):
            left = left * self.sign()
        return left

    def sign(self):
        return -self.sign() if self.words.takes("-") else self.atom()

    def atom(self):
        words = self.words
        if words.takes("("):
            found = self.either()
            words.take()
            return sa.type_coerce(found.self_group() if hasattr(found, "self_group") else found, found.type)
        if words.peek() == "exists" and words.peek(1) == "(":
            return self.there_is()
        if words.peek() in FUNCTIONS and words.peek(1) == "(":
            return self.call()
        if is_value(words.peek()):
            return literal(words.take())
        owner, name = self.path()
        return self.column(owner, name)

    def column(self, owner, name):
        for named, table in reversed(self.inner):
            if named == owner:
                return table.c[name]
        return getattr(self.entity(owner), name)

    def call(self):
        name = self.words.take()
        self.words.take()
        operands = [self.either()]
        while self.words.takes(","):
            operands.append(self.either())
        self.words.take()
        kind = sa.BigInteger() if name == "length" else operands[0].type
        return getattr(sa.func, name)(*operands, type_=kind)

    def there_is(self):
        self.words.take(), self.words.take()
        table = self.mapped.metadata.tables[self.words.name()]
        named = self.words.name() if self.words.takes("as") else table.name
        source = table.alias("inner_%d" % len(self.inner))
        self.words.take()
        self.inner.append((named, source))
        condition = self.either()
        self.inner.pop()
        self.words.take()
        return sa.select(sa.literal_column("1")).select_from(source).where(condition).correlate_except(source).exists()
