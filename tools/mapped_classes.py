"""The words of a script's lines, and the tables and classes that its blocks declare, as SQLAlchemy maps them."""

import re

import sqlalchemy as sa
from sqlalchemy import event, orm

TOKEN = re.compile(
    r"""\s*(x'[0-9A-Fa-f]*'|'(?:[^']|'')*'|"(?:[^"]|"")*"|[A-Za-z_]\w*|-?\d+|==|!=|<=|>=|\|\||.)""")
NULL = "null"
KINDS = {
    "integer": sa.BigInteger().with_variant(sa.Integer(), "sqlite"), "varchar": sa.String(), "text": sa.Text(),
    "boolean": sa.Boolean(), "bytes": sa.LargeBinary(),
}
RULES = {
    "positive": lambda value: value >= 1, "nonempty": lambda value: len(value) >= 1,
    "short": lambda value: len(value) <= 40, "has_at": lambda value: "@" in value,
}


class NotAsked(Exception):
    """The script has something that the two are not asked alike."""


class Refused(Exception):
    """A line that SQLAlchemy refuses, as the program writes refusals."""


def plain(word):
    """The name that a word says."""
    return word[1:-1].replace('""', '"') if word.startswith('"') else word


def value(word):
    """The value that a word says."""
    if word in (NULL, "true", "false"):
        return {NULL: None, "true": True, "false": False}[word]
    if word.startswith("x'"):
        return bytes.fromhex(word[2:-1])
    return word[1:-1].replace("''", "'") if word.startswith("'") else int(word)


def is_value(word):
    """Whether a word says a value."""
    return word in (NULL, "true", "false") or re.match(r"x?'|-?\d", word) is not None


def quoted(name):
    return '"%s"' % name.replace('"', '""')


class Words:
    """The words of a line, taken from the front."""

    def __init__(self, line):
        self.words = TOKEN.findall(line.strip())
        self.at = 0

    def more(self):
        return self.at < len(self.words)

    def peek(self, ahead=0):
        return self.words[self.at + ahead] if self.at + ahead < len(self.words) else ""

    def take(self):
        self.at += 1
        return self.words[self.at - 1]

    def name(self):
        return plain(self.take())

    def takes(self, word):
        if self.peek() != word:
            return False
        self.at += 1
        return True

    def names(self):
        """Names between parentheses, with commas between them."""
        self.take()
        found = [self.name()]
        while self.takes(","):
            found.append(self.name())
        self.take()
        return found

    def cascade(self):
        """The words of a cascade, some with dashes in them, with commas between them; `none` says none."""
        said = ""
        while self.more() and self.peek() != "post_update":
            said += self.take()
        return ", ".join(one for one in said.split(",") if one != "none")

    def rest(self):
        return self.words[self.at :]


# Declarations


class Link:
    """A relationship as a block declares it, or as a `backref` makes it."""

    def __init__(self, owner, words, many):
        self.owner, self.many = owner, many
        self.name, self.target = words.name(), words.name()
        self.secondary = words.name() if words.takes("secondary") else None
        self.is_backref = words.take() == "backref"
        self.partner = words.name()
        self.using, self.cascade, self.late = None, "save-update, merge", False
        while words.more():
            word = words.take()
            if word == "using":
                self.using = set(words.names())
            elif word == "cascade":
                self.cascade = words.cascade()
            else:
                self.late = True

    def other_side(self):
        """The relationship that a `backref` makes."""
        other = Link.__new__(Link)
        other.owner, other.target, other.name, other.partner = self.target, self.owner, self.partner, self.name
        other.many = not self.many or self.secondary is not None
        other.secondary, other.using, other.late = self.secondary, self.using, self.late
        other.is_backref, other.cascade = False, "save-update, merge"
        return other


class TableBlock:
    """A table as a block declares it."""

    def __init__(self, lines):
        self.name = plain(Words(lines[0]).peek(1))
        self.columns, self.keys, self.uniques, self.foreigns = [], [], [], []
        for line in lines[1:-1]:
            words = Words(line)
            first = words.take()
            if first == "unique":
                self.uniques.append(words.names())
            elif first == "foreign":
                words.take()
                own = words.names()
                words.take()
                self.foreigns.append((own, words.name()))
            else:
                flags = "".join(words.rest())
                if "primarykey" in flags:
                    self.keys.append(plain(first))
                self.columns.append((plain(first), words.take(), "primarykey" in flags or "notnull" in flags))

    def generated(self):
        """The column whose keys the store makes, or none."""
        if len(self.keys) != 1 or any(self.keys[0] in own for own, _ in self.foreigns):
            return None
        return self.keys[0] if (self.keys[0], "integer", True) in self.columns else None


class ClassBlock:
    """A class as a block declares it."""

    def __init__(self, lines):
        words = Words(lines[0])
        words.take()
        self.name = words.name()
        self.base = self.table = self.discriminator = self.identity = None
        self.owns, self.links, self.hooks = [], [], []
        while words.more():
            word = words.take()
            if word == "owns":
                self.owns = words.names()
            else:
                said = words.take()
                setattr(self, {"extends": "base"}.get(word, word), value(said) if word == "identity" else plain(said))
        for line in lines[1:-1]:
            words = Words(line)
            word = words.take()
            if word == "validate":
                attribute = words.name()
                words.take()
                self.hooks.append((attribute, words.name()))
            else:
                self.links.append(Link(self.name, words, word == "many"))


class Mapped:
    """The tables and classes of a script, mapped."""

    def __init__(self, tables, classes, makes_keys):
        self.metadata, self.registry = sa.MetaData(), orm.registry()
        self.tables = {one.name: one for one in tables}
        self.blocks = {one.name: one for one in classes}
        self.links = [link for one in classes for link in one.links]
        self.links += [link.other_side() for link in self.links if link.is_backref]
        self.classes, self.names_given, self.key_makers = {}, 0, []
        for one in tables:
            self.make_table(one, makes_keys)
        for one in classes:
            self.make_class(one)
        for link in self.links:
            self.mapper(link.owner).add_property(link.name, self.relation(link))
        self.registry.configure()
        for one in classes:
            self.listen(one.name)

    def mapper(self, name):
        return orm.class_mapper(self.classes[name], configure=False)

    def given_name(self, kind):
        self.names_given += 1
        return "%s_%d" % (kind, self.names_given)

    def make_table(self, block, makes_keys):
        own_key = block.generated()
        parts = []
        for name, kind, is_required in block.columns:
            options = {"nullable": not is_required, "autoincrement": name == own_key and not makes_keys}
            if name == own_key and makes_keys:
                maker = self.given_name("key")
                text = "select coalesce(max(%s), 0) + 1 from %s" % (quoted(name), quoted(block.name))
                self.key_makers.append(
                    "create function %s() returns bigint language plpgsql as 'begin return (%s); end'" % (maker, text))
                options["server_default"] = sa.text(maker + "()")
            parts.append(sa.Column(name, KINDS[kind], **options))
        parts.append(sa.PrimaryKeyConstraint(*block.keys, name=self.given_name("pk")))
        parts += [sa.UniqueConstraint(*own, name=self.given_name("uq")) for own in block.uniques]
        for own, target in block.foreigns:
            far = [path_of(target, key) for key in self.tables[target].keys]
            parts.append(sa.ForeignKeyConstraint(own, far, use_alter=True, name=self.given_name("fk")))
        sa.Table(block.name, self.metadata, *parts)

    def line_of(self, name):
        """The classes from the root down to a class."""
        base = self.blocks[name].base
        return (self.line_of(base) if base else []) + [name]

    def tables_of(self, name):
        return [self.blocks[one].table for one in self.line_of(name) if self.blocks[one].table]

    def owned_elsewhere(self, name):
        """The columns that other branches than that of a class own."""
        found = []
        for one in self.blocks.values():
            if one.name not in self.line_of(name) and self.line_of(one.name)[0] == self.line_of(name)[0]:
                found += [self.metadata.tables[self.tables_of(one.name)[-1]].c[column] for column in one.owns]
        return found

    def make_class(self, block):
        made = type(block.name, (self.classes[block.base] if block.base else object,), {"__init__": set_cells})
        self.classes[block.name] = made
        options = {"exclude_properties": self.owned_elsewhere(block.name)}
        table = self.metadata.tables[block.table] if block.table else None
        if block.base:
            options["inherits"] = self.classes[block.base]
            if block.table:
                above = self.metadata.tables[self.tables_of(block.base)[-1]]
                options["inherit_condition"] = joined(table.primary_key.columns, above.primary_key.columns)
        if block.discriminator:
            options["polymorphic_on"] = table.c[block.discriminator]
        if block.identity is not None:
            options["polymorphic_identity"] = block.identity
        self.registry.map_imperatively(made, table, **options)

    def listen(self, name):
        """Has the validators of a class and of those above it asked, of the discriminator none: no line sets it."""
        line = self.line_of(name)
        hooks = [hook for one in line for hook in self.blocks[one].hooks]
        for attribute in {hook[0] for hook in hooks} - {self.blocks[line[0]].discriminator}:
            rules = [rule for about, rule in hooks if about == attribute]

            def check(this, given, _, __, about="%s.%s" % (name, attribute), rules=rules):
                for rule in rules:
                    if given is not None and not RULES[rule](given):
                        raise Refused("ValidationError(%s, %s)" % (about, rule))

            event.listen(getattr(self.classes[name], attribute), "set", check)

    def relation(self, link):
        partner = next((one for one in self.links if (one.owner, one.name) == (link.target, link.partner)), link)
        options = {"back_populates": link.partner, "cascade": link.cascade, "post_update": link.late or partner.late}
        if link.secondary:
            return orm.relationship(self.classes[link.target], **options, **self.pairs(link))
        many, one = (link.target, link.owner) if link.many else (link.owner, link.target)
        table, own, target = self.foreign_of(many, one, link.using or partner.using)
        near = [self.metadata.tables[table].c[name] for name in own]
        far = list(self.metadata.tables[target].primary_key.columns)
        options["primaryjoin"] = joined(near, far)
        options["foreign_keys"], options["remote_side"] = near, near if link.many else far
        return orm.relationship(self.classes[link.target], uselist=link.many, **options)

    def foreign_of(self, many, one, using):
        """The foreign key behind a pair: its table, its columns and its target."""
        found = []
        elsewhere = {(column.table.name, column.name) for column in self.owned_elsewhere(many)}
        for table in self.tables_of(many):
            for own, target in self.tables[table].foreigns:
                is_join = own == self.tables[table].keys and target in self.tables_of(many) and target != table
                is_asked = using is None or set(own) == using
                if target in self.tables_of(one) and not is_join and is_asked:
                    if not any((table, name) in elsewhere for name in own):
                        found.append((table, own, target))
        if len(found) != 1:
            raise NotAsked("which foreign key")
        return found[0]

    def pairs(self, link):
        """How a secondary table stands between the two sides."""
        table = self.metadata.tables[link.secondary]
        sides = [([table.c[name] for name in own], target) for own, target in self.tables[link.secondary].foreigns]
        fit = [(a, b) for a, b in (sides, sides[::-1])
               if a[1] in self.tables_of(link.owner) and b[1] in self.tables_of(link.target)]
        if len(fit) != 1:
            raise NotAsked("which side")
        (near, owner), (far, target) = fit[0]
        of = lambda name: self.metadata.tables[name].primary_key.columns
        return {"secondary": table, "primaryjoin": joined(near, of(owner)), "secondaryjoin": joined(far, of(target))}


def path_of(table, column):
    """A column as SQLAlchemy's foreign keys name it. A dot in a name cannot be said so."""
    if "." in table + column:
        raise NotAsked("a dot in a name")
    return "%s.%s" % (table, column)


def joined(near, far):
    """The condition that columns are equal, one by one."""
    return sa.and_(*[mine == theirs for mine, theirs in zip(near, far)])


def set_cells(this, **cells):
    """How an object is made: its cells in the order in which they are written."""
    for name, given in cells.items():
        setattr(this, name, given)
