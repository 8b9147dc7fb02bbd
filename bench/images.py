"""What bench/images.sh knows of images, apart from the program: bytes from a content and back, and which contents a program may
have. A content is a list of managers and a list of objects; an object is a class, a region (None: frozen) and its fields; a field is
None, a number, a truth value, or At(k), a reference to object k."""
import dataclasses
import re

MOST_ELEMENTS = 65_535
MANAGERS = 3


@dataclasses.dataclass(frozen=True)
class At:
    object: int


class NoImage(Exception):
    pass


# ---- Bytes


def eight(number):
    return number.to_bytes(8, "big")


def counted(parts):
    return eight(len(parts)) + b"".join(parts)


def field_bytes(field):
    match field:
        case None: return b"\0"
        case bool(): return b"\2" + bytes([field])
        case int(): return b"\1" + field.to_bytes(8, "big", signed=True)
        case At(): return b"\3" + eight(field.object)


def object_bytes(it):
    number, region, fields = it
    label = b"\1" if region is None else b"\0" + eight(region)
    return number.to_bytes(4, "big") + label + counted([field_bytes(field) for field in fields])


def image(content):
    """The bytes of a content, or of None."""
    if content is None:
        return b"RGI1\0"
    managers, objects = content
    return b"RGI1\1" + counted([bytes([it]) for it in managers]) + counted([object_bytes(it) for it in objects])


class Bytes:
    def __init__(self, data):
        self.data, self.at = data, 0

    def take(self, count):
        if count > len(self.data) - self.at:
            raise NoImage("cut")
        self.at += count
        return self.data[self.at - count:self.at]

    def number(self, count, most=None, signed=False):
        number = int.from_bytes(self.take(count), "big", signed=signed)
        if most is not None and number > most:
            raise NoImage("number")
        return number

    def many(self, part):
        count = self.number(8)
        if count > len(self.data) - self.at:
            raise NoImage("count")
        return [part() for _ in range(count)]

    def field(self):
        match self.number(1, 3):
            case 0: return None
            case 1: return self.number(8, signed=True)
            case 2: return bool(self.number(1, 1))
            case _: return At(self.number(8))

    def object(self):
        number = self.number(4)
        region = None if self.number(1, 1) else self.number(8)
        return number, region, self.many(self.field)

    def content(self):
        if self.take(4) != b"RGI1":
            raise NoImage("head")
        content = None
        if self.number(1, 1):
            content = self.many(lambda: self.number(1, MANAGERS - 1)), self.many(self.object)
        if self.at < len(self.data):
            raise NoImage("more bytes")
        return content


# ---- Contents of a closed region


def in_order(numbers):
    """Whether each number that is named first is the next one; how many there are."""
    given = 0
    for number in numbers:
        if number > given:
            return None
        given = max(given, number + 1)
    return given


def test_sound(managers, objects):
    """Numbers by first mention; no way out of what is frozen; one owner for each region but the first, and none for that."""
    if not objects or objects[0][1] != 0:
        raise NoImage("object 0")
    named = 1
    for k, (_, _, fields) in enumerate(objects):
        if k >= named:
            raise NoImage("not named")
        for field in fields:
            if isinstance(field, At):
                if field.object > named:
                    raise NoImage("order")
                named = max(named, field.object + 1)
    if named != len(objects):
        raise NoImage("no object")
    if in_order([region for _, region, _ in objects if region is not None]) != len(managers):
        raise NoImage("regions")
    owners = [0] * len(managers)
    for _, region, fields in objects:
        for field in fields:
            if isinstance(field, At):
                to = objects[field.object][1]
                if region is None and to is not None:
                    raise NoImage("frozen")
                if region is not None and to is not None and to != region:
                    owners[to] += 1
    if owners != [0] + [1] * (len(managers) - 1):
        raise NoImage("owners")


# ---- Programs


class Classes:
    """The classes of a source whose lines are `class C { f: T; .. }`, `tmp class C { .. }` and `class C [T];` alone."""

    def __init__(self, source):
        found = re.findall(r"(tmp )?class (\w+) (?:\[([^\]]*)\];|\{([^{}]*))", source)
        self.names = [name for _, name, _, _ in found]
        self.rows = []
        for tmp, _, element, fields in found:
            types = [self.type(it) for it in re.findall(r"\w+: ([^;()]*);", fields)]
            self.rows.append((bool(tmp), self.type(element) if element else None, types))

    def type(self, text):
        words = text.split()
        return words[0] if len(words) == 1 else (words[0], self.names.index(words[1]))

    def fits(self, objects, region, kind, field):
        if kind == "int":
            return type(field) is int
        if kind == "bool":
            return type(field) is bool
        if field is None:
            return True
        if not isinstance(field, At):
            return False
        cap, number = kind
        of, to, _ = objects[field.object]
        if of != number:
            return False
        if region is None:
            return to is None
        match cap:
            case "mut": return to == region
            case "imm": return to is None
            case "iso": return to is not None and to != region
            case _: return False

    def test(self, objects):
        for number, region, fields in objects:
            if number >= len(self.rows):
                raise NoImage("class")
            tmp, element, types = self.rows[number]
            if tmp:
                raise NoImage("tmp class")
            if element is not None:
                if len(fields) > MOST_ELEMENTS:
                    raise NoImage("elements")
                types = [element] * len(fields)
            if len(types) != len(fields) or not all(map(lambda kind, field: self.fits(objects, region, kind, field), types, fields)):
                raise NoImage("fields")


def loaded(data, classes, name):
    """The content of bytes that `load NAME ..` takes, or why it doesn't."""
    content = Bytes(data).content()
    if content is None:
        raise NoImage("nothing")
    test_sound(*content)
    classes.test(content[1])
    if content[1][0][0] != classes.names.index(name):
        raise NoImage("bridge")
    return content
