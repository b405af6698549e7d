"""Reads the rows of an Apache Parquet file for a table, or says why it can't.

The footer and the headers of pages are read as structs of the Thrift compact protocol, the rest by
the Apache Parquet format. Of the format this is a part: files without compression, data pages of
version 1, PLAIN values, and no repeated columns. What else a file has is refused. The tests are
made in a fixed order, so that a file with several faults has one answer.

Schemas and rows are those of `parquet_writer.py`.
"""

from collections.abc import Iterator
from typing import Any, NamedTuple
import struct

from parquet_writer import BOOLEAN, BYTE_ARRAY, DATA_PAGE, INT32, MAGIC, OPTIONAL
from parquet_writer import PHYSICAL_TYPES, PLAIN, REQUIRED, RLE, UNCOMPRESSED

LARGEST_FILE = 64 << 20
MOST_ROWS = 4_194_304
LARGEST_TEXT = 1 << 20
DEEPEST_TREE = 16
DEEPEST_STRUCT = 32
MOST_NODES = 262_144
DICTIONARY_PAGE = 2

# Thrift compact protocol: the numbers of the types.
TRUE, FALSE, BYTE, I16, I32, I64, DOUBLE, BINARY, LIST, SET, MAP, STRUCT = range(1, 13)
WHOLE_BITS = {I16: 16, I32: 32, I64: 64}

# The bits beside the sign of the columns that hold less than their physical type.
NARROW_BITS = {"byte": 7, "short": 15}


class ReadFault(Exception):
    """Why bytes are no file of a table, with its code, its name and its numbers."""


class ThriftMap(NamedTuple):
    """A map; no field that is looked at is one."""

    entries: list[tuple[Any, Any]]


class Cursor:
    """Bytes, and a place among them."""

    def __init__(self, content: bytes, place: int = 0) -> None:
        self.content = content
        self.place = place

    def left(self) -> int:
        """How many bytes are left."""
        return len(self.content) - self.place

    def take(self, count: int) -> bytes:
        """The next bytes."""
        if count > self.left():
            raise ReadFault("B1 Short")
        self.place += count
        return self.content[self.place - count : self.place]

    def byte(self) -> int:
        """The next byte."""
        return self.take(1)[0]

    def u32(self) -> int:
        """The next four bytes as a number, the low byte first."""
        return int.from_bytes(self.take(4), "little")

    def varint(self) -> int:
        """A varint of up to ten bytes that fits 64 bits."""
        number = 0
        for place in range(10):
            byte = self.byte()
            number |= (byte & 0x7F) << 7 * place
            if byte < 0x80:
                if number >= 1 << 64:
                    raise ReadFault("B3 OutOfRange")
                return number
        raise ReadFault("B2 VarintTooLong")

    def zigzag(self, bits: int) -> int:
        """A zigzag varint that fits so many bits."""
        number = self.varint()
        return within((number >> 1) ^ -(number & 1), bits)


def within(number: int, bits: int) -> int:
    """A number that fits so many bits, the sign among them."""
    if not -(1 << bits - 1) <= number < 1 << bits - 1:
        raise ReadFault("B3 OutOfRange")
    return number


class ThriftReader:
    """Reads the values of the Thrift compact protocol.

    Whole numbers are int, truth values bool, binaries bytes, lists and sets list, structs a dict
    from ids to values, of which the last of an id counts. A double is None.
    """

    def __init__(self, cursor: Cursor) -> None:
        self.cursor = cursor
        self.nodes = 0

    def outermost(self) -> dict[int, Any]:
        """The struct in front."""
        return self.value(STRUCT, 0, False)

    def kind(self, number: int) -> int:
        """The number of a type."""
        if not TRUE <= number <= STRUCT:
            raise ReadFault("TH1 BadType")
        return number

    def value(self, kind: int, depth: int, is_member: bool) -> Any:
        """The value in front. Truth values are their own bytes only in lists, sets and maps."""
        self.nodes += 1
        if self.nodes > MOST_NODES:
            raise ReadFault("TH3 TooMany")
        if kind in (TRUE, FALSE):
            return self.member_truth() if is_member else kind == TRUE
        if kind == BYTE:
            return int.from_bytes(self.cursor.take(1), signed=True)
        if kind in WHOLE_BITS:
            return self.cursor.zigzag(WHOLE_BITS[kind])
        if kind == DOUBLE:
            self.cursor.take(8)
            return None
        if kind == BINARY:
            return self.cursor.take(self.cursor.varint())
        if depth == DEEPEST_STRUCT:
            raise ReadFault("TH2 TooDeep")
        if kind == STRUCT:
            return self.fields(depth + 1)
        if kind == MAP:
            return self.entries(depth + 1)
        return self.members(depth + 1)

    def member_truth(self) -> bool:
        """A truth value in a list, set or map."""
        byte = self.cursor.byte()
        if byte > 2:
            raise ReadFault("TH1 BadType")
        return byte == 1

    def members(self, depth: int) -> list[Any]:
        """The members of a list or set."""
        header = self.cursor.byte()
        kind = self.kind(header & 0x0F)
        count = header >> 4
        if count == 15:
            count = self.cursor.varint()
        if count > self.cursor.left():
            raise ReadFault("B1 Short")
        return [self.value(kind, depth, True) for _ in range(count)]

    def entries(self, depth: int) -> ThriftMap:
        """The entries of a map; an empty one has no types."""
        count = self.cursor.varint()
        if count == 0:
            return ThriftMap([])
        if count > self.cursor.left():
            raise ReadFault("B1 Short")
        header = self.cursor.byte()
        key_kind, value_kind = self.kind(header >> 4), self.kind(header & 0x0F)
        entries = []
        for _ in range(count):
            key = self.value(key_kind, depth, True)
            entries.append((key, self.value(value_kind, depth, True)))
        return ThriftMap(entries)

    def fields(self, depth: int) -> dict[int, Any]:
        """The fields of a struct."""
        fields = {}
        field_id = 0
        while True:
            header = self.cursor.byte()
            if header == 0:
                return fields
            kind = self.kind(header & 0x0F)
            rise = header >> 4
            field_id = within(field_id + rise, 16) if rise else self.cursor.zigzag(16)
            fields[field_id] = self.value(kind, depth, False)


def needed(fields: dict[int, Any], field_id: int, kind: type) -> Any:
    """A field of a struct that has to be there, of a kind."""
    value = fields.get(field_id)
    if type(value) is not kind:
        raise ReadFault(f"TH4 MissingField {field_id}")
    return value


def needed_list(fields: dict[int, Any], field_id: int, kind: type) -> list[Any]:
    """A list of members of a kind that has to be there."""
    members = needed(fields, field_id, list)
    if any(type(member) is not kind for member in members):
        raise ReadFault(f"TH4 MissingField {field_id}")
    return members


def needed_count(fields: dict[int, Any], field_id: int) -> int:
    """A number from 0 on that has to be there."""
    return natural(needed(fields, field_id, int))


def natural(number: int) -> int:
    """A number that isn't negative."""
    if number < 0:
        raise ReadFault("B3 OutOfRange")
    return number


class SchemaElement(NamedTuple):
    """A node of a file's schema; a leaf has no children."""

    physical: int | None
    repetition: int | None
    name: bytes
    children: int


class ColumnChunk(NamedTuple):
    """What a footer says of the pages of a column."""

    path: list[bytes]
    codec: int
    values: int
    offset: int


class RowGroup(NamedTuple):
    """What a footer says of a group of rows."""

    columns: list[ColumnChunk]
    rows: int


class Footer(NamedTuple):
    """What a footer says: Parquet's FileMetaData."""

    elements: list[SchemaElement]
    rows: int
    groups: list[RowGroup]


def footer_of(fields: dict[int, Any]) -> Footer:
    """The footer that a struct is. Needed fields are looked at in order, each with its inside."""
    elements = []
    for element in needed_list(fields, 2, dict):
        elements.append(element_of(element) if elements else root_of(element))
    rows = needed_count(fields, 3)
    groups = []
    for group in needed_list(fields, 4, dict):
        columns = [column_of(column) for column in needed_list(group, 1, dict)]
        groups.append(RowGroup(columns, needed_count(group, 3)))
    return Footer(elements, rows, groups)


def root_of(fields: dict[int, Any]) -> SchemaElement:
    """The root of a file's schema."""
    return SchemaElement(None, None, needed(fields, 4, bytes), needed_count(fields, 5))


def element_of(fields: dict[int, Any]) -> SchemaElement:
    """Another node of a file's schema, which needs a physical type where it is a leaf."""
    children = fields.get(5)
    if type(children) is not int:
        children = 0
    physical = fields.get(1) if children else needed(fields, 1, int)
    repetition = needed(fields, 3, int)
    return SchemaElement(physical, repetition, needed(fields, 4, bytes), natural(children))


def column_of(fields: dict[int, Any]) -> ColumnChunk:
    """A column chunk."""
    meta_data = needed(fields, 3, dict)
    path = needed_list(meta_data, 3, bytes)
    codec = needed(meta_data, 4, int)
    values = needed_count(meta_data, 5)
    return ColumnChunk(path, codec, values, needed(meta_data, 9, int))


class FileNode(NamedTuple):
    """A node of a file's tree: inside is the physical type of a leaf, or the nodes of a group."""

    name: bytes
    is_optional: bool
    inside: Any


class TreeReader:
    """Reads the tree that a file's schema lists depth first."""

    def __init__(self, elements: list[SchemaElement]) -> None:
        self.rest = iter(elements)

    def tree(self) -> list[FileNode]:
        """The nodes below the root. No element is left behind them."""
        root = next(self.rest, None)
        if root is None:
            raise ReadFault("P8 SchemaMismatch")
        nodes = self.nodes(root.children, DEEPEST_TREE)
        if next(self.rest, None) is not None:
            raise ReadFault("P8 SchemaMismatch")
        return nodes

    def nodes(self, count: int, levels: int) -> list[FileNode]:
        """So many nodes, of so many levels at most."""
        nodes = []
        for _ in range(count):
            element = next(self.rest, None)
            if element is None or levels == 0:
                raise ReadFault("P8 SchemaMismatch")
            if element.repetition not in (REQUIRED, OPTIONAL):
                raise ReadFault("P8 SchemaMismatch")
            inside: Any = element.physical
            if element.children:
                inside = self.nodes(element.children, levels - 1)
            nodes.append(FileNode(element.name, element.repetition == OPTIONAL, inside))
        return nodes


class Column(NamedTuple):
    """A table's field as a file has it: inside are the columns of a struct, or None."""

    name: str
    type: Any
    nullable: bool
    is_optional: bool
    inside: Any


def fitted(fields: list[dict[str, Any]], nodes: Any) -> list[Column]:
    """A table's fields as a file's nodes have them: the same names in any order, and no other."""
    if not isinstance(nodes, list) or len(fields) != len(nodes):
        raise ReadFault("P8 SchemaMismatch")
    by_name = {node.name: node for node in nodes}
    columns = []
    for field in fields:
        node = by_name.get(field["name"].encode())
        field_type = field["type"]
        if node is None or len(by_name) != len(nodes):
            raise ReadFault("P8 SchemaMismatch")
        inside = None
        if isinstance(field_type, dict) and field_type["type"] == "struct":
            inside = fitted(field_type["fields"], node.inside)
        elif isinstance(field_type, dict) or field_type not in PHYSICAL_TYPES:
            raise ReadFault("P8 SchemaMismatch")
        elif PHYSICAL_TYPES[field_type] != node.inside:
            raise ReadFault("P8 SchemaMismatch")
        columns.append(
            Column(field["name"], field_type, field["nullable"], node.is_optional, inside)
        )
    return columns


class FileLeaf(NamedTuple):
    """A column of values.

    The flags tell of each node on the way that is OPTIONAL in the file whether the table's may be
    null.
    """

    path: tuple[str, ...]
    type: str
    flags: tuple[bool, ...]


def file_leaves(
    columns: list[Column], path: tuple[str, ...] = (), flags: tuple[bool, ...] = ()
) -> Iterator[FileLeaf]:
    """The columns of values, depth first."""
    for column in columns:
        leaf_path = (*path, column.name)
        leaf_flags = (*flags, column.nullable) if column.is_optional else flags
        if column.inside is None:
            yield FileLeaf(leaf_path, column.type, leaf_flags)
        else:
            yield from file_leaves(column.inside, leaf_path, leaf_flags)


# Levels as runs: a level, and how often it stands there.
Runs = list[tuple[int, int]]


def hybrid_runs(content: bytes, width: int, count: int) -> Runs:
    """The first values of an RLE/bit-packing hybrid, as runs."""
    cursor = Cursor(content)
    runs: Runs = []
    while count > 0:
        header = cursor.varint()
        size = header >> 1
        if size == 0:
            raise ReadFault("B4 BadRun")
        if header & 1:
            bits = int.from_bytes(cursor.take(size * width), "little")
            taken = min(8 * size, count)
            runs += [(bits >> place * width & (1 << width) - 1, 1) for place in range(taken)]
        else:
            value = int.from_bytes(cursor.take((width + 7) // 8), "little")
            taken = min(size, count)
            runs.append((value, taken))
        count -= taken
    return runs


def read_levels(body: Cursor, highest: int, count: int) -> Runs:
    """The definition levels of a page; without an OPTIONAL node all are 0 and have no bytes."""
    if highest == 0:
        return [(0, count)]
    runs = hybrid_runs(body.take(body.u32()), highest.bit_length(), count)
    if any(level > highest for level, _ in runs):
        raise ReadFault("B3 OutOfRange")
    return runs


def read_values(body: Cursor, leaf_type: str, count: int) -> list[Any]:
    """So many PLAIN values; texts are bytes still."""
    physical = PHYSICAL_TYPES[leaf_type]
    if physical == BOOLEAN:
        content = body.take((count + 7) // 8)
        return [bool(content[place // 8] >> place % 8 & 1) for place in range(count)]
    if physical == BYTE_ARRAY:
        return [body.take(body.u32()) for _ in range(count)]
    size, letter = (4, "i") if physical == INT32 else (8, "q")
    return list(struct.unpack(f"<{count}{letter}", body.take(size * count)))


class PageHeader(NamedTuple):
    """What a page's header says; the last three are those of a data page."""

    type: int
    uncompressed: int
    compressed: int
    values: int
    encoding: int
    level_encoding: int


def page_header(fields: dict[int, Any], has_levels: bool) -> PageHeader:
    """The page header that a struct is."""
    page_type = needed(fields, 1, int)
    sizes = needed_count(fields, 2), needed_count(fields, 3)
    values, encoding, level_encoding = 0, PLAIN, RLE
    if page_type == DATA_PAGE:
        inside = needed(fields, 5, dict)
        values, encoding = needed_count(inside, 1), needed(inside, 2, int)
        if has_levels:
            level_encoding = needed(inside, 3, int)
    elif page_type == DICTIONARY_PAGE:
        inside = needed(fields, 7, dict)
        values, encoding = needed_count(inside, 1), needed(inside, 2, int)
    return PageHeader(page_type, *sizes, values, encoding, level_encoding)


class ChunkReader:
    """Reads the pages of a column chunk, out of the bytes before the footer."""

    def __init__(self, content: bytes, leaf: FileLeaf, chunk: ColumnChunk) -> None:
        self.cursor = Cursor(content, chunk.offset)
        self.leaf = leaf
        self.highest = len(leaf.flags)
        self.left = chunk.values
        self.runs: Runs = []
        self.values: list[Any] = []

    def read(self) -> None:
        """Reads pages until the chunk's values are there."""
        while self.left > 0:
            runs, values = self.body(self.header())
            self.runs += runs
            self.values += values

    def header(self) -> PageHeader:
        """The header of the page at the cursor's place."""
        if not len(MAGIC) <= self.cursor.place < len(self.cursor.content):
            raise ReadFault("P6 BadOffset")
        try:
            fields = ThriftReader(self.cursor).outermost()
            return page_header(fields, self.highest > 0)
        except ReadFault as fault:
            raise ReadFault(f"P11 BadPage {fault}") from fault

    def body(self, header: PageHeader) -> tuple[Runs, list[Any]]:
        """What the page behind a header holds: its levels and its values."""
        self.test_header(header)
        body = Cursor(self.cursor.take(header.compressed))
        try:
            runs = read_levels(body, self.highest, header.values)
            present = sum(count for level, count in runs if level == self.highest)
            values = read_values(body, self.leaf.type, present)
        except ReadFault as fault:
            raise ReadFault(f"P11 BadPage {fault}") from fault
        self.test_content(header, body, runs, values)
        self.left -= header.values
        return runs, values

    def test_header(self, header: PageHeader) -> None:
        """Tests what a page's header says."""
        if header.type != DATA_PAGE:
            raise ReadFault(f"P5 PageKind {header.type}")
        if header.compressed > self.cursor.left():
            raise ReadFault("P6 BadOffset")
        if header.uncompressed != header.compressed:
            raise ReadFault("P7 CountMismatch")
        if header.encoding != PLAIN:
            raise ReadFault(f"P4 Encoding {header.encoding}")
        if self.highest > 0 and header.level_encoding != RLE:
            raise ReadFault(f"P4 Encoding {header.level_encoding}")

    def test_content(
        self, header: PageHeader, body: Cursor, runs: Runs, values: list[Any]
    ) -> None:
        """Tests what a page holds."""
        if any(isinstance(value, bytes) and len(value) > LARGEST_TEXT for value in values):
            raise ReadFault("P9 TooLarge")
        if body.left() > 0 or header.values > self.left:
            raise ReadFault("P7 CountMismatch")
        if self.leaf.type == "string":
            try:
                values[:] = [value.decode() for value in values]
            except UnicodeDecodeError as error:
                raise ReadFault("P10 NotUtf8") from error
        if any(level < self.highest and not self.leaf.flags[level] for level, _ in runs):
            raise ReadFault("P8 SchemaMismatch")
        if self.leaf.type in NARROW_BITS:
            bound = 1 << NARROW_BITS[self.leaf.type]
            if any(not -bound <= value < bound for value in values):
                raise ReadFault("P8 SchemaMismatch")

    def cells(self) -> Iterator[tuple[int, Any]]:
        """The level of each row, and its value, which is None below the highest level."""
        values = iter(self.values)
        for level, count in self.runs:
            for _ in range(count):
                yield level, next(values) if level == self.highest else None


# What a row is in the columns of values below a node: the level and the value for each path.
Cells = dict[tuple[str, ...], tuple[int, Any]]


def assembled(columns: list[Column], cells: Cells, depth: int, level: int) -> dict[str, Any]:
    """The struct that a row's cells are, below a node of a depth and a definition level."""
    row = {}
    for column in columns:
        mine = {path: cell for path, cell in cells.items() if path[depth] == column.name}
        nulls = {column.is_optional and cell_level == level for cell_level, _ in mine.values()}
        if len(nulls) > 1:
            raise ReadFault("P8 SchemaMismatch")
        if nulls == {True}:
            row[column.name] = None
        elif column.inside is None:
            [(_, row[column.name])] = mine.values()
        else:
            level_inside = level + column.is_optional
            row[column.name] = assembled(column.inside, mine, depth + 1, level_inside)
    return row


def chunk_of(group: RowGroup, leaf: FileLeaf) -> ColumnChunk:
    """The first chunk of a group that has a leaf's path."""
    path = [name.encode() for name in leaf.path]
    for chunk in group.columns:
        if chunk.path == path:
            return chunk
    raise ReadFault("P8 SchemaMismatch")


def test_codec(chunk: ColumnChunk) -> None:
    """Refuses a chunk that is compressed."""
    if chunk.codec != UNCOMPRESSED:
        raise ReadFault(f"P3 Codec {chunk.codec}")


def group_rows(content: bytes, columns: list[Column], group: RowGroup) -> list[dict[str, Any]]:
    """The rows of a group."""
    readers = []
    is_uneven = False
    for leaf in file_leaves(columns):
        chunk = chunk_of(group, leaf)
        test_codec(chunk)
        reader = ChunkReader(content, leaf, chunk)
        reader.read()
        readers.append(reader)
        is_uneven = is_uneven or chunk.values != group.rows
    if is_uneven:
        raise ReadFault("P7 CountMismatch")
    paths = [reader.leaf.path for reader in readers]
    cells_of_rows = zip(*(reader.cells() for reader in readers))
    return [assembled(columns, dict(zip(paths, cells)), 0, 0) for cells in cells_of_rows]


def split_file(content: bytes) -> tuple[bytes, Footer]:
    """The bytes before a file's footer, and what the footer says."""
    if len(content) > LARGEST_FILE:
        raise ReadFault("P9 TooLarge")
    is_framed = content.startswith(MAGIC) and content.endswith(MAGIC)
    if len(content) < 12 or not is_framed:
        raise ReadFault("P1 BadMagic")
    footer_size = int.from_bytes(content[-8:-4], "little")
    if footer_size > len(content) - 12:
        raise ReadFault("P2 BadFooter B1 Short")
    footer_start = len(content) - 8 - footer_size
    try:
        footer = footer_of(ThriftReader(Cursor(content[footer_start:-8])).outermost())
    except ReadFault as fault:
        raise ReadFault(f"P2 BadFooter {fault}") from fault
    if max([footer.rows, *(group.rows for group in footer.groups)]) > MOST_ROWS:
        raise ReadFault("P9 TooLarge")
    return content[:footer_start], footer


def columns_in(schema: dict[str, Any], footer: Footer) -> list[Column]:
    """A table's columns as a file has them."""
    return fitted(schema["fields"], TreeReader(footer.elements).tree())


def read_file(schema: dict[str, Any], content: bytes) -> list[dict[str, Any]]:
    """The rows of a table's file."""
    front, footer = split_file(content)
    columns = columns_in(schema, footer)
    rows = []
    for group in footer.groups:
        rows += group_rows(front, columns, group)
    if len(rows) != footer.rows:
        raise ReadFault("P7 CountMismatch")
    return rows
