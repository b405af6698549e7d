"""Writes the Apache Parquet file of a table's rows.

The footer and the headers of pages are structs of the Thrift compact protocol. The rest is that of
the Apache Parquet format: data pages of version 1, PLAIN values, definition levels as runs of the
RLE/bit-packing hybrid, and no compression. The format leaves a writer some choices; those of this
project are a single row group, pages of 4,096 rows, maximal runs and the name `lake version 1`.

A schema is the JSON object of Delta's PROTOCOL.md ("Schema Serialization Format") with each of its
defaults filled in. A row is a dict from the names of a struct's fields to their values: None, bool,
int, str, bytes, or the dict of a struct.
"""

from collections.abc import Iterator
from itertools import groupby
from typing import Any, NamedTuple
import struct

MAGIC = b"PAR1"
CREATED_BY = b"lake version 1"
PAGE_ROWS = 4096

# Apache Parquet: the types of values, and the enums that are written.
BOOLEAN, INT32, INT64, BYTE_ARRAY = 0, 1, 2, 6
REQUIRED, OPTIONAL = 0, 1
PLAIN, RLE = 0, 3
DATA_PAGE = 0
UNCOMPRESSED = 0

# The physical type of each Delta type that rows can have, and its converted type where it has one.
PHYSICAL_TYPES = {
    "boolean": BOOLEAN,
    "byte": INT32,
    "short": INT32,
    "integer": INT32,
    "long": INT64,
    "date": INT32,
    "string": BYTE_ARRAY,
    "binary": BYTE_ARRAY,
}
CONVERTED_TYPES = {"string": 0, "date": 6, "byte": 15, "short": 16}

# Thrift compact protocol: the numbers of the types that are written.
THRIFT_I32, THRIFT_I64, THRIFT_BINARY, THRIFT_LIST, THRIFT_STRUCT = 5, 6, 8, 9, 12


class ThriftField(NamedTuple):
    """A field of a Thrift struct: its id, its type's number, and its value as it is spelled."""

    id: int
    kind: int
    spelled: bytes


class Leaf(NamedTuple):
    """A column: the names on its path, its Delta type, and which nodes of the path are nullable."""

    path: tuple[str, ...]
    type: str
    nullable: tuple[bool, ...]

    @property
    def highest_level(self) -> int:
        """The definition level of a value that isn't null."""
        return sum(self.nullable)


def varint(number: int) -> bytes:
    """Spells a number from 0 on as a varint: seven bits a byte, the low ones first."""
    spelled = bytearray()
    while number > 0x7F:
        spelled.append(number & 0x7F | 0x80)
        number >>= 7
    spelled.append(number)
    return bytes(spelled)


def zigzag(number: int) -> bytes:
    """Spells a signed number as a zigzag varint."""
    return varint(2 * number if number >= 0 else -2 * number - 1)


def i32_field(field_id: int, number: int) -> ThriftField:
    """A field of Thrift's type i32."""
    return ThriftField(field_id, THRIFT_I32, zigzag(number))


def i64_field(field_id: int, number: int) -> ThriftField:
    """A field of Thrift's type i64."""
    return ThriftField(field_id, THRIFT_I64, zigzag(number))


def binary_field(field_id: int, content: bytes) -> ThriftField:
    """A field of Thrift's type binary."""
    return ThriftField(field_id, THRIFT_BINARY, thrift_binary(content))


def list_field(field_id: int, member_kind: int, members: list[bytes]) -> ThriftField:
    """A field that is a list of members of one type, each as it is spelled."""
    if len(members) < 15:
        header = bytes([len(members) << 4 | member_kind])
    else:
        header = bytes([0xF0 | member_kind]) + varint(len(members))
    return ThriftField(field_id, THRIFT_LIST, header + b"".join(members))


def struct_field(field_id: int, content: bytes) -> ThriftField:
    """A field that is a struct, as it is spelled."""
    return ThriftField(field_id, THRIFT_STRUCT, content)


def thrift_binary(content: bytes) -> bytes:
    """Spells a binary: its length and its bytes."""
    return varint(len(content)) + content


def thrift_struct(*fields: ThriftField) -> bytes:
    """Spells a struct of fields whose ids rise by 15 at most."""
    spelled = bytearray()
    last_id = 0
    for field in fields:
        spelled.append((field.id - last_id) << 4 | field.kind)
        spelled += field.spelled
        last_id = field.id
    return bytes(spelled) + b"\0"


def leaves(
    fields: list[dict[str, Any]],
    path: tuple[str, ...] = (),
    nullable: tuple[bool, ...] = (),
) -> Iterator[Leaf]:
    """The columns of a schema's fields, depth first."""
    for field in fields:
        field_path = (*path, field["name"])
        field_nullable = (*nullable, field["nullable"])
        if isinstance(field["type"], dict):
            yield from leaves(field["type"]["fields"], field_path, field_nullable)
        else:
            yield Leaf(field_path, field["type"], field_nullable)


def level_and_value(leaf: Leaf, row: dict[str, Any]) -> tuple[int, Any]:
    """The definition level of a row in a column, and its value there, which may be None."""
    level = 0
    value: Any = row
    for name, is_nullable in zip(leaf.path, leaf.nullable):
        value = value[name]
        if value is None:
            break
        level += is_nullable
    return level, value


def plain_values(leaf_type: str, values: list[Any]) -> bytes:
    """Spells values by the PLAIN encoding."""
    physical = PHYSICAL_TYPES[leaf_type]
    if physical == BOOLEAN:
        bits = sum(value << place for place, value in enumerate(values))
        return bits.to_bytes((len(values) + 7) // 8, "little")
    if physical == INT32:
        return struct.pack(f"<{len(values)}i", *values)
    if physical == INT64:
        return struct.pack(f"<{len(values)}q", *values)
    contents = [value.encode() if isinstance(value, str) else value for value in values]
    return b"".join(struct.pack("<I", len(content)) + content for content in contents)


def definition_levels(highest: int, levels: list[int]) -> bytes:
    """Spells levels as runs of the RLE/bit-packing hybrid behind their length.

    There are none where no node of a column is nullable.
    """
    if highest == 0:
        return b""
    width_in_bytes = (highest.bit_length() + 7) // 8
    runs = bytearray()
    for level, run in groupby(levels):
        runs += varint(2 * len(list(run))) + level.to_bytes(width_in_bytes, "little")
    return struct.pack("<I", len(runs)) + runs


def data_page(leaf: Leaf, levels: list[int], values: list[Any]) -> bytes:
    """Spells a data page of version 1 with its header."""
    body = definition_levels(leaf.highest_level, levels) + plain_values(leaf.type, values)
    data_page_header = thrift_struct(
        i32_field(1, len(levels)), i32_field(2, PLAIN), i32_field(3, RLE), i32_field(4, RLE)
    )
    header = thrift_struct(
        i32_field(1, DATA_PAGE),
        i32_field(2, len(body)),
        i32_field(3, len(body)),
        struct_field(5, data_page_header),
    )
    return header + body


def column_pages(leaf: Leaf, rows: list[dict[str, Any]]) -> bytes:
    """Spells the pages of a column, one behind the other."""
    pages = bytearray()
    for first in range(0, len(rows), PAGE_ROWS):
        cells = [level_and_value(leaf, row) for row in rows[first : first + PAGE_ROWS]]
        values = [value for _, value in cells if value is not None]
        pages += data_page(leaf, [level for level, _ in cells], values)
    return bytes(pages)


def column_chunk(leaf: Leaf, row_count: int, offset: int, size: int) -> bytes:
    """Spells what a footer says of a column's pages: the struct ColumnChunk."""
    meta_data = thrift_struct(
        i32_field(1, PHYSICAL_TYPES[leaf.type]),
        list_field(2, THRIFT_I32, [zigzag(PLAIN), zigzag(RLE)]),
        list_field(3, THRIFT_BINARY, [thrift_binary(name.encode()) for name in leaf.path]),
        i32_field(4, UNCOMPRESSED),
        i64_field(5, row_count),
        i64_field(6, size),
        i64_field(7, size),
        i64_field(9, offset),
    )
    return thrift_struct(i64_field(2, offset), struct_field(3, meta_data))


def schema_elements(fields: list[dict[str, Any]]) -> list[bytes]:
    """Spells the nodes of a schema's fields, depth first: each is a struct SchemaElement."""
    elements = []
    for field in fields:
        repetition = i32_field(3, OPTIONAL if field["nullable"] else REQUIRED)
        name = binary_field(4, field["name"].encode())
        field_type = field["type"]
        if isinstance(field_type, dict):
            children = i32_field(5, len(field_type["fields"]))
            elements.append(thrift_struct(repetition, name, children))
            elements += schema_elements(field_type["fields"])
            continue
        parts = [i32_field(1, PHYSICAL_TYPES[field_type]), repetition, name]
        if field_type in CONVERTED_TYPES:
            parts.append(i32_field(6, CONVERTED_TYPES[field_type]))
        elements.append(thrift_struct(*parts))
    return elements


def file_meta_data(
    fields: list[dict[str, Any]], row_count: int, row_groups: list[bytes]
) -> bytes:
    """Spells a footer: the struct FileMetaData."""
    root = thrift_struct(binary_field(4, b"schema"), i32_field(5, len(fields)))
    return thrift_struct(
        i32_field(1, 1),
        list_field(2, THRIFT_STRUCT, [root, *schema_elements(fields)]),
        i64_field(3, row_count),
        list_field(4, THRIFT_STRUCT, row_groups),
        binary_field(6, CREATED_BY),
    )


def write_file(schema: dict[str, Any], rows: list[dict[str, Any]]) -> bytes:
    """Spells the file of a table's rows. Without rows it has no row group."""
    fields = schema["fields"]
    content = bytearray(MAGIC)
    row_groups = []
    if rows:
        chunks = []
        for leaf in leaves(fields):
            pages = column_pages(leaf, rows)
            chunks.append(column_chunk(leaf, len(rows), len(content), len(pages)))
            content += pages
        row_groups.append(
            thrift_struct(
                list_field(1, THRIFT_STRUCT, chunks),
                i64_field(2, len(content) - len(MAGIC)),
                i64_field(3, len(rows)),
            )
        )
    footer = file_meta_data(fields, len(rows), row_groups)
    return bytes(content) + footer + struct.pack("<I", len(footer)) + MAGIC
