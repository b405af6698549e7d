"""Tells the chunks and pages of a table's Apache Parquet file in lines.

The lines are those of a line `pages` of `lake_inspect`; what is read and what is refused is that of
`parquet_reader.py`.
"""

from collections.abc import Iterator
from itertools import groupby
from typing import Any

from parquet_reader import ChunkReader, ColumnChunk, FileLeaf, PageHeader, ReadFault, Runs
from parquet_reader import chunk_of, columns_in, file_leaves, split_file, test_codec
from parquet_reader import DATA_PAGE, DICTIONARY_PAGE


def page_lines(schema: dict[str, Any], content: bytes) -> list[str]:
    """What a file has, in lines; a fault is the last of them."""
    told = []
    try:
        for line in lines_before_fault(schema, content):
            told.append(line)
    except ReadFault as fault:
        told.append(f"refused {fault}")
    return told


def lines_before_fault(schema: dict[str, Any], content: bytes) -> Iterator[str]:
    """How many rows a file has, and its groups with a chunk for each leaf of the table."""
    front, footer = split_file(content)
    leaves = list(file_leaves(columns_in(schema, footer)))
    yield f"{footer.rows} rows"
    for group in footer.groups:
        yield f"group of {group.rows} rows"
        for leaf in leaves:
            chunk = chunk_of(group, leaf)
            yield chunk_line(chunk)
            test_codec(chunk)
            yield from chunk_pages(front, leaf, chunk)


def chunk_line(chunk: ColumnChunk) -> str:
    """A chunk: its path, its codec, how many values it has, and where its first page begins."""
    path = " ".join(map(quoted, chunk.path))
    return f"chunk {path}, codec {chunk.codec}, {chunk.values} values from {chunk.offset}"


def quoted(name: bytes) -> str:
    """A name in quotes where it is plain ASCII, and else in hexadecimal."""
    is_plain = all(0x20 <= byte < 0x7F and byte != ord('"') for byte in name)
    return f'"{name.decode()}"' if is_plain else f"x'{name.hex()}'"


def chunk_pages(front: bytes, leaf: FileLeaf, chunk: ColumnChunk) -> Iterator[str]:
    """Each page of a chunk: its header, and then its levels."""
    reader = ChunkReader(front, leaf, chunk)
    while reader.left > 0:
        place = reader.cursor.place
        header = reader.header()
        yield header_line(place, header, reader.highest > 0)
        runs, values = reader.body(header)
        yield level_line(runs, len(values))


def header_line(place: int, header: PageHeader, has_levels: bool) -> str:
    """What the header of the page at a place says."""
    sizes = f"uncompressed {header.uncompressed}, compressed {header.compressed}"
    line = f"page at {place}: type {header.type}, {sizes}"
    content = f"page: values {header.values}, encoding {header.encoding}"
    if header.type == DICTIONARY_PAGE:
        return f"{line}, dictionary {content}"
    if header.type != DATA_PAGE:
        return line
    levels = f", level encoding {header.level_encoding}" if has_levels else ""
    return f"{line}, data {content}{levels}"


def level_line(runs: Runs, present: int) -> str:
    """The levels of a page as runs, and how many values aren't null."""
    counts = [
        (level, sum(count for _, count in equal))
        for level, equal in groupby(runs, lambda run: run[0])
    ]
    words = " ".join(f"{level}*{count}" for level, count in counts if count > 0)
    return f"levels {words}, {present} not null" if words else f"no levels, {present} not null"
