"""The archive that an .xlsx or an .ods is, once it is known that no part of it is too much."""
import io
import xml.parsers.expat
import zipfile
from typing import NamedTuple

from ...core.failure import Failure
from .cells import shortened

MOST_PARTS = 1_000
MOST_XML, MOST_UNPACKED = 32_000_000, 128_000_000  # bytes of parts whose content is XML, and of all parts
MOST_ELEMENTS = 2_500_000  # of XML in all parts
MOST_DEPTH = 100  # of elements within elements
PIECE = 65_536
IS_ENCRYPTED = 1  # a bit of a part's flags
METHODS = (zipfile.ZIP_STORED, zipfile.ZIP_DEFLATED)  # of others zipfile bounds no piece that it unpacks


class Elements:
    """Counts the elements of XML, and refuses entities: neither form has them, and a small file may grow by them."""

    def __init__(self) -> None:
        self.count = self.depth = 0

    def parser(self) -> xml.parsers.expat.XMLParserType:
        """A parser of one more part."""
        self.depth = 0
        parser = xml.parsers.expat.ParserCreate()
        parser.StartElementHandler, parser.EndElementHandler = self.begin, self.end
        parser.EntityDeclHandler = self.refuse
        return parser

    def begin(self, _: str, __: dict[str, str]) -> None:
        """Counts an element."""
        self.count += 1
        self.depth += 1
        if self.count > MOST_ELEMENTS:
            raise Failure(f"it has more than {MOST_ELEMENTS:,} elements of XML", 1)
        if self.depth > MOST_DEPTH:
            raise Failure(f"its XML nests more than {MOST_DEPTH} elements", 3)

    def end(self, _: str) -> None:
        """Leaves an element."""
        self.depth -= 1

    def refuse(self, name: str, *_: object) -> None:
        """Refuses an entity."""
        raise Failure(f"it declares the entity {shortened(name)}, which no sheet has", 3)


class Archive(NamedTuple):
    """An archive, how many elements of XML it has, and the parts that aren't well-formed XML, such as its pictures."""

    zip: zipfile.ZipFile
    elements: int
    no_xml: frozenset[str]


def opened(content: bytes) -> Archive:
    """The archive of these bytes. Its parts are unpacked once to be counted: what a header says of them may be
    wrong."""
    archive = zipfile.ZipFile(io.BytesIO(content))
    parts = archive.infolist()
    if len(parts) > MOST_PARTS:
        raise Failure(f"it has {len(parts):,} parts, and at most {MOST_PARTS:,} are read", 1)
    names: set[str] = set()
    for part in parts:
        check_head(part, names)
        names.add(part.filename)
    return unpacked(archive)


def check_head(part: zipfile.ZipInfo, names: set[str]) -> None:
    """Fails where a part can't be one of a sheet's, or another has its name."""
    name = shortened(part.filename)
    if part.flag_bits & IS_ENCRYPTED:
        raise Failure("it has a password: save it without one", 3)
    if part.compress_type not in METHODS:
        raise Failure(f"its part {name} is packed in a way that no sheet has", 3)
    if part.filename in names:
        raise Failure(f"it has two parts of the name {name}", 3)


def unpacked(archive: zipfile.ZipFile) -> Archive:
    """The archive, counted; fails where it unpacks to too much, has too many elements of XML, or declares an entity."""
    size, xml_size, elements, no_xml = 0, 0, Elements(), set()
    for part in archive.infolist():
        parser, is_xml = elements.parser(), True
        with archive.open(part) as source:
            while piece := source.read(PIECE):
                size, xml_size = size + len(piece), xml_size + len(piece) * is_xml
                if size > MOST_UNPACKED or xml_size > MOST_XML:
                    raise Failure(f"it unpacks to more than {MOST_UNPACKED:,} bytes, or {MOST_XML:,} of XML", 1)
                is_xml = is_xml and is_fed(parser, piece)
        if not (is_xml and is_fed(parser, b"", True)):
            no_xml.add(part.filename)
    return Archive(archive, elements.count, frozenset(no_xml))


def is_fed(parser: xml.parsers.expat.XMLParserType, piece: bytes, is_last: bool = False) -> bool:
    """Feeds a piece to a parser; whether it is well-formed. Where it isn't, other parsers end as well."""
    try:
        parser.Parse(piece, is_last)
    except xml.parsers.expat.ExpatError:
        return False
    return True
