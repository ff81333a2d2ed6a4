"""Gesarumbo from Python: rack-aware erasure coding for packaged record stores, every call proved.

One file over the shared library (ctypes; nothing to build, no packages). The calls are those of the C header
include/gesarumbo.h, which says what each does and on which grounds it refuses; the names are the same without their
prefix. Three things have calls:

    field256     cabinets over the field of 256, racks of 1, 3, 5, 15 or 17 trays, symbols are bytes (bytearray)
    field257     cabinets over the numbers modulo 257, racks of 1, 2, 4, 8 or 16 trays, symbols are array('H')
    box          the sixteen-tray box

and checksum() is the CRC-64 of xz.

    >>> from gesarumbo import Layout, field256
    >>> layout = Layout(4, 3, 8, 3)                  # 4 racks of 3 trays, 8 trays of data, 3 helper racks
    >>> sizes = field256.sizes(layout)
    >>> codeword = field256.store(layout, bytes(range(128)))
    >>> codeword[5 * sizes.layers:6 * sizes.layers] = bytes(sizes.layers)
    >>> field256.recover(layout, codeword, [5])      # tray 5 is back
    >>> bytes(codeword[:sizes.data]) == bytes(range(128))
    True

A refused call raises Refused, which has the ground's number and words, and has changed no byte of what it was lent.

Buffers. What is read may be bytes, bytearray, array, memoryview or anything else with a buffer of the right kind: of
bytes for the field of 256, of 16-bit numbers for the field of 257. What is written must be writable, and must not overlap
another buffer of the call (ValueError). Where a call fills a buffer and none is lent, a new one is made and returned.
Lists of trays and racks are any sequences of numbers. A number that does not fit the header's type is an OverflowError.

The library is the file named by the environment variable GESARUMBO_LIBRARY, or lib/libgesarumbo.so.1 of the archive that
this file is in, or what the system finds under that name.
"""

from __future__ import annotations

import array
import ctypes
import functools
import os
from typing import Any, Callable, Dict, List, NamedTuple, Optional, Sequence, Tuple, Union

__version__ = "1.0.0"

# Something with a buffer: bytes, bytearray, array, memoryview and the like.
Buffer = Any

ABSENT, LIVE, DEMONSTRATION = 0, 1, 2
"""What stands at a tray's place: the states of images and of margin()."""

SOUND, BAD = 1, 2
"""The verdicts of test() and test_kept()."""

STORE, SPARE = 1, 2
"""Where read_part() finds a part."""

UNFINISHED, WALK_SOUND, WALK_BAD = 1, 2, 3
"""The reports of scrub()."""

ALL = 2**64 - 1
"""A budget that no repair and no walk exhausts."""

WORDS = (
    "done",
    "the layout is not admissible, or not one that the call is for",
    "a buffer is not exactly the length its rule gives",
    "a tray, rack, state, volume, layer or group number or a symbol is outside its values, or a scrub record breaks its rules",
    "a list is not strictly rising",
    "too many trays are erased, or the helpers are not as many as the layout says",
    "the host rack is a helper",
    "the first group is above the number of groups",
    "no codeword has these survivors",
    "the image is malformed",
    "the image is marked demonstration",
    "the image is of another layout or volume",
    "there is no lost tray, or there are more of one rack than shares can repair",
    "a layer asked for is not yet repaired in the spare",
    "more than one helper's share is wrong: no change of one makes them agree",
    "the card does not give the host rack's sums of every codeword",
)
"""The words of the refusals by their numbers, as the header has them."""


class Refused(Exception):
    """A call was refused, and has changed no byte: number is the ground's, words says what it means, call which it was."""

    def __init__(self, call: str, number: int) -> None:
        self.call = call
        self.number = number
        self.words = WORDS[number] if number < len(WORDS) else "no ground of refusal"
        super().__init__("%s refused, ground %d: %s" % (call, number, self.words))


class Layout(NamedTuple):
    """B racks of u trays, k trays' worth of data, d helper racks of which E may send a wrong share: any numbers, each call
    says whether they are admissible."""

    racks: int
    size: int
    dimension: int
    helpers: int
    errors: int = 0


class Sizes(NamedTuple):
    """The numbers of an admissible layout, lengths in symbols."""

    trays: int  # n
    layers: int  # L, the symbols of a tray
    checks: int  # r, as many trays as may be erased
    digits: int  # s
    groups: int  # L/s, the symbols of a share
    traffic: int  # d*L/s, what crosses in the repair of one tray
    data: int  # k*L
    codeword: int  # n*L
    rack: int  # u*L
    card: int  # d*s
    image: int  # the bytes of a tray's image


class Tested(NamedTuple):
    """The answer of test(): the verdict, and the first bad layer and the least check broken there, 0 where it is sound."""

    verdict: int
    layer: int
    check: int

    @property
    def sound(self) -> bool:
        return self.verdict == SOUND


class Recovered(NamedTuple):
    """The answer of recover_correcting(): the tray that was wrong, n for none, and the checks that were left."""

    tray: int
    checks: int


class Kept(NamedTuple):
    """The answer of test_kept(): the verdict, the first layer that does not fit, and the checks that were left."""

    verdict: int
    layer: int
    checks: int

    @property
    def sound(self) -> bool:
        """Whether it is sound as far as the checks that were left can tell: with none of them it always is."""
        return self.verdict == SOUND


class Repaired(NamedTuple):
    """Groups done, symbols crossed, and symbols still to come."""

    groups: int
    crossed: int
    remaining: int


class Corrected(NamedTuple):
    """The helper rack whose share was wrong, B for none, and the symbols crossed."""

    rack: int
    crossed: int


class Part(NamedTuple):
    """Where a part lies: in STORE or SPARE, from offset on, so many symbols."""

    source: int
    offset: int
    length: int


class Image(NamedTuple):
    """A live image: its tray, and its symbols (a memoryview of the image; of the field of 257 an array of its own)."""

    tray: int
    symbols: Buffer


class Gathered(NamedTuple):
    """What was gathered: the codeword, with zeros at the missing trays, and their list, rising."""

    codeword: Buffer
    missing: List[int]


class ScrubRecord(ctypes.Structure):
    """The record of a walk over a codeword's layers: the next layer, how many below it are bad, and the first of these."""

    _fields_ = [("next", ctypes.c_uint32), ("bad", ctypes.c_uint32), ("first", ctypes.c_uint32)]

    def numbers(self) -> Tuple[int, int, int]:
        return self.next, self.bad, self.first

    def __repr__(self) -> str:
        return "ScrubRecord(next=%d, bad=%d, first=%d)" % self.numbers()

    def __eq__(self, other: object) -> bool:
        return isinstance(other, ScrubRecord) and self.numbers() == other.numbers()

    __hash__ = None  # type: ignore[assignment]


class Scrubbed(NamedTuple):
    """The answer of scrub(): UNFINISHED, WALK_SOUND or WALK_BAD, and the record as it is now."""

    report: int
    record: ScrubRecord


class _Layout(ctypes.Structure):
    _fields_ = [(name, ctypes.c_uint32) for name in Layout._fields]


def _answer(*parts: Tuple[str, Any]) -> Any:
    """A struct that a call gives: the refusal, then these parts."""
    fields = [("refusal", ctypes.c_uint32), *parts]
    return type("_Answer", (ctypes.Structure,), {"_fields_": fields})


def _numbers(kind: Any, *names: str) -> Any:
    return _answer(*((name, kind) for name in names))


# The structs of the header that calls give, by their names without prefix; '' is a refusal alone.
_ANSWERS = {
    "": ctypes.c_uint32,
    "checksum": ctypes.c_uint64,
    "measured": _numbers(ctypes.c_uint32, "layers", "checks", "traffic"),
    "tested": _numbers(ctypes.c_uint32, "verdict", "layer", "check"),
    "recovered": _numbers(ctypes.c_uint32, "tray", "checks"),
    "kept": _numbers(ctypes.c_uint32, "verdict", "layer", "checks"),
    "gathered": _numbers(ctypes.c_uint32, "count"),
    "repaired": _numbers(ctypes.c_uint64, "groups", "crossed", "remaining"),
    "corrected": _answer(("rack", ctypes.c_uint32), ("crossed", ctypes.c_uint64)),
    "part": _answer(("source", ctypes.c_uint32), ("offset", ctypes.c_size_t), ("length", ctypes.c_size_t)),
    "image": _answer(("tray", ctypes.c_uint32), ("offset", ctypes.c_size_t), ("length", ctypes.c_size_t)),
    "257_image": _numbers(ctypes.c_uint32, "tray"),
    "margin_result": _answer(("margin", ctypes.c_int32)),
    "scrubbed": _answer(("report", ctypes.c_uint32), ("record", ScrubRecord)),
    "reported": _numbers(ctypes.c_uint32, "report"),
    "box_repaired": _numbers(ctypes.c_uint32, "crossed"),
}

# The calls: what each gives, and its parameters in order. L a layout, n a 32-bit and N a 64-bit number, z a number of
# codewords, r symbols that are read and w symbols that are written, b and B the same of bytes, l a list that is read and m
# one that is written, s a scrub record by value and S one in its place.
_BOTH = {
    "measure": ("measured", "L"),
    "test": ("tested", "Lr"),
    "store": ("", "Lrw"),
    "recover": ("", "Lwl"),
    "recover_correcting": ("recovered", "Lwl"),
    "test_kept": ("kept", "Lrl"),
    "share": ("", "Lnnrw"),
    "share_add": ("", "Lnnrw"),
    "share_many": ("", "Lnnnrw"),
    "share_add_many": ("", "Lnnnrw"),
    "repair": ("repaired", "LnlrrwNN"),
    "repair_many": ("repaired", "LllrrwNN"),
    "repair_correcting": ("corrected", "Lnlrrw"),
    "card": ("", "LnlNw"),
    "card_test": ("", "LnlrN"),
    "card_repair": ("repaired", "LnlrrrwN"),
    "read_part": ("part", "LrrnNnnn"),
    "write_image": ("", "LnnnrB"),
    "margin": ("margin_result", "Lb"),
    "states": ("", "LnbB"),
    "gather": ("gathered", "Lnbwm"),
    "gather_rack": ("", "Lnnlbw"),
    "scrub_reset": ("scrubbed", "Ls"),
    "scrub": ("scrubbed", "LrsN"),
    "scrub_reset_in_place": ("reported", "LS"),
    "scrub_in_place": ("reported", "LrSN"),
    "store_batch": ("", "Lzrw"),
    "share_batch": ("", "Lznnrw"),
    "repair_batch": ("repaired", "LznlrrwNN"),
}
_CALLS: Dict[str, Tuple[str, str]] = {
    **{"gesarumbo_" + name: call for name, call in _BOTH.items()},
    **{"gesarumbo257_" + name: call for name, call in _BOTH.items()},
    "gesarumbo_read_image": ("image", "Lnb"),
    "gesarumbo257_read_image": ("257_image", "Lnbw"),
    "gesarumbo_checksum": ("checksum", "Nb"),
    "gesarumbo_box_store": ("", "bB"),
    "gesarumbo_box_data": ("", "blB"),
    "gesarumbo_box_recover": ("", "Bl"),
    "gesarumbo_box_share": ("", "nnbB"),
    "gesarumbo_box_repair": ("box_repaired", "nlbbB"),
}

# What a parameter is in C, by its letter; symbols are put in by the field.
_SINGLE = {
    "L": _Layout,
    "n": ctypes.c_uint32,
    "N": ctypes.c_uint64,
    "z": ctypes.c_size_t,
    "s": ScrubRecord,
    "S": ctypes.POINTER(ScrubRecord),
}


def _element(name: str, letter: str) -> Any:
    """The type of a buffer's elements."""
    if letter in "lm":
        return ctypes.c_uint32
    return ctypes.c_uint16 if letter in "rw" and name.startswith("gesarumbo257_") else ctypes.c_uint8


def _path() -> str:
    here = os.path.dirname(os.path.abspath(__file__))
    beside = os.path.join(os.path.dirname(here), "lib", "libgesarumbo.so.1")
    return os.environ.get("GESARUMBO_LIBRARY") or (beside if os.path.exists(beside) else "libgesarumbo.so.1")


@functools.lru_cache(maxsize=None)
def _library() -> ctypes.CDLL:
    return ctypes.CDLL(_path())


@functools.lru_cache(maxsize=None)
def _function(name: str) -> Any:
    """The library's function of this name, with its types."""
    gives, letters = _CALLS[name]
    types: List[Any] = []
    for letter in letters:
        types += [_SINGLE[letter]] if letter in _SINGLE else [ctypes.POINTER(_element(name, letter)), ctypes.c_size_t]
    function = getattr(_library(), name)
    function.argtypes, function.restype = types, _ANSWERS[gives]
    return function


def _number(value: int, kind: Any) -> int:
    number = int(value)
    if not 0 <= number < 2 ** (8 * ctypes.sizeof(kind)):
        raise OverflowError("%d does not fit the %d bits of its parameter" % (number, 8 * ctypes.sizeof(kind)))
    return number


def _lent(buffer: Buffer, kind: Any, written: bool) -> Any:
    """A buffer as an array of C: the buffer itself, or a copy where it is only read and cannot be written."""
    view = memoryview(buffer)
    if view.itemsize != ctypes.sizeof(kind) or view.ndim != 1 or not view.contiguous or view.format in ("f", "d", "e", "?"):
        raise TypeError("a buffer of whole numbers of %d bits is needed" % (8 * ctypes.sizeof(kind)))
    if written and view.readonly:
        raise TypeError("a buffer that is written is needed, as bytearray or array")
    of = kind * len(view)
    if len(view) == 0:
        return of()
    return of.from_buffer_copy(view) if view.readonly else of.from_buffer(view)


def _apart(arrays: Sequence[Tuple[Any, bool]]) -> None:
    """That no buffer that is written overlaps another."""
    places = sorted((ctypes.addressof(lent), ctypes.sizeof(lent), written) for lent, written in arrays if ctypes.sizeof(lent))
    end, end_written = 0, False
    for address, size, written in places:
        if address < end and (written or end_written):
            raise ValueError("a buffer that is written overlaps another of the call")
        if address + size > end:
            end, end_written = address + size, written


def raw(name: str, *given: Any) -> Any:
    """Calls the function of this full name, as gesarumbo_store, by the parameters of the header, a buffer without its length.

    What comes back is the struct, or None where the call gives a refusal alone. A refusal is raised.
    """
    gives, letters = _CALLS[name]
    if len(given) != len(letters):
        raise TypeError("%s takes %d parameters, a buffer counted as one, and %d were given" % (name, len(letters), len(given)))
    words: List[Any] = []
    arrays: List[Tuple[Any, bool]] = []
    for letter, value in zip(letters, given):
        if letter == "L":
            words.append(_Layout(*(_number(number, ctypes.c_uint32) for number in Layout(*value))))
        elif letter in "nNz":
            words.append(_number(value, _SINGLE[letter]))
        elif letter == "s":
            words.append(value)
        elif letter == "S":
            words.append(ctypes.byref(value))
        else:
            kind = _element(name, letter)
            lent = (kind * len(value))(*(_number(number, kind) for number in value)) if letter == "l" else _lent(value, kind, letter in "wBm")
            arrays.append((lent, letter in "wBm"))
            words += [lent, len(lent)]
    _apart(arrays)
    answer = _function(name)(*words)
    if gives == "checksum":
        return answer
    refusal = answer if gives == "" else answer.refusal
    if refusal != 0:
        raise Refused(name, refusal)
    return None if gives == "" else answer


class _Field:
    """The calls that both fields have."""

    prefix: str
    symbol_bytes: int

    def symbols(self, length: int) -> Buffer:
        """A new buffer of so many symbols, all 0."""
        raise NotImplementedError

    def _call(self, name: str, *given: Any) -> Any:
        return raw(self.prefix + name, *given)

    def sizes(self, layout: Layout) -> Sizes:
        """The numbers of a layout, and the lengths of all buffers. Grounds: 1."""
        measured = self._call("measure", layout)
        racks, size, dimension, helpers, errors = Layout(*layout)
        layers = measured.layers
        digits = helpers - dimension // size + 1 - 2 * errors
        return Sizes(
            trays=racks * size,
            layers=layers,
            checks=measured.checks,
            digits=digits,
            groups=layers // digits,
            traffic=measured.traffic,
            data=dimension * layers,
            codeword=racks * size * layers,
            rack=size * layers,
            card=helpers * digits,
            image=24 + self.symbol_bytes * layers,
        )

    def _made(self, given: Optional[Buffer], layout: Layout, length: Callable[[Sizes], int]) -> Buffer:
        """The buffer that was lent, or a new one of the length that the layout gives."""
        return self.symbols(length(self.sizes(layout))) if given is None else given

    def _made_bytes(self, given: Optional[Buffer], layout: Layout, length: Callable[[Sizes], int]) -> Buffer:
        return bytearray(length(self.sizes(layout))) if given is None else given

    def test(self, layout: Layout, codeword: Buffer) -> Tested:
        """Tests whether n*L symbols are a codeword. A bad one is an answer and no refusal. Grounds: 1, 2."""
        answer = self._call("test", layout, codeword)
        return Tested(answer.verdict, answer.layer, answer.check)

    def store(self, layout: Layout, data: Buffer, codeword: Optional[Buffer] = None) -> Buffer:
        """Stores k*L symbols of data as a codeword, which is returned. Grounds: 1, 2."""
        codeword = self._made(codeword, layout, lambda sizes: sizes.codeword)
        self._call("store", layout, data, codeword)
        return codeword

    def recover(self, layout: Layout, codeword: Buffer, erased: Sequence[int]) -> None:
        """Fills the erased trays of a codeword from all the others. Grounds: 1 to 5, 8."""
        self._call("recover", layout, codeword, erased)

    def recover_correcting(self, layout: Layout, codeword: Buffer, erased: Sequence[int]) -> Recovered:
        """Fills the erased trays of a codeword from all the others, of which one may be wrong. Grounds: 1 to 5, 8."""
        answer = self._call("recover_correcting", layout, codeword, erased)
        return Recovered(answer.tray, answer.checks)

    def test_kept(self, layout: Layout, codeword: Buffer, erased: Sequence[int]) -> Kept:
        """Tests the trays of a codeword that are not listed as erased. Grounds: 1 to 5."""
        answer = self._call("test_kept", layout, codeword, erased)
        return Kept(answer.verdict, answer.layer, answer.checks)

    def share(self, layout: Layout, host: int, helper: int, rack: Buffer, share: Optional[Buffer] = None) -> Buffer:
        """Works out a helper rack's share of L/s symbols for a host rack, from its u*L. Grounds: 1, 2, 3, 6."""
        share = self._made(share, layout, lambda sizes: sizes.groups)
        self._call("share", layout, host, helper, rack, share)
        return share

    def share_add(self, layout: Layout, host: int, tray: int, symbols: Buffer, share: Buffer) -> None:
        """Adds one tray's part to the share for a host rack. Grounds: 1, 2, 3, 6."""
        self._call("share_add", layout, host, tray, symbols, share)

    def share_many(
        self, layout: Layout, lost_count: int, host: int, helper: int, rack: Buffer, share: Optional[Buffer] = None
    ) -> Buffer:
        """Works out a helper rack's shares for a host rack with so many lost trays. Grounds: 1, 2, 3, 12, 6."""
        share = self._made(share, layout, lambda sizes: lost_count * sizes.groups)
        self._call("share_many", layout, lost_count, host, helper, rack, share)
        return share

    def share_add_many(self, layout: Layout, lost_count: int, host: int, tray: int, symbols: Buffer, share: Buffer) -> None:
        """Adds one tray's part to the shares for a host rack with so many lost trays. Grounds: 1, 2, 3, 12, 6."""
        self._call("share_add_many", layout, lost_count, host, tray, symbols, share)

    def repair(
        self,
        layout: Layout,
        lost: int,
        helpers: Sequence[int],
        shares: Buffer,
        host: Buffer,
        spare: Buffer,
        first: int = 0,
        budget: int = ALL,
    ) -> Repaired:
        """Repairs a lost tray into spare, or so many groups of it from the first on. Grounds: 1 to 7."""
        answer = self._call("repair", layout, lost, helpers, shares, host, spare, first, budget)
        return Repaired(answer.groups, answer.crossed, answer.remaining)

    def repair_many(
        self,
        layout: Layout,
        lost: Sequence[int],
        helpers: Sequence[int],
        shares: Buffer,
        host: Buffer,
        spare: Buffer,
        first: int = 0,
        budget: int = ALL,
    ) -> Repaired:
        """Repairs lost trays of one rack into spare, or so many groups of them. Grounds: 1 to 5, 12, 6, 7."""
        answer = self._call("repair_many", layout, lost, helpers, shares, host, spare, first, budget)
        return Repaired(answer.groups, answer.crossed, answer.remaining)

    def repair_correcting(
        self, layout: Layout, lost: int, helpers: Sequence[int], shares: Buffer, host: Buffer, spare: Buffer
    ) -> Corrected:
        """Repairs a lost tray though one helper's share may be wrong: E is 1. Grounds: 1 to 6, 14."""
        answer = self._call("repair_correcting", layout, lost, helpers, shares, host, spare)
        return Corrected(answer.rack, answer.crossed)

    def store_batch(self, layout: Layout, many: int, data: Buffer, codewords: Optional[Buffer] = None) -> Buffer:
        """Stores the data of many codewords, interleaved, as codewords, which are returned. Grounds: 1, 2."""
        codewords = self._made(codewords, layout, lambda sizes: many * sizes.codeword)
        self._call("store_batch", layout, many, data, codewords)
        return codewords

    def share_batch(
        self, layout: Layout, many: int, host: int, helper: int, rack: Buffer, share: Optional[Buffer] = None
    ) -> Buffer:
        """Works out a helper rack's share of many codewords for a host rack. Grounds: 1, 2, 3, 6."""
        share = self._made(share, layout, lambda sizes: many * sizes.groups)
        self._call("share_batch", layout, many, host, helper, rack, share)
        return share

    def repair_batch(
        self,
        layout: Layout,
        many: int,
        lost: int,
        helpers: Sequence[int],
        shares: Buffer,
        host: Buffer,
        spare: Buffer,
        first: int = 0,
        budget: int = ALL,
    ) -> Repaired:
        """Repairs a lost tray of many codewords into spare, or so many groups of it. Grounds: 1 to 7."""
        answer = self._call("repair_batch", layout, many, lost, helpers, shares, host, spare, first, budget)
        return Repaired(answer.groups, answer.crossed, answer.remaining)

    def card(self, layout: Layout, lost: int, helpers: Sequence[int], group: int, card: Optional[Buffer] = None) -> Buffer:
        """Prints the right repair card of d*s multipliers for a group. Grounds: 1 to 6."""
        card = self._made(card, layout, lambda sizes: sizes.card)
        self._call("card", layout, lost, helpers, group, card)
        return card

    def card_test(self, layout: Layout, lost: int, helpers: Sequence[int], card: Buffer, group: int) -> None:
        """Tests a card, whoever has printed it. Grounds: 1 to 6, 15."""
        self._call("card_test", layout, lost, helpers, card, group)

    def card_repair(
        self,
        layout: Layout,
        lost: int,
        helpers: Sequence[int],
        card: Buffer,
        shares: Buffer,
        host: Buffer,
        spare: Buffer,
        group: int,
    ) -> Repaired:
        """Repairs one group of a lost tray by a card, which is tested too. Grounds: 1 to 6, 15."""
        answer = self._call("card_repair", layout, lost, helpers, card, shares, host, spare, group)
        return Repaired(answer.groups, answer.crossed, answer.remaining)

    def read_part(
        self, layout: Layout, codeword: Buffer, spare: Buffer, lost: int, groups: int, tray: int, first: int, end: int
    ) -> Part:
        """Where layers first to end - 1 of a tray lie while the lost one is being repaired. Grounds: 1, 2, 3, 13."""
        answer = self._call("read_part", layout, codeword, spare, lost, groups, tray, first, end)
        return Part(answer.source, answer.offset, answer.length)

    def write_image(
        self, layout: Layout, tray: int, state: int, volume: int, symbols: Buffer, image: Optional[Buffer] = None
    ) -> Buffer:
        """Writes the image of a tray, LIVE or DEMONSTRATION, which is returned. Grounds: 1, 2, 3."""
        image = self._made_bytes(image, layout, lambda sizes: sizes.image)
        self._call("write_image", layout, tray, state, volume, symbols, image)
        return image

    def margin(self, layout: Layout, states: Buffer) -> int:
        """How many more trays may be lost, by the states of all; below 0 it is too late. Grounds: 1, 2, 3."""
        return int(self._call("margin", layout, states).margin)

    def states(self, layout: Layout, volume: int, images: Buffer, states: Optional[Buffer] = None) -> Buffer:
        """What stands at each of the n places: ABSENT, LIVE or DEMONSTRATION. Grounds: 1, 2."""
        states = self._made_bytes(states, layout, lambda sizes: sizes.trays)
        self._call("states", layout, volume, images, states)
        return states

    def gather(
        self,
        layout: Layout,
        volume: int,
        images: Buffer,
        codeword: Optional[Buffer] = None,
        missing: Optional[array.array] = None,
    ) -> Gathered:
        """Gathers a codeword from what stands at the n places, and lists the missing trays. Grounds: 1, 2."""
        codeword = self._made(codeword, layout, lambda sizes: sizes.codeword)
        if missing is None:
            missing = array.array("I", bytes(4 * self.sizes(layout).trays))
        count = self._call("gather", layout, volume, images, codeword, missing).count
        return Gathered(codeword, list(missing[:count]))

    def gather_rack(
        self, layout: Layout, volume: int, rack: int, lost: Sequence[int], images: Buffer, out: Optional[Buffer] = None
    ) -> Buffer:
        """Gathers one rack from what stands at its u places but those of lost trays. Grounds: 1 to 4, 9 to 11."""
        out = self._made(out, layout, lambda sizes: sizes.rack)
        self._call("gather_rack", layout, volume, rack, lost, images, out)
        return out

    def scrub_reset(self, layout: Layout, record: Optional[ScrubRecord] = None) -> ScrubRecord:
        """The record of a new walk, whatever the one given holds. Grounds: 1."""
        return self._call("scrub_reset", layout, ScrubRecord() if record is None else record).record

    def scrub(self, layout: Layout, codeword: Buffer, record: ScrubRecord, budget: int = ALL) -> Scrubbed:
        """Looks at the next layers of a codeword, at most so many. Grounds: 1, 2, 3."""
        answer = self._call("scrub", layout, codeword, record, budget)
        return Scrubbed(answer.report, answer.record)

    def scrub_reset_in_place(self, layout: Layout, record: ScrubRecord) -> None:
        """Starts a new walk in a record. Grounds: 1."""
        self._call("scrub_reset_in_place", layout, record)

    def scrub_in_place(self, layout: Layout, codeword: Buffer, record: ScrubRecord, budget: int = ALL) -> int:
        """Looks at the next layers of a codeword, changes the record, and gives the report. Grounds: 1, 2, 3."""
        return int(self._call("scrub_in_place", layout, codeword, record, budget).report)


class Field256(_Field):
    """Cabinets over the field of 256: racks of 1, 3, 5, 15 or 17 trays, a byte a symbol."""

    prefix = "gesarumbo_"
    symbol_bytes = 1

    def symbols(self, length: int) -> bytearray:
        return bytearray(length)

    def read_image(self, layout: Layout, volume: int, image: Buffer) -> Image:
        """Reads an image that should be a live one of this layout and volume. Grounds: 1, 9, 10, 11."""
        answer = self._call("read_image", layout, volume, image)
        return Image(answer.tray, memoryview(image)[answer.offset : answer.offset + answer.length])


class Field257(_Field):
    """Cabinets over the numbers modulo 257: racks of 1, 2, 4, 8 or 16 trays, symbols 0 to 256 in 16-bit numbers."""

    prefix = "gesarumbo257_"
    symbol_bytes = 2

    def symbols(self, length: int) -> array.array:
        return array.array("H", bytes(2 * length))

    def read_image(self, layout: Layout, volume: int, image: Buffer, symbols: Optional[Buffer] = None) -> Image:
        """Reads an image that should be a live one of this layout and volume, and copies its symbols. Grounds: 1, 2, 9,
        10, 11."""
        symbols = self._made(symbols, layout, lambda sizes: sizes.layers)
        tray = self._call("read_image", layout, volume, image, symbols).tray
        return Image(tray, symbols)


class Box:
    """The sixteen-tray box: 7 symbols of data, 16 trays in four racks of four, symbols 0 to 15 in bytes."""

    def store(self, data: Buffer, values: Optional[Buffer] = None) -> Buffer:
        """Stores 7 symbols in the 16 trays, which are returned. Grounds: 2, 3."""
        values = bytearray(16) if values is None else values
        raw("gesarumbo_box_store", data, values)
        return values

    def data(self, values: Buffer, erased: Sequence[int], data: Optional[Buffer] = None) -> Buffer:
        """The 7 symbols of data from the trays that are not erased. Grounds: 2 to 5, 8."""
        data = bytearray(7) if data is None else data
        raw("gesarumbo_box_data", values, erased, data)
        return data

    def recover(self, values: Buffer, erased: Sequence[int]) -> None:
        """Fills the erased trays from all the others. Grounds: 2 to 5, 8."""
        raw("gesarumbo_box_recover", values, erased)

    def share(self, host: int, helper: int, rack: Buffer, share: Optional[Buffer] = None) -> Buffer:
        """A helper rack's share for a host rack, one symbol. Grounds: 2, 3, 6."""
        share = bytearray(1) if share is None else share
        raw("gesarumbo_box_share", host, helper, rack, share)
        return share

    def repair(self, lost: int, helpers: Sequence[int], shares: Buffer, host: Buffer, spare: Buffer) -> int:
        """Repairs a lost tray into the one symbol of spare; the symbols that crossed. Grounds: 2 to 6, 8."""
        return int(raw("gesarumbo_box_repair", lost, helpers, shares, host, spare).crossed)


field256 = Field256()
field257 = Field257()
box = Box()


def checksum(data: Buffer, start: int = 0) -> int:
    """The CRC-64 of bytes, as xz has it; start is the checksum of the bytes before these."""
    return int(raw("gesarumbo_checksum", start, data))
