# Writes stdin, the codestreams and what is asked of them, and stdout, what main.rt must print: python3 cases.py
# Answers come from the small reader below. Every case also says by hand how its answer begins.
from pathlib import Path

SIZ, COD, COC, TLM, PLM, PLT, QCD, QCC = 0x51, 0x52, 0x53, 0x55, 0x57, 0x58, 0x5C, 0x5D
RGN, POC, PPM, PPT, CRG, COM, SOT, SOD, EOC = 0x5E, 0x5F, 0x60, 0x61, 0x63, 0x64, 0x90, 0x93, 0xD9


# ---- reading ----


class Refused(Exception):
    def __init__(self, *line):
        super().__init__(",".join(str(part) for part in line))


# the bytes from a place on, up to an end
class Fields:
    def __init__(self, data, place, code=None):
        self.data, self.place, self.code = data, place, code

    def run(self, count):
        if len(self.data) - self.place < count:
            raise Refused("short", 5, self.place, self.code)
        self.place += count
        return self.place - count

    def number(self, width, admitted=lambda value: True):
        begin = self.run(width)
        value = int.from_bytes(self.data[begin : begin + width], "big")
        if not admitted(value):
            raise Refused("value", 5, begin, self.code)
        return value


def marker(data, place):
    there = place + 2 <= len(data) and data[place] == 0xFF
    return data[place + 1] if there else None


def first_marker(data, place, code):
    found = marker(data, place)
    if found is None:
        raise Refused("fault", 1, place)
    if found != code:
        raise Refused("fault", 3, place, code)
    return Fields(data, place + 2, code)


# Table A.9: Csiz, the number of tiles, and the place behind
def read_siz(data, place):
    f = first_marker(data, place, SIZ)
    f.number(2)
    f.number(2)
    xsiz, ysiz = f.number(4), f.number(4)
    xosiz = f.number(4, lambda v: v < xsiz)
    yosiz = f.number(4, lambda v: v < ysiz)
    xtsiz, ytsiz, xtosiz, ytosiz = [f.number(4) for _ in range(4)]
    csiz = f.number(2, lambda v: v >= 1)
    steps = []
    for _ in range(csiz):
        f.number(1, lambda v: (v & 0x7F) + 1 <= 31)
        steps += [f.number(1), f.number(1)]
    directions = [(xsiz, xosiz, xtsiz, xtosiz), (ysiz, yosiz, ytsiz, ytosiz)]
    if any(side == 0 or origin >= size for size, _, side, origin in directions):
        raise Refused("fault", 10, place)
    for _, offset, side, origin in directions:
        if origin > offset or origin + side >= 2**32 or origin + side <= offset:
            raise Refused("fault", 8, place)
    if 0 in steps:
        raise Refused("fault", 12, place)
    tiles = 1
    for size, _, side, origin in directions:
        tiles *= -(-(size - origin) // side)
    if tiles >= 2**32:
        raise Refused("fault", 11, place)
    return csiz, tiles, f.place


# levels, block exponents, transformation and precinct sizes, which COD and COC share
def read_parameters(f, flags):
    levels = f.number(1, lambda v: v <= 32)
    width = f.number(1, lambda v: v <= 8)
    height = f.number(1, lambda v: v <= 8 and v + width <= 8)
    f.number(1)
    transformation = f.number(1, lambda v: v <= 1)
    sizes = [f.number(1) for _ in range(levels + 1)] if flags & 1 else [0xFF]
    return levels, width + 2, height + 2, transformation, sizes[0] & 15, sizes[0] >> 4


def read_cod(f):
    f.number(2)
    flags = f.number(1)
    f.number(1, lambda v: v <= 4)
    f.number(2, lambda v: 1 <= v <= 32)
    f.number(1)
    return flags, read_parameters(f, flags)


def index_width(csiz):
    return 1 if csiz < 257 else 2


def read_coc(f, csiz, tested):
    f.number(2)
    index = f.number(index_width(csiz), lambda v: v < csiz or not tested)
    flags = f.number(1)
    return index, (flags, read_parameters(f, flags))


def read_steps(f, room):
    sq = f.number(1, lambda v: v & 31 <= 2)
    style = sq & 31
    if style == 0:
        steps = [(f.number(1) >> 3, 0) for _ in range(room)]
    else:
        pairs = [f.number(2) for _ in range(1 if style == 1 else room // 2)]
        steps = [(pair >> 11, pair & 2047) for pair in pairs]
    return style, sq >> 5, steps


def read_qcd(f):
    length = f.number(2, lambda v: v >= 3)
    return read_steps(f, length - 3)


def read_qcc(f, csiz, tested):
    least = 3 + index_width(csiz)
    length = f.number(2, lambda v: v >= least)
    index = f.number(index_width(csiz), lambda v: v < csiz or not tested)
    return index, read_steps(f, length - least)


def skip(f):
    f.run(f.number(2, lambda v: v >= 2) - 2)


def skip_crg(f):
    left = f.data[f.place :]
    if len(left) >= 2:
        length = int.from_bytes(left[:2], "big")
        f.place += length if 2 <= length <= len(left) else 2


# the packets as (Zppm, place, length)
def read_ppm(f):
    begin = f.run(f.number(2, lambda v: v >= 2) - 2)
    inside = Fields(f.data[: f.place], begin, PPM)
    zppm = inside.number(1)
    packets = []
    while inside.place < f.place:
        count = inside.number(4)
        packets.append((zppm, inside.run(count), count))
    return packets


def read_ppt(f):
    length = f.number(2, lambda v: v >= 3)
    f.number(1)
    f.run(length - 3)


# what the segments of a main header say, in reading order, up to SOT or to what refuses the rest
class MainHeader:
    def __init__(self, data, place, csiz, room=None):
        self.said, self.packets, self.place, self.refused = [], [], place, None
        try:
            while marker(data, self.place) != SOT:
                self.segment(data, csiz)
                if room is not None and len(self.packets) > room:
                    raise Refused("fault", 23)
        except Refused as refused:
            self.refused = refused

    def segment(self, data, csiz):
        code = marker(data, self.place)
        if code is None:
            raise Refused("fault", 1, self.place)
        f = Fields(data, self.place + 2, code)
        if code == COD:
            self.said.append((code, None, read_cod(f)))
        elif code == COC:
            self.said.append((code, *read_coc(f, csiz, True)))
        elif code == QCD:
            self.said.append((code, None, read_qcd(f)))
        elif code == QCC:
            self.said.append((code, *read_qcc(f, csiz, True)))
        elif code == PPM:
            self.packets += read_ppm(f)
        elif code in (RGN, TLM, COM):
            skip(f)
        elif code == CRG:
            skip_crg(f)
        elif code & 0xF0 != 0x30:
            raise Refused("fault", 2, self.place)
        self.place = f.place

    def last(self, code, index=None):
        found = [what for kind, component, what in self.said if kind == code and component == index]
        return found[-1] if found else None

    # flags, parameters, and the quantization of a component
    def component(self, index):
        cod, coc = self.last(COD), self.last(COC, index)
        flags, parameters = coc or cod or (0, (0, 2, 2, 0, 0, 0))
        others = cod[0] & 0xFE if cod else 0
        quantization = self.last(QCC, index) or self.last(QCD) or (0, 0, [])
        return flags & 1 | others, parameters, quantization


def main_line(data, place, rows):
    csiz, tiles, segments = read_siz(data, place)
    components_room, tiles_room, settings_room, packets_room = rows
    if components_room < csiz or tiles_room < tiles or settings_room < tiles * csiz:
        raise Refused("fault", 23)
    header = MainHeader(data, segments, csiz, packets_room)
    if header.refused:
        raise header.refused
    for code in (COD, QCD):
        if header.last(code) is None:
            raise Refused("fault", 4, header.place, code)
    for index in range(csiz):
        _, parameters, (style, _, steps) = header.component(index)
        if not steps:
            raise Refused("fault", 13, header.place)
        if style != 1 and parameters[0] > 0 and len(steps) <= 3 * parameters[0]:
            raise Refused("fault", 14, header.place)
    return ["main", csiz, tiles, len(header.packets), segments, header.place]


def settings_line(data, segments, csiz, index):
    flags, parameters, (style, guard, steps) = MainHeader(data, segments, csiz).component(index)
    first = steps[0] if steps else (0, 0)
    return ["settings", flags, *parameters, style, guard, len(steps), *first]


def packet_line(data, segments, csiz, k):
    packets = sorted(MainHeader(data, segments, csiz).packets, key=lambda packet: packet[0])
    return ["packet", *packets[k]] if k < len(packets) else ["none"]


# reads a tile-part's header behind SOT: the place where it ends and the number of PPT segments, or None for a missing marker
def read_part_header(data, place, csiz, packets):
    headers = 0
    while True:
        code = marker(data, place)
        f = Fields(data, place + 2, code)
        if code is None:
            return place, None
        if code == SOD:
            return place + 2, headers
        if code == EOC:
            return place, headers
        if code == COD:
            read_cod(f)
        elif code == QCD:
            read_qcd(f)
        elif code in (COC, QCC):
            index, _ = (read_coc if code == COC else read_qcc)(f, csiz, False)
            if index >= csiz:
                raise Refused("fault", 12, place)
        elif code == PPT:
            if packets:
                raise Refused("fault", 9, place)
            read_ppt(f)
            headers += 1
        elif code in (PLT, COM):
            skip(f)
        elif not 0x30 <= code <= 0x3F:
            raise Refused("fault", 2, place)
        place = f.place


def part_line(data, place, csiz, tiles, packets, strict):
    f = first_marker(data, place, SOT)
    f.number(2)
    isot, psot, tpsot, _ = f.number(2), f.number(4), f.number(1), f.number(1)
    behind = f.place
    if isot >= tiles:
        raise Refused("fault", 7, place)
    if 1 <= psot <= 11:
        raise Refused("fault", 6, place)
    reached, headers = read_part_header(data, behind, csiz, packets)
    if headers is None:
        if strict:
            raise Refused("fault", 1, reached)
        return ["cut", isot, tpsot, reached]
    if psot == 0:
        final = marker(data, len(data) - 2) == EOC and len(data) - 2 >= behind
        end = len(data) - 2 if final else len(data)
    else:
        end = behind + psot - 12
    if reached > end:
        if strict:
            raise Refused("fault", 6, place)
        return ["cut", isot, tpsot, reached]
    if end > len(data):
        raise Refused("fault", 6, place)
    return ["whole", isot, tpsot, end, reached, end - reached, headers]


# ---- the two files ----

# stdin holds, for each codestream: the least length that it is cut to and its length (2 bytes each), the number of questions (1), its
# bytes, and the questions. A question is its kind (1), a place (4) and the other arguments of the call.
ENOUGH = 300, 300, 300, 64
stdin = bytearray()
stdout = []


def answer(line, *arguments):
    try:
        return ",".join(str(part) for part in line(*arguments))
    except Refused as refused:
        return str(refused)


def bits(*pairs):
    return b"".join(value.to_bytes(width, "big") for value, width in pairs)


# What is asked, and how the answer begins. Strict is on unless it is named.
def main(want, place=2, rows=None):
    asked = bits((1, 1), (place, 4), *[(row, 4) for row in rows]) if rows else bits((0, 1), (place, 4))
    return asked, want, main_line, (place, rows or ENOUGH)


def part(want, place=3, csiz=2, tiles=4, packets=False, strict=True):
    asked = bits((2, 1), (place, 4), (csiz, 2), (tiles, 4), (packets, 1), (strict, 1))
    return asked, want, part_line, (place, csiz, tiles, packets, strict)


def settings(want, index, csiz=2, segments=48):
    asked = bits((3, 1), (segments, 4), (csiz, 2), (index, 2))
    return asked, want, settings_line, (segments, csiz, index)


def packet(want, k, csiz=2, segments=48):
    return bits((4, 1), (segments, 4), (csiz, 2), (k, 4)), want, packet_line, (segments, csiz, k)


# asks of a codestream, cut to every length from `cut` on where that is given
def ask(data, *asked, cut=None):
    shortest = len(data) if cut is None else cut
    stdin.extend(bits((shortest, 2), (len(data), 2), (len(asked), 1)) + data)
    for question, want, line, arguments in asked:
        stdin.extend(question)
        for count in range(shortest, len(data) + 1):
            stdout.append(answer(line, data[:count], *arguments))
        begins = stdout[-1] == want or stdout[-1].startswith(want + ",")
        assert begins, (data.hex(), arguments, want, stdout[-1])


# strict on and off
def both(on, off=None, **named):
    return part(on, **named), part(off or on, strict=False, **named)


def ask_part(data, on, off=None, cut=None, **named):
    ask(data, *both(on, off, **named), cut=cut)


# ---- made bytes ----


def hexed(text):
    return bytes.fromhex(text)


# image 17 x 11 at (3, 2), tiles 8 x 6 at (1, 1), so 2 x 2 of them
def siz(sides=(17, 11, 3, 2, 8, 6, 1, 1), components=2 * ["070101"], csiz=None):
    csiz = len(components) if csiz is None else csiz
    lsiz = 38 + 3 * len(components)
    fields = [(lsiz, 2), (0, 2), *[(side, 4) for side in sides], (csiz, 2)]
    return hexed("FF51") + bits(*fields) + hexed("".join(components))


def start(**fields):
    return hexed("FF4F") + siz(**fields)


def cod(levels=0, flags=0, order=0, layers=1, width=2, height=1, transform=1, sizes="", length=12, mct=0):
    fields = bits((length, 2), (flags, 1), (order, 1), (layers, 2), (mct, 1))
    return hexed("FF52") + fields + bits((levels, 1), (width, 1), (height, 1), (0, 1), (transform, 1)) + hexed(sizes)


def coc(index, levels=0, flags=0, width=3, height=4, transform=0, sizes="", wide=1, length=9):
    fields = bits((length, 2), (index, wide), (flags, 1))
    return hexed("FF53") + fields + bits((levels, 1), (width, 1), (height, 1), (0, 1), (transform, 1)) + hexed(sizes)


def qcd(text="4840", sq=0x40, length=None):
    steps = hexed(text)
    return hexed("FF5C") + bits((3 + len(steps) if length is None else length, 2), (sq, 1)) + steps


def qcc(index, text="5058", sq=0x20, wide=1, length=None):
    steps = hexed(text)
    length = 3 + wide + len(steps) if length is None else length
    return hexed("FF5D") + bits((length, 2), (index, wide), (sq, 1)) + steps


def ppm(zppm, *packets, length=None):
    inside = bits((zppm, 1)) + b"".join(bits((len(p), 4)) + p for p in packets)
    return hexed("FF60") + bits((2 + len(inside) if length is None else length, 2)) + inside


def segment(code, body="", length=None):
    inside = hexed(body)
    return bits((0xFF, 1), (code, 1), (2 + len(inside) if length is None else length, 2)) + inside


def sot(psot, tile=1, tpsot=5, tnsot=9, length=10):
    return hexed("FF90") + bits((length, 2), (tile, 2), (psot, 4), (tpsot, 1), (tnsot, 1))


END = hexed("FF90")
SETS = cod() + qcd()


# a main header of two components that ends at an SOT; what is given stands before COD and QCD
def header(*given, **fields):
    return start(**fields) + b"".join(given) + SETS + END


# a segment behind SIZ; COD and QCD follow it where it is accepted
def ask_main(given, want):
    ask(start() + given + (SETS if want.startswith("main") else b"") + END, main(want))


# a tile-part at place 3, with all bytes behind SOT
def tile_part(*given, psot=None, **fields):
    behind = b"".join(given)
    return b"abc" + sot(12 + len(behind) if psot is None else psot, **fields) + behind


# ---- main headers: the marker ----

ask(b"", main("fault,1,0", 0), main("fault,1,2"), main("fault,1,4294967295", 2**32 - 1))
ask(b"\xff", main("fault,1,0", 0), main("fault,1,1", 1))
ask(hexed("FE51"), main("fault,1,0", 0))
ask(hexed("FF51"), main("short,5,2,81", 0), main("fault,1,1", 1), main("fault,1,3", 3))
ask(
    header(),
    main("main,2,4,0,48,69"),
    main("fault,3,0,81", 0),
    main("fault,1,1", 1),
    main("fault,3,69,81", 69),
    main("fault,1,70", 70),
    main("fault,1,71", 71),
    main("fault,1,72", 72),
)
ask(b"12345" + header()[2:], main("main,2,4,0,51,72", 5), main("fault,1,2"))
ask(header()[2:], main("main,2,4,0,46,67", 0))
ask(siz() + header(), main("fault,3,46,81", 46), main("main,2,4,0,94,115", 48), main("fault,2,46", 0))

# ---- SIZ ----

ask(start(sides=(17, 11, 17, 2, 8, 6, 1, 1)), main("value,5,16,81"))
ask(start(sides=(17, 11, 16, 11, 20, 20, 1, 1)), main("value,5,20,81"))
ask(start(components=[]), main("value,5,40,81"))
ask(start(components=["1E0101", "1F0101"]), main("value,5,45,81"))
ask(start(components=["9E0101", "1E0101"]) + SETS + END, main("main,2,4"))
ask(start(components=["9F0001", "070101"]), main("value,5,42,81"))
ask(start(components=["070001", "1F0101"]), main("value,5,45,81"))
ask(start(components=["070101"], csiz=2), main("short,5,45,81"))
for sides in (
    (17, 11, 3, 2, 0, 6, 1, 1),
    (17, 11, 3, 2, 8, 0, 1, 1),
    (17, 11, 3, 2, 8, 6, 17, 1),
    (17, 11, 3, 2, 8, 6, 1, 11),
):
    ask(start(sides=sides, components=["070001"]), main("fault,10,2"))
for sides in (
    (17, 11, 3, 2, 8, 6, 4, 1),
    (17, 11, 3, 2, 8, 6, 1, 3),
    (17, 11, 3, 2, 2, 6, 1, 1),
    (17, 11, 3, 2, 8, 1, 1, 1),
    (17, 11, 3, 2, 2**32 - 1, 6, 1, 1),
    (17, 11, 3, 2, 8, 2**32 - 1, 1, 1),
):
    ask(start(sides=sides, components=["070001"]), main("fault,8,2"))
ask(header(sides=(17, 11, 3, 2, 3, 2, 1, 1)), main("main,2,30"))
ask(header(sides=(17, 11, 3, 2, 2**32 - 2, 2**32 - 2, 1, 1)), main("main,2,1"))
ask(start(components=["070101", "070100"]), main("fault,12,2", rows=(0, 0, 0, 0)))
ask(start(components=["070001", "070101"]), main("fault,12,2"))
full = (2**32 - 1, 2**32 - 1, 0, 0, 65536, 65536, 0, 0)
ask(start(sides=full, components=["070001"]), main("fault,12,2"))
ask(start(sides=full), main("fault,11,2", rows=(0, 0, 0, 0)))
ask(start(sides=(2**32 - 1, 2**32 - 1, 0, 0, 65536, 65537, 0, 0)), main("fault,23"))
most = (2**32 - 1, 1, 0, 0, 1, 1, 0, 0)
limit = 2**32 - 1
ask(
    header(sides=most, components=["070101"]),
    main("main,1,4294967295", rows=(1, limit, limit, 0)),
    main("fault,23", rows=(1, limit - 1, limit, 0)),
    main("fault,23", rows=(1, limit, limit - 1, 0)),
)
ask(header(sides=most), main("fault,23", rows=(limit, limit, limit, limit)))
ask(header(sides=(65537, 65535, 0, 0, 1, 1, 0, 0), components=["070101"]), main("main,1,4294967295", rows=(1, limit, limit, 0)))

# ---- room ----

ask(
    header(),
    main("main,2,4,0", rows=(2, 4, 8, 0)),
    main("fault,23", rows=(1, 4, 8, 0)),
    main("fault,23", rows=(2, 3, 8, 0)),
    main("fault,23", rows=(2, 4, 7, 0)),
    main("fault,23", rows=(0, 0, 0, 0)),
)
ask(start(), main("fault,1,48", rows=(2, 4, 8, 0)), main("fault,23", rows=(2, 4, 7, 9)))
ask(start() + hexed("FFD9"), main("fault,2,48", rows=(2, 4, 8, 0)), main("fault,23", rows=(1, 4, 8, 0)))
ask(start() + hexed("FF52"), main("short,5,50,82", rows=(2, 4, 8, 0)), main("fault,23", rows=(2, 3, 8, 0)))
ask(start() + END, main("fault,4,48,82", rows=(2, 4, 8, 0)), main("fault,23", rows=(2, 4, 7, 0)))

# ---- the markers of a main header ----

for code in (0x4F, 0x50, SIZ, PLM, PLT, POC, PPT, 0x2F, 0x40, 0x92, SOD, EOC, 0x00, 0xFF):
    ask_main(segment(code), "fault,2,48")
ask(header(hexed("FF30"), hexed("FF3F"), hexed("FF37")), main("main,2,4,0,48,75"))
ask(header(hexed("FF30")), main("main,2,4,0,48,71"))
ask(header(hexed("FF30FE")), main("fault,1,50"))
ask(header(b"\xfe"), main("fault,1,48"))
ask(start() + SETS, main("fault,1,69"))
ask(start() + SETS + b"\xff", main("fault,1,69"))
ask(start() + b"\xff", main("fault,1,48"))

# ---- COD and COC of a main header ----

for given, want in (
    (cod(order=5), "value,5,53,82"),
    (cod(order=4), "main"),
    (cod(layers=0), "value,5,54,82"),
    (cod(layers=33), "value,5,54,82"),
    (cod(layers=32, mct=7), "main"),
    (cod(levels=33), "value,5,57,82"),
    (cod(width=9, height=0), "value,5,58,82"),
    (cod(width=8, height=0), "main"),
    (cod(width=0, height=9), "value,5,59,82"),
    (cod(width=5, height=4), "value,5,59,82"),
    (cod(width=4, height=4), "main"),
    (cod(width=0, height=8), "main"),
    (cod(transform=2), "value,5,61,82"),
    (cod(length=0), "main"),
    (cod(length=99), "main"),
    (cod(flags=1, sizes="00"), "main"),
    (cod(flags=1, levels=2, sizes="445566", length=0), "main"),
    (cod(flags=1, levels=2, sizes="4455"), "fault,1,65"),
    (cod(flags=0, sizes="44"), "fault,1,62"),
    (cod(flags=0xFE), "main"),
    (cod(order=9, layers=0), "value,5,53,82"),
    (coc(0), "main"),
    (coc(1, length=0), "main"),
    (coc(2), "value,5,52,83"),
    (coc(255), "value,5,52,83"),
    (coc(2, levels=99), "value,5,52,83"),
    (coc(1, levels=33), "value,5,54,83"),
    (coc(1, width=9), "value,5,55,83"),
    (coc(1, width=0, height=9), "value,5,56,83"),
    (coc(1, width=3, height=6), "value,5,56,83"),
    (coc(1, transform=255), "value,5,58,83"),
    (coc(1, flags=1, sizes="77"), "main"),
    (coc(1, flags=1), "fault,1,60"),
):
    ask_main(given, want)

# ---- QCD and QCC of a main header ----

for given, want in (
    (qcd(length=2), "value,5,50,92"),
    (qcd(length=0, sq=3), "value,5,50,92"),
    (qcd(sq=0xE3), "value,5,52,92"),
    (qcd(sq=31), "value,5,52,92"),
    (qcd(sq=0x61, length=3), "main"),
    (qcd(sq=0x61, length=99), "main"),
    (qcd("484948", sq=0x21), "fault,1,55"),
    (qcd("484948", sq=0x22), "fault,1,55"),
    (qcd("4849FF", sq=0x22), "fault,2,55"),
    (qcd(), "main"),
    (qcd("48", length=200), "short,5,56,92"),
    (qcd("48", sq=2, length=200), "short,5,55,92"),
    (qcc(0), "main"),
    (qcc(2), "value,5,52,93"),
    (qcc(2, sq=3), "value,5,52,93"),
    (qcc(2, length=3), "value,5,50,93"),
    (qcc(0, length=3), "value,5,50,93"),
    (qcc(1, sq=0xE3), "value,5,53,93"),
    (qcc(1, sq=0x41, length=4), "main"),
    (qcc(1, "484948", sq=0x22), "fault,1,56"),
):
    ask_main(given, want)

# an index of two bytes
many = start(components=257 * ["070101"])
ask(
    many + SETS + coc(256, wide=2, levels=1) + coc(0, wide=2) + qcc(256, "08101820", sq=0, wide=2) + END,
    main("main,257,4", rows=(257, 4, 1028, 0)),
    main("fault,23", rows=(256, 4, 1028, 0)),
    main("fault,23", rows=(257, 4, 1027, 0)),
    settings("settings,0,1,5,6,0,15,15,0,0,4,1", 256, 257, 813),
    settings("settings,0,0,4,3,1,15,15,0,2,2,9", 255, 257, 813),
    settings("settings,0,0,5,6,0,15,15,0,2,2,9", 0, 257, 813),
)
ask(
    many + SETS + coc(257, wide=2) + END,
    main("value,5,838,83", rows=(257, 4, 1028, 0)),
)
wide_index = b"abc" + SETS + qcc(256, "", wide=2) + qcc(1, wide=2, length=4) + qcd("70") + END
ask(wide_index, settings("settings,0,0,4,3,1,15,15,0,1,0,0,0", 256, 257, 3), settings("settings,0,0,4,3,1,15,15,0,2,2,9", 1, 257, 3))
narrow_index = b"abc" + SETS + coc(255, levels=1) + qcc(0) + END
ask(narrow_index, settings("settings,0,1,5,6,0,15,15,0,2,2,9", 255, 256, 3), settings("settings,0,0,4,3,1,15,15,0,1,2,10", 0, 256, 3))

# ---- segments that are skipped ----

for code in (RGN, TLM, COM):
    ask(header(segment(code, "FF90FF"), segment(code)), main(f"main,2,4,0,48,{69 + 7 + 4}"))
    ask_main(segment(code, length=1), f"value,5,50,{code}")
    ask_main(segment(code, length=0), f"value,5,50,{code}")
    ask_main(segment(code, length=65535), f"short,5,52,{code}")
    ask(header(segment(code, length=24)), main("fault,1,74"))
    ask(start() + bits((0xFF, 1), (code, 1), (0, 1)), main(f"short,5,50,{code}"))

# CRG: never refused
ask(header(segment(CRG, "FF9000")), main("main,2,4,0,48,76"))
ask(header(segment(CRG)), main("main,2,4,0,48,73"))
ask(header(segment(CRG, length=0)), main("main,2,4,0,48,73"))
ask(header(segment(CRG, length=1)), main("main,2,4,0,48,73"))
ask(header(segment(CRG, length=65535)), main("main,2,4,0,48,73"))
ask(header(segment(CRG, "0102", length=65535)), main("fault,1,52"))
ask(header(segment(CRG, length=23)), main("fault,4,73,82"))
ask(header(segment(CRG, length=24)), main("fault,1,74"))
ask(start() + SETS + segment(CRG, length=2), main("fault,1,73"))
ask(start() + SETS + segment(CRG, length=3), main("fault,1,73"))
ask(start() + SETS + segment(CRG, "0102", length=4), main("fault,1,75"))
ask(start() + SETS + segment(CRG, "FF90", length=5), main("main,2,4,0,48,73"))
ask(start() + SETS + hexed("FF6300"), main("fault,1,71"))
ask(start() + SETS + hexed("FF63"), main("fault,1,71"))

# ---- the end of a main header ----

ask(start() + END, main("fault,4,48,82"))
ask(start() + cod() + END, main("fault,4,62,92"))
ask(start() + qcd() + END, main("fault,4,55,82"))
ask(start() + coc(0) + coc(1) + qcd() + END, main("fault,4,77,82"))
ask(start() + cod() + qcc(0) + qcc(1) + END, main("fault,4,78,92"))
ask(start() + qcd("") + END, main("fault,4,53,82"))
ask(start() + cod(levels=1) + qcc(0, "") + qcc(1, "08") + END, main("fault,4,75,92"))
ask(start() + cod(), main("fault,1,62"))
ask(start() + qcd() + hexed("FF93"), main("fault,2,55"))
for given, want in (
    (cod() + qcd(""), "fault,13"),
    (cod() + qcd("", sq=2), "fault,13"),
    (cod() + qcd("", sq=2, length=4), "fault,13"),
    (cod(levels=5) + qcd(""), "fault,13"),
    (cod() + qcd("", sq=1) + hexed("0000"), "main"),
    (cod(levels=1) + qcd("081018"), "fault,14"),
    (cod(levels=1) + qcd("08101820"), "main"),
    (cod(levels=1) + qcd("000100020003", sq=2), "fault,14"),
    (cod(levels=1) + qcd("0001000200030004", sq=2), "main"),
    (cod(levels=1) + qcd("0001", sq=1), "main"),
    (cod(levels=32) + qcd("0001", sq=1), "main"),
    (cod(levels=32) + qcd(96 * "08"), "fault,14"),
    (cod(levels=32) + qcd(97 * "08"), "main"),
    (cod(levels=32) + qcd(98 * "0801", sq=2), "main"),
    (cod() + qcd("08"), "main"),
    (cod(levels=1) + qcd("08101820") + qcc(0, "") + qcc(1, "08"), "fault,13"),
    (cod(levels=1) + qcd("08101820") + qcc(0, "08") + qcc(1, ""), "fault,14"),
    (cod(levels=1) + qcd("08101820") + qcc(1, ""), "fault,13"),
    (cod(levels=1) + qcd("08101820") + qcc(1, "08"), "fault,14"),
    (cod(levels=1) + qcd("08") + qcc(0, "08101820") + qcc(1, "08101820"), "main"),
    (cod(levels=1) + qcd("08") + qcc(0, "08101820") + qcc(1, "0810", sq=1), "main"),
    (cod(levels=1) + qcd("") + qcc(0, "08101820"), "fault,13"),
    (cod(levels=0) + qcd("08") + coc(1, levels=1), "fault,14"),
    (cod(levels=1) + qcd("08") + coc(1) + coc(0), "main"),
    (coc(0) + coc(1) + qcd("08") + cod(levels=1), "main"),
    (qcc(1, "") + qcc(1, "08") + cod() + qcd("08"), "main"),
    (qcc(1, "08") + qcc(1, "") + cod() + qcd("08"), "fault,13"),
    (cod(levels=1) + cod() + qcd("") + qcd("08"), "main"),
    (cod() + cod(levels=1) + qcd("08"), "fault,14"),
):
    at = 48 + len(given)
    tail = ",2,4,0,48" if want == "main" else ""
    ask(start() + given + END, main(f"{want}{tail},{at}"))

# ---- settings ----

# the last COC wins over a later COD; flags are bit 0 of COC and the others of the last COD
given = coc(1, flags=0xFF, levels=1, sizes="2132") + cod(flags=0x04, levels=3, transform=0) + qcd("000F", sq=0x62)
later = coc(1, flags=0x06, levels=2) + cod(flags=0x03, sizes="65") + qcd("98010203040506", sq=0xA0)
ask(
    start() + given + later + END,
    main("main,2,4,0,48"),
    settings("settings,3,0,4,3,1,5,6,0,5,7,19,0", 0),
    settings("settings,2,2,5,6,0,15,15,0,5,7,19,0", 1),
    settings("settings,3,0,4,3,1,5,6,0,5,7,19,0", 2),
    settings("settings,3,0,4,3,1,5,6", 65535),
)
ask(
    start() + given + END,
    main("fault,14"),
    settings("settings,4,3,4,3,0,15,15,2,3,1,0,15", 0),
    settings("settings,5,1,5,6,0,1,2,2,3,1,0,15", 1),
)
ask(
    start() + coc(0, flags=0xFF, sizes="9A") + END,
    main("fault,4,60,82"),
    settings("settings,1,0,5,6,0,10,9,0,0,0,0,0", 0),
    settings("settings,0,0,2,2,0,0,0,0,0,0,0,0", 1),
)
ask(
    start() + qcc(0, "FFFF", sq=0xE1) + cod(flags=0xFE) + qcd("0801", sq=2) + qcc(1, 99 * "F8", sq=0) + END,
    main("main,2,4,0,48"),
    settings("settings,254,0,4,3,1,15,15,1,7,1,31,2047", 0),
    settings("settings,254,0,4,3,1,15,15,0,0,99,31,0", 1),
)
# what stands before a refused segment or a missing marker is applied, and nothing behind
late = cod(levels=4) + qcd("70")
for stop in (b"\xfe", hexed("FFD9"), coc(2), cod(layers=0), qcd(length=2), ppm(0, length=1), segment(COM, length=0), END):
    ask(
        start() + cod(levels=2, flags=2) + qcd("38") + stop + late + END,
        settings("settings,2,2,4,3,1,15,15,0,2,1,7,0", 0),
        settings("settings,2,2,4,3,1,15,15,0,2,1,7,0", 1),
    )
for passed in (segment(CRG, length=1), hexed("FF3F"), ppm(0, b"", b"a"), segment(TLM, "00")):
    ask(start() + cod(levels=2) + qcd("38") + passed + late + END, settings("settings,0,4,4,3,1,15,15,0,2,1,14,0", 1))
ask(header(), settings("settings,0,0,2,2,0,0,0,0,0,0,0,0", 0, 2, 49), settings("settings,0,0,2,2", 0, 2, 2**32 - 1))
ask(header(), settings("settings,0,0,2,2,0,0,0,0,2,2,9", 0, 2, 62), settings("settings,0,0,4,3,1,15,15,0,2,2,9", 0, 1))

# ---- PPM ----

two = ppm(3, b"ab", b"")
ask(
    header(two),
    main("main,2,4,2,48,84", rows=(2, 4, 8, 2)),
    main("fault,23", rows=(2, 4, 8, 1)),
    main("fault,23", rows=(2, 4, 8, 0)),
    packet("packet,3,57,2", 0),
    packet("packet,3,63,0", 1),
    packet("none", 2),
    packet("none", 2**32 - 1),
)
ask(header(ppm(9)), main("main,2,4,0,48,74", rows=(2, 4, 8, 0)), packet("none", 0))
ask(header(), main("main,2,4,0", rows=(2, 4, 8, 0)), packet("none", 0))
# a later segment passes the room
ask(
    header(two, segment(COM, "00"), ppm(1, b"c"), ppm(0), ppm(3, b"", b"def")),
    main("main,2,4,5", rows=(2, 4, 8, 5)),
    main("fault,23", rows=(2, 4, 8, 4)),
    main("fault,23", rows=(2, 4, 8, 3)),
    main("fault,23", rows=(2, 4, 8, 2)),
    packet("packet,1,77,1", 0),
    packet("packet,3,57,2", 1),
    packet("packet,3,63,0", 2),
    packet("packet,3,92,0", 3),
    packet("packet,3,96,3", 4),
    packet("none", 5),
)
ask(
    header(ppm(255, b"x"), ppm(0, b"yy"), ppm(128, b""), ppm(0, b"", b"zzz"), ppm(127, b"w")),
    main("main,2,4,6"),
    packet("packet,0,67,2", 0),
    packet("packet,0,87,0", 1),
    packet("packet,0,91,3", 2),
    packet("packet,127,103,1", 3),
    packet("packet,128,78,0", 4),
    packet("packet,255,57,1", 5),
    packet("none", 6),
)
# the whole segment before 23, 23 before what follows, and what follows where the packets fit
ask(
    start() + two + hexed("FFD9"),
    main("fault,23", rows=(2, 4, 8, 1)),
    main("fault,2,63", rows=(2, 4, 8, 2)),
)
ask(start() + two, main("fault,23", rows=(2, 4, 8, 1)), main("fault,1,63", rows=(2, 4, 8, 2)))
ask(start() + two + END, main("fault,23", rows=(2, 4, 8, 1)), main("fault,4,63,82", rows=(2, 4, 8, 2)))
ask(header(hexed("FFD9"), two), main("fault,2,48", rows=(2, 4, 8, 0)))
cut_last = ppm(3, b"ab", b"cd")
ask(
    header(cut_last[:-5] + hexed("0000000363")),
    main("short,5,63,96", rows=(2, 4, 8, 0)),
)
ask(header(ppm(3, b"ab")[:-1] + hexed("FF"), ppm(3, b"ab", length=1)), main("fault,23", rows=(2, 4, 8, 0)), main("value,5,61,96"))
for given, want in (
    (segment(PPM, length=0), "value,5,50,96"),
    (segment(PPM, length=1), "value,5,50,96"),
    (segment(PPM), "short,5,52,96"),
    (segment(PPM, "07"), "main,2,4,0"),
    (segment(PPM, "0700"), "short,5,53,96"),
    (segment(PPM, "07000000"), "short,5,53,96"),
    (segment(PPM, "0700000000"), "main,2,4,1"),
    (segment(PPM, "0700000001"), "short,5,57,96"),
    (segment(PPM, "070000000161"), "main,2,4,1"),
    (segment(PPM, "07FFFFFFFF61"), "short,5,57,96"),
    (segment(PPM, "070000000161000000"), "short,5,58,96"),
    (segment(PPM, "0700000000" + "00000000"), "main,2,4,2"),
    (segment(PPM, "07", length=65535), "short,5,52,96"),
    (segment(PPM, "0700000000", length=6), "short,5,53,96"),
    (segment(PPM, "070000000000", length=7), "fault,1,57"),
):
    ask_main(given, want)

# ---- a main header with every segment, cut at every byte ----

whole = b"".join(
    (
        start(),
        cod(flags=1, levels=1, sizes="4355"),
        segment(COM, "000161"),
        coc(1, flags=1, levels=2, sizes="112233"),
        qcd("08101820"),
        hexed("FF30"),
        qcc(0, "0010002000300040", sq=2),
        qcc(1, "7001", sq=0x21),
        segment(RGN, "010007"),
        segment(TLM, "00500000000010"),
        segment(CRG, "00010002"),
        ppm(1, b"ab", b"", b"FF"),
        ppm(0, b"c"),
        hexed("FF3F"),
        sot(0),
    )
)
at = len(whole) - 12
ask(whole, main(f"main,2,4,4,48,{at}"), settings("settings,1,1,4,3,1,3,4,2,0,4,0,16", 0), settings("settings,1,2", 1), cut=0)

# ---- tile-parts: the marker and SOT ----

ask_part(b"", "fault,1,0", place=0)
ask_part(b"abc\xff", "fault,1,3")
ask_part(b"abc\xfe\x90", "fault,1,3")
ask_part(b"abc\xff\x90", "short,5,5,144")
ask_part(b"abc\xff\x93", "fault,3,3,144")
ask_part(b"abc" + siz(), "fault,3,3,144")
empty = tile_part(hexed("FF93"))
ask(
    empty,
    *both("whole,1,5,17,17,0,0"),
    *both("fault,1,0", place=0),
    *both("fault,3,15,144", place=15),
    *both("fault,1,17", place=17),
    *both("fault,1,18", place=18),
    *both("fault,1,4294967295", place=2**32 - 1),
    *both("whole,1,5", tiles=2),
    *both("fault,7,3", tiles=1),
    *both("fault,7,3", tiles=0),
)
ask_part(empty[3:], "whole,1,5,14,14,0,0", place=0)
ask_part(hexed("FFD9") + empty + empty, "whole,1,5,36,36,0,0", place=22)
ask_part(tile_part(hexed("FF93"), length=0), "whole,1,5,17,17,0,0")
ask_part(tile_part(hexed("FF93"), length=65535, tpsot=255, tnsot=0), "whole,1,255,17,17,0,0")
ask_part(empty[:15], "fault,1,15", "cut,1,5,15", cut=3)

# the tile's index, after the whole SOT and before its length
ask_part(empty[:14], "short,5,14,144", tiles=1)
ask_part(empty[:15], "fault,7,3", tiles=1)
ask_part(tile_part(hexed("FF93"), psot=1), "fault,7,3", tiles=1)
ask_part(tile_part(b"\xfe\xfe"), "fault,7,3", tiles=1)
ask_part(tile_part(hexed("FF90")), "fault,7,3", tiles=1)
top = tile_part(hexed("FF93"), tile=65535)
ask(
    top,
    *both("whole,65535,5", tiles=65536),
    *both("fault,7,3", tiles=65535),
    *both("whole,65535,5", tiles=2**32 - 1),
)

# ---- tile-parts: length ----

for psot in (1, 2, 11):
    ask_part(tile_part(hexed("FF93"), psot=psot), "fault,6,3")
    ask_part(tile_part(hexed("FF90"), psot=psot), "fault,6,3")
    ask_part(tile_part(psot=psot), "fault,6,3")
ask_part(tile_part(hexed("FF93"), psot=12), "fault,6,3", "cut,1,5,17")
ask_part(tile_part(hexed("FF93"), psot=13), "fault,6,3", "cut,1,5,17")
ask_part(tile_part(hexed("FF93"), psot=14), "whole,1,5,17,17,0,0")
ask_part(tile_part(hexed("FF93"), psot=15), "fault,6,3")
ask_part(tile_part(hexed("FF93"), psot=2**32 - 1), "fault,6,3")
ask_part(tile_part(hexed("FF93616263")), "whole,1,5,20,17,3,0")
ask_part(tile_part(hexed("FF93616263"), psot=16), "whole,1,5,19,17,2,0")
ask_part(tile_part(hexed("FF93616263"), psot=18), "fault,6,3")
ask_part(tile_part(hexed("FF93FFD9")), "whole,1,5,19,17,2,0")
ask_part(tile_part(hexed("FF93FF93")), "whole,1,5,19,17,2,0")
ask_part(tile_part(hexed("FFD9"), psot=12), "whole,1,5,15,15,0,0")
ask_part(tile_part(hexed("FFD9"), psot=13), "whole,1,5,16,15,1,0")
ask_part(tile_part(hexed("FFD9"), psot=14), "whole,1,5,17,15,2,0")
ask_part(tile_part(hexed("FFD9"), psot=15), "fault,6,3")
ask_part(tile_part(psot=12), "fault,1,15", "cut,1,5,15")
ask_part(tile_part(psot=99), "fault,1,15", "cut,1,5,15")
ask_part(tile_part(b"\xff", psot=12), "fault,1,15", "cut,1,5,15")
comment = segment(COM, "0001")
ask_part(tile_part(comment, hexed("FF93"), psot=17), "fault,6,3", "cut,1,5,23")
ask_part(tile_part(comment, hexed("FF93"), psot=19), "fault,6,3", "cut,1,5,23")
ask_part(tile_part(comment, hexed("FFD9"), psot=17), "fault,6,3", "cut,1,5,21")
ask_part(tile_part(comment, hexed("FFD9"), psot=18), "whole,1,5,21,21,0,0")
ask_part(tile_part(comment, b"\xfe", psot=13), "fault,1,21", "cut,1,5,21")
ask_part(tile_part(comment, hexed("FF90"), psot=13), "fault,2,21")
ask_part(tile_part(comment, hexed("FF5C0002"), psot=13), "value,5,23,92")

# length 0: to the end, less a final EOC behind SOT
ask_part(tile_part(hexed("FF93"), psot=0), "whole,1,5,17,17,0,0")
ask_part(tile_part(hexed("FF93616263"), psot=0), "whole,1,5,20,17,3,0")
ask_part(tile_part(hexed("FF93616263FFD9"), psot=0), "whole,1,5,20,17,3,0")
ask_part(tile_part(hexed("FF93FFD9"), psot=0), "whole,1,5,17,17,0,0")
ask_part(tile_part(hexed("FF93FFD9FFD9"), psot=0), "whole,1,5,19,17,2,0")
ask_part(tile_part(hexed("FF93FFD961"), psot=0), "whole,1,5,20,17,3,0")
ask_part(tile_part(hexed("FF93FFD8"), psot=0), "whole,1,5,19,17,2,0")
ask_part(tile_part(hexed("FF93D9"), psot=0), "whole,1,5,18,17,1,0")
ask_part(tile_part(hexed("FFD9"), psot=0), "whole,1,5,15,15,0,0")
ask_part(tile_part(hexed("FFD96162"), psot=0), "whole,1,5,19,15,4,0")
ask_part(tile_part(hexed("FFD96162FFD9"), psot=0), "whole,1,5,19,15,4,0")
ask_part(tile_part(hexed("FFD9FFD9"), psot=0), "whole,1,5,17,15,2,0")
ask_part(tile_part(psot=0), "fault,1,15", "cut,1,5,15")
ask_part(tile_part(psot=0, tpsot=255, tnsot=0xD9), "fault,1,15", "cut,1,255,15")
ask_part(tile_part(b"\xd9", psot=0, tnsot=255), "fault,1,15", "cut,1,5,15")
ask_part(tile_part(segment(COM, "FFD9"), psot=0), "fault,1,21", "cut,1,5,21")
ask_part(tile_part(segment(COM, "FFD9"), hexed("FFD9"), psot=0), "whole,1,5,21,21,0,0")
ask_part(tile_part(comment, segment(PPT, "00"), hexed("FFD9"), psot=0), "whole,1,5,26,26,0,1")
ask_part(tile_part(hexed("FF93") + 9 * b"\xff\xd9", psot=0), "whole,1,5,33,17,16,0")
ask_part(tile_part(hexed("FF93") + empty[3:], psot=0), "whole,1,5,31,17,14,0")

# ---- tile-parts: segments ----

body = hexed("FF936263")
for code in (0x4F, SIZ, TLM, PLM, RGN, POC, PPM, CRG, 0x2F, 0x40, SOT, 0x91, 0x92, 0x00, 0xFF):
    ask_part(tile_part(segment(code), body), "fault,2,15")
for given, want in (
    (hexed("FF30FF3FFF36"), "whole,1,5,25,23,2,0"),
    (segment(PLT, "00FF93") + segment(PLT), "whole,1,5,30,28,2,0"),
    (segment(COM, "FF93FF") + segment(COM), "whole,1,5,30,28,2,0"),
    (segment(PLT, length=1), "value,5,17,88"),
    (segment(COM, length=0), "value,5,17,100"),
    (segment(PLT, length=7), "short,5,19,88"),
    (segment(COM, length=65535), "short,5,19,100"),
    (cod(flags=1, sizes="11", length=0), "whole,1,5,34,32,2,0"),
    (cod(layers=33), "value,5,21,82"),
    (cod(levels=33), "value,5,24,82"),
    (cod(levels=5), "whole"),
    (qcd(""), "whole"),
    (qcd(length=2), "value,5,17,92"),
    (qcd(sq=3), "value,5,19,92"),
    (coc(0) + coc(1), "whole,1,5,41,39,2,0"),
    (coc(2), "fault,12,15"),
    (coc(255, flags=1, sizes="11"), "fault,12,15"),
    (coc(2) + hexed("FF90"), "fault,12,15"),
    (comment + coc(2), "fault,12,21"),
    (coc(2, levels=33), "value,5,21,83"),
    (coc(2, transform=2), "value,5,25,83"),
    (coc(2, levels=9, flags=1, sizes="11"), "short,5,31,83"),
    (qcc(0, "") + qcc(1), "whole,1,5,33,31,2,0"),
    (qcc(2), "fault,12,15"),
    (qcc(255, ""), "fault,12,15"),
    (comment + qcc(2, sq=1), "fault,12,21"),
    (qcc(2, sq=3), "value,5,20,93"),
    (qcc(2, length=3), "value,5,17,93"),
    (qcc(2, length=11), "short,5,27,93"),
    (qcc(2, "4848", sq=0x22, length=200), "short,5,27,93"),
    (segment(PPT, "00"), "whole,1,5,24,22,2,1"),
    (segment(PPT, "07FF93") + comment + segment(PPT, "0701") + segment(PPT, "00"), "whole,1,5,43,41,2,3"),
    (segment(PPT), "value,5,17,97"),
    (segment(PPT, length=0), "value,5,17,97"),
    (segment(PPT, "07", length=9), "short,5,20,97"),
    (segment(PPT, "07", length=65535), "short,5,20,97"),
):
    ask_part(tile_part(given, body), want)

ask_part(tile_part(qcd("484948", sq=2), body), "fault,1,22", "cut,1,5,22")

# strict off refuses what is short or wrong all the same
ask_part(tile_part(hexed("FF5200")), "short,5,17,82")
ask_part(tile_part(hexed("FF58")), "short,5,17,88")
ask_part(tile_part(hexed("FF61000300")), "fault,1,20", "cut,1,5,20")

# an index of two bytes, and the number of components
ask_part(tile_part(coc(256, wide=2), qcc(256, wide=2), body), "whole,1,5,40,38,2,0", csiz=257)
ask_part(tile_part(coc(257, wide=2), body), "fault,12,15", csiz=257)
ask_part(tile_part(qcc(65535, wide=2), body), "fault,12,15", csiz=65535)
ask_part(tile_part(qcc(1, wide=2, length=4), body), "value,5,17,93", csiz=257)
ask_part(tile_part(qcc(1, wide=2, length=5), body), "fault,1,22", "cut,1,5,22", csiz=257)
ask_part(tile_part(coc(255), qcc(255), body), "whole", csiz=256)
ask_part(tile_part(coc(1), body), "fault,12,15", csiz=1)
ask_part(tile_part(qcc(1), body), "fault,12,15", csiz=1)

# kept packets: PPT is refused before its bytes, and after what stands before it
ask_part(tile_part(segment(PPT, "00"), body), "fault,9,15", packets=True)
ask_part(tile_part(hexed("FF61")), "fault,9,15", packets=True)
ask_part(tile_part(hexed("FF610000")), "fault,9,15", packets=True)
ask_part(tile_part(comment, segment(PPT, "00"), psot=13), "fault,9,21", packets=True)
ask_part(tile_part(coc(2), segment(PPT, "00"), body), "fault,12,15", packets=True)
ask_part(tile_part(hexed("FF90"), segment(PPT, "00"), body), "fault,2,15", packets=True)
ask_part(tile_part(hexed("FF93"), segment(PPT, "00")), "whole,1,5,22,17,5,0", packets=True)
ask_part(tile_part(segment(PPT, "00"), body), "fault,7,3", packets=True, tiles=1)
ask_part(tile_part(comment, body), "whole,1,5,25,23,2,0", packets=True)

# ---- a tile-part with every segment, cut at every byte ----

whole = tile_part(
    cod(flags=1, levels=1, sizes="4355"),
    segment(PLT, "000102"),
    coc(1, flags=1, levels=1, sizes="1122"),
    qcd("08101820"),
    hexed("FF31"),
    qcc(0, "00100020", sq=2),
    segment(PPT, "00AABB"),
    qcc(1, "7001", sq=0x21),
    segment(PPT, "01"),
    comment,
    hexed("FF93"),
    b"body",
)
ask_part(whole, f"whole,1,5,{len(whole)},{len(whole) - 4},4,2", cut=0)
whole = tile_part(segment(COM, "61"), segment(PPT, "02FF"), hexed("FF936162FFD9"), psot=0)
ask_part(whole, "whole,1,5,30,28,2,1", cut=0)

# ---- real codestreams, of pictures with few colours ----

# OpenJPEG 2.5.0: 40 x 30, -t 20,16 -n 3
tiled = hexed(
    "ff4fff51002f0000000000280000001e0000000000000000000000140000001000000000000000000003070101070101070101ff52000c000000010102040400"
    "01ff5c000a4040484850484850ff640025000143726561746564206279204f70656e4a5045472076657273696f6e20322e352e30ff90000a0000000000170001"
    "ff93808080808080808080ff90000a0001000000290001ff93c0f84717d20e04a1eabf8080c03a1014178080c03a18141b278080ff90000a0002000000170001"
    "ff93808080808080808080ff90000a0003000000290001ff93c0f84717d20e04a1eabf8080c03a1014178080c03a18141b378080ffd9"
)
# OpenJPEG 2.5.0: 37 x 23, -n 4 -I -r 4,2 -c [64,64],[32,32] -SOP -EPH -b 32,16 -p RPCL -PLT
layered = hexed(
    "ff4fff510029000000000025000000170000000000000000000000250000001700000000000000000001070101ff5200100702000200030302000033445566ff"
    "5c001742673867506750676850055005504757d357d35762ff640025000143726561746564206279204f70656e4a5045472076657273696f6e20322e352e30ff"
    "90000a0000000000880001ff58000b001509120911091109ff93ff9100040000c0fb0240ff921bd5d3d0fa7af2457fff910004000180ff92ff9100040002c00f"
    "8060ff92158863c20463ff910004000380ff92ff9100040004c07c6140ff92268ef59721ff910004000580ff92ff9100040006c03e0140ff9240346a653fff91"
    "0004000780ff92ffd9"
)
# OpenJPEG 2.5.0: 40 x 30, -n 2 -TP R -TLM -d 3,2 -T 1,1 -t 30,20 -C "a comment" -M 45
parted = hexed(
    "ff4fff51002f00000000002b0000002000000003000000020000001e0000001400000001000000010003070101070101070101ff52000c00000001010104042d"
    "01ff5c00074040484850ff55002c00500000000020000000001b010000002101000000110200000020020000001b03000000210300000011ff64000d00016120"
    "636f6d6d656e74ff90000a0000000000200002ff93c0f850928945fb0de3299fdfff7f9fa38080ff90000a00000000001b0102ff93c03a68904555bfff7f7fd3"
    "8080ff90000a0001000000210002ff93c0f851128914005c99ff7f9fbfff7f9fbf8080ff90000a0001000000110102ff93808080ff90000a0002000000200002"
    "ff93c0f850928945fb0e9f279f9fff7f9fef8080ff90000a00020000001b0102ff93c03a689045545fff7f7fbf8080ff90000a0003000000210002ff93c0f851"
    "128914005b3fff7f9fbfff7f9fbf8080ff90000a0003000000110102ff93808080ffd9"
)
# OpenJPEG 2.5.0: 37 x 23, -n 3 -I -ROI c=0,U=3 -C x
shifted = hexed(
    "ff4fff510029000000000025000000170000000000000000000000250000001700000000000000000001070101ff52000c00000001000204040000ff5c001142"
    "5f5250055005504757d357d35762ff5e0005000003ff640005000178ff90000a0000000000360001ff93c0fa848031770f2a4bbb3efe05efe5c2168b8950c61f"
    "c07c8140268ef59721c03e114040346a653fffd9"
)
# OpenJPEG 2.5.0: 40 x 30, -n 2 -I -C y -POC T1=0,0,1,2,3,CPRL
reordered = hexed(
    "ff4fff51002f0000000000280000001e0000000000000000000000280000001e00000000000000000003070101070101070101ff52000c000000010101040400"
    "00ff5c000b42482457d357d35762ff640005000179ff90000a0000000000430001ff5f000900000001020304ff93c0f90d804b22c6c6bb81cc3b2d39bb4a1212"
    "fd9912c018479908e013f8fe0fc01d104601c73380808080ffd9"
)
# Grok 10.0.5: 40 x 30, -n 3 -I -t 32,32 -Y 0
plain = hexed(
    "ff4fff51002f0000000000280000001e0000000000000000000000200000002000000000000000000003070101070101070101ff52000c000000010002040400"
    "00ff5c0011425f5250055005504757d357d35762ff6400220001437265617465642062792047726f6b2076657273696f6e2031302e302e35ff90000a00000000"
    "006b0001ff93c07ce3003176ff43f2b6b5c828173837c07ce3003176ff43f2b6b5c828173837c07ce3003176ff43f2b6b5c828173837c03e11002c5c0ccfc03e"
    "11002c5c0ccfc03e11002c5c0ccfc01d10460141c9c01d10460141c9c01d10460141c9ff90000a00010000002c0001ff93c07ce10014004e7fc07ce10014004e"
    "7fc07ce10014004e7f808080808080ffd9"
)
# Grok 10.0.5: 40 x 30, -n 2 -u R -X -L -t 24,30
listed = hexed(
    "ff4fff51002f0000000000280000001e0000000000000000000000180000001e00000000000000000003070101070101070101ff52000c000000010101040400"
    "01ff5c00074040484850ff55001c0060000000000024000000000017000100000024000100000011ff6400220001437265617465642062792047726f6b207665"
    "7273696f6e2031302e302e35ff90000a0000000000240002ff58000900090101070101ff93c0f8464b2606509a5f8080ff90000a0000000000170102ff93c03a"
    "204601c6ef8080ff90000a0001000000240002ff58000900090101010101ff93c0f84614005cae847f8080ff90000a0001000000110102ff93808080ffd9"
)

ask(
    tiled,
    main("main,3,4,0,51,116"),
    settings("settings,0,2,6,6,1,15,15,0,2,7,8,0", 0, 3, 51),
    settings("settings,0,2,6,6,1,15,15,0,2,7,8,0", 2, 3, 51),
    part("whole,0,0,139,130,9,0", 116, 3),
    part("whole,1,0,180,153,27,0", 139, 3),
    part("whole,2,0,203,194,9,0", 180, 3),
    part("whole,3,0,244,217,27,0", 203, 3),
    part("fault,7,203", 203, 3, 3),
    part("fault,3,244,144", 244, 3),
)
ask(
    layered,
    main("main,1,1,0,45,127", rows=(1, 1, 1, 0)),
    settings("settings,7,3,5,4,0,3,3,2,2,10,12,1848", 0, 1, 45),
    part("whole,0,0,263,154,109,0", 127, 1, 1),
)
ask(
    parted,
    main("main,3,4,0,51,135"),
    settings("settings,0,1,6,6,1,15,15,0,2,4,8,0", 1, 3, 51),
    part("whole,0,0,167,149,18,0", 135, 3),
    part("whole,0,1,194,181,13,0", 167, 3),
    part("whole,1,1,244,241,3,0", 227, 3),
    part("whole,3,1,353,350,3,0", 336, 3),
)
ask(
    shifted,
    main("main,1,1,0,45,92"),
    settings("settings,0,2,6,6,0,15,15,2,2,7,11,1874", 0, 1, 45),
    part("whole,0,0,146,106,40,0", 92, 1),
)
ask(reordered, main("main,3,1,0,51,85"), settings("settings,0,1", 1, 3, 51), *both("fault,2,97", place=85, csiz=3))
ask(
    plain,
    main("main,3,2,0,51,120"),
    settings("settings,0,2,6,6,0,15,15,2,2,7,11,1874", 2, 3, 51),
    part("whole,0,0,227,134,93,0", 120, 3),
    part("whole,1,0,271,241,30,0", 227, 3),
)
ask(
    listed,
    main("main,3,2,0,51,140"),
    part("whole,0,0,176,165,11,0", 140, 3),
    part("whole,0,1,199,190,9,0", 176, 3),
    part("whole,1,0,235,224,11,0", 199, 3),
    part("whole,1,1,252,249,3,0", 235, 3),
)

# cut at every byte: a main header and two tile-parts
ask(layered[:129], main("main,1,1,0,45,127"), cut=0)
ask_part(listed[140:176], "whole,0,0,36,25,11,0", place=0, csiz=3, cut=0)
ask_part(shifted[92:], "whole,0,0,54,14,40,0", place=0, csiz=1, cut=0)

here = Path(__file__).parent
assert len(stdin) <= 32768, len(stdin)
(here / "stdin").write_bytes(stdin)
(here / "stdout").write_text("".join(line + "\n" for line in stdout))
