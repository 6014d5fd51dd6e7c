"""Short forms of a log's lines."""

from making import Wrong
from making.log import (
    baseline_packet,
    cs_housekeeping_packet,
    drop,
    dump_packet,
    dwell_packet,
    event,
    hs_housekeeping_packet,
    lc_housekeeping_packet,
    md_housekeeping_packet,
    mm_housekeeping_packet,
    peek_packet,
    sc_housekeeping_packet,
    stored,
)
from making.packets import bytes_of, packet_of
from making.words import U32, number

# Each form: the words behind the frame's number, and the function of making.log that writes its line.
NUMBERS = {
    "peek_packet": (peek_packet, "COUNT SIZE ADDRESS VALUE"),
    "mm_housekeeping_packet": (mm_housekeeping_packet, "COUNT ACCEPTED ERRORS REGIONS"),
    "md_housekeeping_packet": (md_housekeeping_packet, "COUNT ACCEPTED ERRORS TABLES"),
    "cs_housekeeping_packet": (cs_housekeeping_packet, "COUNT ACCEPTED ERRORS SWITCHES EEPROM MEMORY PASSES"),
}
FORMS = {"event", "stored", "drop", *NUMBERS, "baseline_packet", "dump_packet", "dwell_packet", "hs_housekeeping_packet", "sc_housekeeping_packet", "lc_housekeeping_packet"}


def numbers_of(words, form):
    """The numbers of a form's words."""
    names = form.split()
    if len(words) != len(names):
        raise Wrong(f"write {form}, and not {' '.join(words)!r}")
    return [number(name, word, U32) for name, word in zip(names, words)]


def event_line(frame, words):
    if len(words) != 4:
        raise Wrong("write event APP COUNT NUMBER TYPE")
    return event(frame, words[0], *numbers_of(words[1:], "COUNT NUMBER TYPE"))


def listed_of(word):
    """The numbers of a list such as 2,5, or none."""
    return set() if word == "none" else {number("NUMBER", part, U32) for part in word.split(",")}


def placed_of(words):
    """Values by place: 1:7 is the value 7 in place 1."""
    return dict(numbers_of(word.split(":"), "PLACE VALUE") for word in words)


def hs_housekeeping_line(frame, words):
    count, accepted, errors, apps, events, made, maximum, sent, watching = numbers_of(words[:9], "COUNT ACCEPTED ERRORS APPS EVENTS RESETS MAXIMUM SENT WATCHING")
    return hs_housekeeping_packet(frame, count, accepted, errors, (apps, events), (made, maximum), sent, watching, placed_of(words[9:]))


def sc_housekeeping_line(frame, words):
    numbers = numbers_of(words[:7], "COUNT ACCEPTED ERRORS ATS LEFT SENT WRONG")
    if len(words) != 9:
        raise Wrong("write RUNNING ENABLED behind the numbers")
    return sc_housekeeping_packet(frame, *numbers, *map(listed_of, words[7:]))


def lc_housekeeping_line(frame, words):
    count, accepted, errors, fired = numbers_of(words[:4], "COUNT ACCEPTED ERRORS FIRED")
    if len(words) < 5:
        raise Wrong("write ACTIVE behind the numbers")
    return lc_housekeeping_packet(frame, count, accepted, errors, listed_of(words[4]), fired, placed_of(words[5:]))


HOUSEKEEPING = {"hs_housekeeping_packet": hs_housekeeping_line, "sc_housekeeping_packet": sc_housekeeping_line, "lc_housekeeping_packet": lc_housekeeping_line}


def packet_line(frame, form, words):
    """The line of a packet with bytes or lists in it, or of one that may be unknown."""
    if form in HOUSEKEEPING:
        return HOUSEKEEPING[form](frame, words)
    if form == "baseline_packet":
        count, table, entry = numbers_of(words[:3], "COUNT TABLE ENTRY")
        return baseline_packet(frame, count, table, entry, None if words[3:] == ["none"] else numbers_of(words[3:], "BASELINE")[0])
    count, place = numbers_of(words[:2], "COUNT TABLE" if form == "dwell_packet" else "COUNT ADDRESS")
    data = bytes_of(words[2:])
    if form == "dwell_packet":
        return dwell_packet(frame, place, count, data)
    if not 1 <= len(data) <= 128:
        raise Wrong(f"a dump packet has 1 to 128 bytes, not {len(data)}")
    return dump_packet(frame, count, place, data)


def lost_packet(frame, words):
    """A packet that is dropped: one that is sent, or one that an application gave in this frame."""
    if words[0] not in FORMS:
        return packet_of(words)
    _, _, packet = log_line(f"{frame} {' '.join(words)}").split()
    return bytes.fromhex(packet)


def log_line(line):
    """A line of the log: one of the forms behind a frame's number, or the line itself."""
    words = line.split()
    if len(words) < 2 or (words[1] not in FORMS) or (words[1] == "drop" and len(words) < 5):
        return line
    frame, form, *words = words
    frame = number("FRAME", frame, U32)
    if form == "event":
        return event_line(frame, words)
    if form == "stored":
        return stored(frame, packet_of(words))
    if form == "drop":
        return drop(frame, words[0], words[1], lost_packet(frame, words[2:]))
    if form in NUMBERS:
        function, names = NUMBERS[form]
        return function(frame, *numbers_of(words, names))
    return packet_line(frame, form, words)
