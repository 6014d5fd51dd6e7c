"""The files of a case, by the sort of their section."""

from making import Wrong
from making.packets import bytes_of, packet_of, sent_line
from making.tables import ATS_TABLES, CHECKSUM_ENTRIES, DWELL_TABLES, RTS_TABLES, ats_table, checksum_table, dwell_table, load_file, rts_table, table_file
from making.words import ATS_NUMBERS, CHECKSUM_ENTRY, DWELL_ENTRY, PLACED_TABLES, RTS_NUMBERS, TABLE_NAMES, U16, U32, choice, counted, entry, number, numbered


def with_packet(line):
    """An entry whose last field is a packet, as HEX where words of `send` stand for it."""
    *fields, packet = line.split(",")
    return ",".join([*fields, packet_of(packet.split()).hex()])


def scenario_file(options, lines):
    counted(["scenario", *options], "scenario")
    return "".join(sent_line(line) + "\n" for line in lines).encode()


def dwell_file(options, lines):
    counted(["dwell", *options], "dwell TABLE on|off")
    enabled = number("FLAG", options[1], U16) if options[1].isdigit() else choice(options[1], {"on": 1, "off": 0})
    return dwell_table(number("TABLE", options[0], DWELL_TABLES), enabled, [entry(line, DWELL_ENTRY) for line in lines])


def checksum_file(options, lines):
    counted(["checksum", *options], "checksum eeprom|memory")
    return checksum_table(choice(options[0], TABLE_NAMES), numbered(lines, CHECKSUM_ENTRIES, CHECKSUM_ENTRY))


def command_of(line, names):
    """A command of a sequence: its numbers, and its packet."""
    *numbers, words = line.split(",")
    if len(numbers) != len(names):
        raise Wrong(f"{line!r} isn't {','.join(names)},PACKET")
    packet = packet_of(words.split())
    if not 8 <= len(packet) <= 256:
        raise Wrong(f"{words!r} isn't a packet of 8 to 256 bytes")
    return *(number(name, word, allowed) for word, (name, allowed) in zip(numbers, names.items())), packet


def ats_file(options, lines):
    counted(["ats", *options], "ats SEQUENCE")
    return ats_table(number("SEQUENCE", options[0], ATS_TABLES), [command_of(line, ATS_NUMBERS) for line in lines])


def rts_file(options, lines):
    counted(["rts", *options], "rts SEQUENCE")
    return rts_table(number("SEQUENCE", options[0], RTS_TABLES), [command_of(line, RTS_NUMBERS) for line in lines])


def loaded_file(options, lines):
    counted(["load", *options], "load ADDRESS")
    data = bytes_of(" ".join(lines).split())
    if not 1 <= len(data) <= 65536:
        raise Wrong(f"a load file has 1 to 65,536 bytes, not {len(data)}")
    return load_file(number("ADDRESS", options[0], U32), data)


def named_file(options, lines):
    counted(["table", *options], "table NAME")
    return table_file(options[0], bytes_of(" ".join(lines).split()))


def hex_file(options, lines):
    counted(["hex", *options], "hex")
    return bytes_of(" ".join(lines).split())


def open_file(options, lines):
    """A text whose last line has no end."""
    return scenario_file(options, lines)[:-1]


def placed_file(sort):
    """What makes a table of Health and Safety or of Limit Checker."""
    places, fields, file_of = PLACED_TABLES[sort]

    def made(options, lines):
        counted([sort, *options], sort)
        lines = map(with_packet, lines) if sort == "actions" else lines
        return file_of(numbered(lines, places, fields))

    return made


# Each sort makes a file of the words behind the file's name and of the section's lines.
SORTS = {
    "scenario": scenario_file,
    "open": open_file,
    "hex": hex_file,
    "table": named_file,
    "load": loaded_file,
    "dwell": dwell_file,
    "checksum": checksum_file,
    "ats": ats_file,
    "rts": rts_file,
    **{sort: placed_file(sort) for sort in PLACED_TABLES},
}
