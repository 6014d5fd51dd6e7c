"""The words of the command line, and what they mean."""

import re

from making import Wrong
from making.commands import *
from making.tables import ACTION_ENTRIES, ACTIONPOINTS, COUNTER_ENTRIES, EEPROM_TABLE, EVENT_ENTRIES, APP_ENTRIES, MEMORY_TABLE, WATCHPOINTS, actions_table, acts_table, apps_table, counters_table, events_table, watch_table

U8, U16, U32 = range(1 << 8), range(1 << 16), range(1 << 32)
NUMBER = re.compile("0x[0-9a-fA-F]{1,16}|[0-9]{1,20}")
NAME = re.compile("[0-9A-Za-z_]{1,19}")
HEX = re.compile("([0-9A-Fa-f]{2}){8,64}")
BYTES = re.compile("([0-9A-Fa-f]{2}){1,200}")
EXPRESSION = re.compile("([0-9A-Za-z]+/){0,15}[0-9A-Za-z]+")

FORMS = {NAME: "1 to 19 letters, digits and _", HEX: "HEX of 8 to 64 bytes", BYTES: "HEX of 1 to 200 bytes", EXPRESSION: "1 to 16 words with / between them"}
OPERATORS = {"and": 0x8001, "or": 0x8002, "xor": 0x8003, "not": 0x8004}

APPLICATIONS = {"HS": HS, "MM": MM, "MD": MD, "CS": CS, "SC": SC, "LC": LC}
IDS = {**APPLICATIONS, "HS_HOUSEKEEPING": HS_HOUSEKEEPING, "MM_HOUSEKEEPING": MM_HOUSEKEEPING, "MD_HOUSEKEEPING": MD_HOUSEKEEPING, "CS_HOUSEKEEPING": CS_HOUSEKEEPING, "SC_HOUSEKEEPING": SC_HOUSEKEEPING, "LC_HOUSEKEEPING": LC_HOUSEKEEPING}
TABLE_NAMES = {"eeprom": EEPROM_TABLE, "memory": MEMORY_TABLE}

# The functions of `send` and their words, in the order of docs/COMMANDS.md.
SENT = {
    no_op: "APP",
    reset_counts: "APP",
    housekeeping: "APP",
    hs_apps_on: "",
    hs_apps_off: "",
    hs_events_on: "",
    hs_events_off: "",
    hs_clear_resets: "",
    hs_max_resets: "MAXIMUM",
    event_message: "NAME EVENT",
    timed_event: "NAME EVENT TIME",
    mm_peek: "SIZE ADDRESS",
    mm_poke: "SIZE ADDRESS VALUE",
    mm_load: "ADDRESS HEX",
    mm_load_file: "LOAD",
    mm_fill: "ADDRESS COUNT BYTE",
    mm_dump: "ADDRESS COUNT",
    mm_eeprom_enable: "REGION",
    mm_eeprom_disable: "REGION",
    md_start: "TABLE..",
    md_stop: "TABLE..",
    md_jam: "TABLE ENTRY LENGTH DELAY ADDRESS",
    cs_on: "",
    cs_off: "",
    cs_table_on: "TABLE",
    cs_table_off: "TABLE",
    cs_entry_on: "TABLE ENTRY",
    cs_entry_off: "TABLE ENTRY",
    cs_report: "TABLE ENTRY",
    sc_start_ats: "NUMBER",
    sc_stop_ats: "",
    sc_start_rts: "NUMBER",
    sc_stop_rts: "NUMBER",
    sc_disable_rts: "NUMBER",
    sc_enable_rts: "NUMBER",
    sc_switch_ats: "",
    sc_jump_ats: "TIME",
    lc_set_active: "POINT",
    lc_set_passive: "POINT",
    command: "ID CODE",
}

# What fits the field of each word; TABLE.. are the bits of a mask.
FIELDS = {
    **dict.fromkeys(["SIZE", "REGION", "CODE", "BYTE"], U8),
    **dict.fromkeys(["TABLE", "ENTRY", "LENGTH", "DELAY", "ID", "MAXIMUM", "EVENT", "LOAD", "NUMBER", "POINT"], U16),
    **dict.fromkeys(["ADDRESS", "VALUE", "COUNT", "TIME"], U32),
    "TABLE..": range(1, 17),
}
DWELL_ENTRY = {"LENGTH": U16, "DELAY": U16, "ADDRESS": U32}
ATS_NUMBERS = {"NUMBER": U16, "TIME": U32}
RTS_NUMBERS = {"SECONDS": U16}
CHECKSUM_ENTRY = {"STATE": U16, "START": U32, "LENGTH": U32}

# The tables of Health and Safety and of Limit Checker: which entries each has, the fields of one, and what makes its file.
PLACED_TABLES = {
    "apps": (APP_ENTRIES, {"NAME": NAME, "CYCLES": U16, "ACTION": U16}, apps_table),
    "events": (EVENT_ENTRIES, {"NAME": NAME, "EVENT": U16, "ACTION": U16}, events_table),
    "counters": (COUNTER_ENTRIES, {"NAME": NAME, "TYPE": U16}, counters_table),
    "actions": (ACTION_ENTRIES, {"STATE": U16, "COOLDOWN": U16, "PACKET": HEX}, actions_table),
    "watch": (WATCHPOINTS, {"TYPE": U16, "ID": U16, "OFFSET": U16, "OPERATOR": U16, "MASK": U32, "LIMIT": U32}, watch_table),
    "acts": (ACTIONPOINTS, {"STATE": U16, "SEQUENCE": U16, "FAILURES": U16, "WORDS": EXPRESSION}, acts_table),
}


def usage(function):
    return f"{function.__name__} {SENT[function]}".rstrip()


def listed(words):
    *most, last = words
    return f"{', '.join(most)} or {last}"


def choice(word, meanings):
    """What a word means that is one of a few."""
    if word not in meanings:
        raise Wrong(f"{word!r} isn't {listed(meanings)}")
    return meanings[word]


def number(name, word, allowed):
    """A number of decimal digits, or of hexadecimal ones behind 0x."""
    value = int(word, 16 if word.startswith("0x") else 10) if NUMBER.fullmatch(word) else -1
    if value not in allowed:
        last = allowed[-1] if allowed[-1] < 256 else f"0x{allowed[-1]:X}"
        raise Wrong(f"{name.rstrip('.')} {word!r} isn't a number from {allowed[0]} to {last}")
    return value


def field(name, word, allowed):
    """A field of a table's entry: a number, a name, bytes, or the words of an expression."""
    if allowed not in FORMS:
        return number(name, word, allowed)
    if not allowed.fullmatch(word):
        raise Wrong(f"{word!r} isn't {FORMS[allowed]}")
    if allowed is EXPRESSION:
        return [OPERATORS[part] if part in OPERATORS else number(name, part, U16) for part in word.split("/")]
    return word if allowed is NAME else bytes.fromhex(word)


def entry(word, fields):
    """The fields of a table's entry, with commas between them."""
    parts = word.split(",")
    if len(parts) != len(fields):
        raise Wrong(f"{word!r} isn't {','.join(fields)}")
    return tuple(field(name, part, allowed) for part, (name, allowed) in zip(parts, fields.items()))


def numbered(words, places, fields):
    """Entries of a table by their numbers: each word is the number, a colon, and the fields of the entry."""
    entries = {}
    for word in words:
        if word.count(":") != 1:
            raise Wrong(f"{word!r} isn't ENTRY:{','.join(fields)}")
        place, rest = word.split(":")
        place = number("ENTRY", place, places)
        if place in entries:
            raise Wrong(f"entry {place} is given twice")
        entries[place] = entry(rest, fields)
    return entries


def counted(words, form):
    """Refuses too few or too many words for a form, whose last name may end in two dots for one or more."""
    names = form.split()
    if len(words) < len(names):
        raise Wrong(f"too few words; write: {form}")
    if len(words) > len(names) and not form.endswith(".."):
        raise Wrong(f"too many words; write: {form}")


def argument(name, word):
    """A word behind a function of `send`."""
    if name == "APP":
        return choice(word, APPLICATIONS)
    if name == "ID" and word.isidentifier():
        return choice(word, IDS)
    if name == "NAME":
        return field(name, word, NAME)
    if name == "HEX":
        return field(name, word, BYTES)
    return number(name, word, FIELDS[name])
