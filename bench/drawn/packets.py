"""Random packets: every command of the six applications, with values that often hit, events, telemetry, and some that are broken."""

import struct

from making.commands import *

CODES = {HS: range(10), MM: range(14), MD: range(5), CS: range(9), SC: range(10), LC: range(4)}
TELEMETRY = (0x08AD, 0x0887, 0x088A, 0x088A, 0x088B, 0x0890, 0x0891, 0x0892, 0x08A4, 0x08A5, 0x08AA, 0x08A7)
SIZES = {1: 8, 2: 16, 4: 32}
NAMES = ("LOAD", "NAV", "PWR", "THM", "AUX")
SENDERS = ("HS", "MM", "MD", "CS", "SC", "LC", "TBL")
EVENTS = (*range(1, 13), *range(16, 30), *range(101, 106), *range(111, 116))


class Packets:
    """Draws packets for the memory, the sequences and the loads of a rehearsal; `favours` are the applications that most is sent to."""

    def __init__(self, dice, memory, epoch, frames):
        self.dice, self.memory, self.epoch, self.frames, self.favours = dice, memory, epoch, frames, list(CODES)
        self.absolute, self.relative, self.loads, self.points, self.heard = {1}, {1, 2}, 0, {1}, []
        self.commands = {HS: self.hs, MM: self.mm, MD: self.md, CS: self.cs, SC: self.sc, LC: self.lc}

    def number(self, most, good=()):
        """A number from 1 on, mostly one of the good ones."""
        if good and self.dice.random() < 0.8:
            return self.dice.choice(sorted(good))
        return self.dice.choice((0, most + 1, 65535)) if self.dice.random() < 0.1 else self.dice.randint(1, most)

    def hs(self):
        maximum = self.dice.choice((0, 1, 3, 10, 65535))
        draws = (hs_apps_on, hs_apps_on, hs_apps_off, hs_events_on, hs_events_on, hs_events_off, hs_clear_resets, lambda: hs_max_resets(maximum))
        return self.dice.choice(draws)()

    def mm(self):
        return self.dice.choice((self.peek, self.peek, self.poke, self.poke, self.load, self.load_file, self.fill, self.fill, self.dump, self.protection))()

    def peek(self):
        width, at = self.memory.tried_read()
        return mm_peek(SIZES[width] if self.dice.random() < 0.97 else self.dice.randint(0, 255), at)

    def poke(self):
        width, at = self.memory.tried_read()
        return mm_poke(SIZES[width] if self.dice.random() < 0.97 else self.dice.randint(0, 255), at, self.dice.choice((0, 5, 6, self.dice.getrandbits(32))))

    def load(self):
        at, length = self.memory.tried_range(200)
        sent = mm_load(at, self.dice.randbytes(max(1, min(length, 200))))
        return sent if self.dice.random() < 0.9 else command(MM, 4, sent[8:-1] + bytes([sent[-1] ^ 1]))

    def load_file(self):
        return mm_load_file(self.dice.choice((0, self.loads + 1)) if self.dice.random() < 0.15 else self.dice.randint(1, max(1, self.loads)))

    def fill(self):
        at, length = self.memory.tried_range(self.dice.choice((8, 300, 65536)))
        return mm_fill(at, length, self.dice.choice((0, 6, self.dice.randint(0, 255))))

    def dump(self):
        return mm_dump(*self.memory.tried_range(self.dice.choice((8, 300, 2048))))

    def protection(self):
        protected = [region.number for region in self.memory.regions if region.kind == "EEPROM"]
        change = self.dice.choice((mm_eeprom_enable, mm_eeprom_enable, mm_eeprom_disable))
        return change(self.dice.choice(protected) if protected and self.dice.random() < 0.9 else self.dice.randint(0, 9))

    def md(self):
        masked = struct.pack(">H", self.dice.choice((0, 16, 65535)))
        tables = self.dice.sample(range(1, 5), self.dice.randint(1, 4))
        which = self.dice.random()
        if which < 0.05:
            return command(MD, self.dice.choice((2, 3)), masked)
        if which < 0.5:
            return self.dice.choice((md_start, md_start, md_stop))(*tables)
        width, at = self.memory.tried_read()
        length = width if self.dice.random() < 0.9 else self.dice.choice((0, 3))
        return md_jam(self.number(4), self.number(25, {1, 2, 3}), length, self.dice.choice((0, 1, 1, 2, 3)), at)

    def cs(self):
        table, entry = self.number(2), self.number(16, {1, 2, 3})
        tables, entries = (cs_table_on, cs_table_on, cs_table_off), (cs_entry_on, cs_entry_on, cs_entry_off, cs_report, cs_report)
        draws = (cs_on, cs_on, cs_off, *(lambda change=change: change(table) for change in tables), *(lambda change=change: change(table, entry) for change in entries))
        return self.dice.choice(draws)()

    def sc(self):
        number = self.number(64, self.relative)
        relative = (sc_start_rts, sc_start_rts, sc_start_rts, sc_stop_rts, sc_disable_rts, sc_enable_rts, sc_enable_rts)
        jump = self.epoch + self.dice.randint(0, self.frames + 3)
        draws = [lambda change=change: change(number) for change in relative]
        draws += [lambda: sc_start_ats(self.number(2, self.absolute))] * 2 + [sc_stop_ats, sc_switch_ats, lambda: sc_jump_ats(jump)]
        return self.dice.choice(draws)()

    def lc(self):
        return self.dice.choice((lc_set_active, lc_set_active, lc_set_passive))(self.number(16, self.points))

    def command(self):
        """A command or a request, mostly one that may be accepted, with a right check."""
        application = self.dice.choice(self.favours) if self.dice.random() < 0.7 else self.dice.choice(list(CODES))
        which = self.dice.random()
        if which < 0.80:
            return self.commands[application]()
        if which < 0.90:
            return self.dice.choice((housekeeping, no_op))(application)
        if which < 0.93:
            return reset_counts(application)
        code = self.dice.choice((*CODES[application], self.dice.randint(0, 127)))
        return command(application, code, self.dice.randbytes(self.dice.choice((0, 1, 2, 4, 5, 9, 12, 30))))

    def named_event(self):
        """A name and an event of it, mostly one that applications often give."""
        name = self.dice.choice((*SENDERS, *NAMES, "LOAD"))
        return name, self.dice.choice((1, 16, 18, 19, 20, self.dice.choice(EVENTS), self.dice.choice(EVENTS)))

    def event(self):
        """An event message, mostly one that a monitor looks for."""
        name, event = self.dice.choice(self.heard) if self.heard and self.dice.random() < 0.8 else self.named_event()
        return timed_event(name, event, self.dice.choice((0, self.epoch)))

    def telemetry(self, ids=TELEMETRY):
        """A packet of an id that LC watches, whose values are small."""
        values = bytes(self.dice.choice((0, 0, 0, 1, 5, 6, 255)) for _ in range(self.dice.choice((2, 6, 10, 20))))
        return packet(self.dice.choice(ids), struct.pack(">IH", self.epoch, 0) + values)

    def sent(self):
        """What a scenario sends: mostly a command; some are damaged in a byte that leaves them packets, or have any id."""
        which = self.dice.random()
        if which < 0.88:
            return self.command()
        if which < 0.91:
            return self.event()
        if which < 0.96:
            return self.telemetry()
        if which < 0.97:
            return packet(self.dice.randrange(0x2000), self.dice.randbytes(self.dice.randint(2, 250)))
        return changed(self.dice, self.command())

    def broken(self):
        """What is no space packet, or mostly none."""
        sent = bytearray(self.command())
        sent[self.dice.randrange(6)] ^= 1 << self.dice.randrange(8)
        return bytes(sent[: self.dice.choice((len(sent), len(sent), 7))])

    def stored(self, most):
        """A command that a table stores, of at most so many bytes; the check of some is wrong."""
        sent = self.command()
        while len(sent) > most:
            sent = self.command()
        return damaged(sent) if self.dice.random() < 0.04 else sent


def changed(dice, sent):
    """A packet with another bit behind its first six bytes."""
    place = dice.randrange(6, len(sent))
    return sent[:place] + bytes([sent[place] ^ 1 << dice.randrange(8)]) + sent[place + 1 :]
