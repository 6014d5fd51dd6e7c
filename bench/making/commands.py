"""Packets that are sent: a function for each command, which lays out its bytes as docs/COMMANDS.md tells them."""

import struct

from making.log import crc16


def packet(message_id, body):
    """A space packet: its id, sequence flags 3 and count 0, and how many bytes follow the first six, less one."""
    return struct.pack(">HHH", message_id, 0xC000, len(body) - 1) + body


def command(message_id, code, payload=b""):
    """Any code: byte 6 is the code, and byte 7 makes the exclusive or of all bytes 0xFF."""
    whole = bytearray(packet(message_id, bytes([code, 0]) + payload))
    check = 0xFF
    for byte in whole:
        check ^= byte
    whole[7] = check
    return bytes(whole)


def send(sent):
    """The line of a scenario that sends a packet."""
    return "send " + sent.hex().upper()


HS, HS_HOUSEKEEPING = 0x18AE, 0x18AF
MM, MM_HOUSEKEEPING = 0x1888, 0x1889
MD, MD_HOUSEKEEPING = 0x1890, 0x1891
CS, CS_HOUSEKEEPING = 0x189F, 0x18A0
SC, SC_HOUSEKEEPING = 0x18A9, 0x18AA
LC, LC_HOUSEKEEPING = 0x18A6, 0x18A7
REQUESTS = {HS: HS_HOUSEKEEPING, MM: MM_HOUSEKEEPING, MD: MD_HOUSEKEEPING, CS: CS_HOUSEKEEPING, SC: SC_HOUSEKEEPING, LC: LC_HOUSEKEEPING}


def no_op(application):
    """Is answered, and does nothing else."""
    return command(application, 0)


def reset_counts(application):
    """Makes the counts of accepted and refused commands 0."""
    return command(application, 1)


def housekeeping(asked):
    """Requests an application's housekeeping packet."""
    return command(REQUESTS.get(asked, asked), 0)


def hs_apps_on():
    """Switches application monitoring on, and refreshes it."""
    return command(HS, 2)


def hs_apps_off():
    """Switches application monitoring off."""
    return command(HS, 3)


def hs_events_on():
    """Switches event monitoring on."""
    return command(HS, 4)


def hs_events_off():
    """Switches event monitoring off."""
    return command(HS, 5)


def hs_clear_resets():
    """Sets the number of processor resets to 0."""
    return command(HS, 8)


def hs_max_resets(maximum):
    """Sets the largest number of processor resets."""
    return command(HS, 9, struct.pack(">H", maximum))


def event_message(name, event):
    """Is no command: an event of type 2 that an application of this name might have sent, with time 0."""
    return timed_event(name, event, 0)


def timed_event(name, event, time):
    """Is no command: an event message with a time in seconds."""
    return packet(0x0808, struct.pack(">IH20sHHII", time, 0, name.encode(), event, 2, 66, 1))


def mm_peek(size, at):
    """Shows the 8, 16 or 32 bits at an address."""
    return command(MM, 2, struct.pack(">BI", size, at))


def mm_poke(size, at, value):
    """Writes the low 8, 16 or 32 bits of a value to an address."""
    return command(MM, 3, struct.pack(">BII", size, at, value))


def mm_load(at, data):
    """Writes 1 to 200 bytes, with their check."""
    return command(MM, 4, struct.pack(">IH", at, crc16(data)) + data)


def mm_load_file(load):
    """Writes the bytes of a load file, counted among load files alone, at its address."""
    return command(MM, 5, struct.pack(">H", load))


def mm_fill(at, length, byte):
    """Writes one byte over 1 to 65,536 bytes."""
    return command(MM, 8, struct.pack(">IIB", at, length, byte))


def mm_dump(at, length):
    """Shows 1 to 2,048 bytes."""
    return command(MM, 13, struct.pack(">II", at, length))


def mm_eeprom_enable(region):
    """Takes a region's protection away."""
    return command(MM, 11, struct.pack(">B", region))


def mm_eeprom_disable(region):
    """Protects a region."""
    return command(MM, 12, struct.pack(">B", region))


def md_start(*tables):
    """Enables dwell tables, and begins a round of each."""
    return command(MD, 2, struct.pack(">H", mask(tables)))


def md_stop(*tables):
    """Disables dwell tables."""
    return command(MD, 3, struct.pack(">H", mask(tables)))


def mask(tables):
    return sum(1 << (table - 1) for table in set(tables))


def md_jam(table, entry, length, delay, at):
    """Writes one entry of a dwell table, and begins a round of the table."""
    return command(MD, 4, struct.pack(">HHHHI", table, entry, length, delay, at))


def cs_on():
    """Switches Checksum on."""
    return command(CS, 2)


def cs_off():
    """Switches Checksum off."""
    return command(CS, 3)


def cs_table_on(table):
    """Switches a checksum table on: 1 is the EEPROM table, 2 the memory table."""
    return command(CS, 4, struct.pack(">H", table))


def cs_table_off(table):
    """Switches a checksum table off."""
    return command(CS, 5, struct.pack(">H", table))


def cs_entry_on(table, entry):
    """Switches an entry of a checksum table on."""
    return command(CS, 6, struct.pack(">HH", table, entry))


def cs_entry_off(table, entry):
    """Switches an entry of a checksum table off."""
    return command(CS, 7, struct.pack(">HH", table, entry))


def cs_report(table, entry):
    """Asks for an entry's baseline."""
    return command(CS, 8, struct.pack(">HH", table, entry))


def sc_start_ats(number):
    """Starts an absolute sequence, 1 or 2, without its commands before now."""
    return command(SC, 2, struct.pack(">H", number))


def sc_stop_ats():
    """Stops the absolute sequence that runs."""
    return command(SC, 3)


def sc_start_rts(number):
    """Starts a relative sequence, 1 to 64."""
    return command(SC, 4, struct.pack(">H", number))


def sc_stop_rts(number):
    """Stops a relative sequence."""
    return command(SC, 5, struct.pack(">H", number))


def sc_disable_rts(number):
    """Disables a relative sequence, which goes on where it runs."""
    return command(SC, 6, struct.pack(">H", number))


def sc_enable_rts(number):
    """Enables a relative sequence."""
    return command(SC, 7, struct.pack(">H", number))


def sc_switch_ats():
    """Stops the absolute sequence that runs, and starts the other."""
    return command(SC, 8)


def sc_jump_ats(time):
    """Skips the commands of the absolute sequence that runs before a time."""
    return command(SC, 9, struct.pack(">I", time))


def lc_set_active(point):
    """Sets an actionpoint active, 1 to 16."""
    return command(LC, 2, struct.pack(">H", point))


def lc_set_passive(point):
    """Sets an actionpoint passive."""
    return command(LC, 3, struct.pack(">H", point))


def damaged(sent):
    """A command whose check byte is wrong by one bit."""
    return sent[:7] + bytes([sent[7] ^ 1]) + sent[8:]
