#!/usr/bin/env python3
"""Compares what is said of refusals: refusals.py RECORDS.md hlr.h HELP

RECORDS.md has the order of each command's refusals, a row `| icf | Syntax, Field, .. |` each. hlr.h has the same for each
call that does what a command does, in a line `Refusals: FIELD, ..` of its comment. HELP is what the program says of
itself: it lists the same commands, and the same refusals with the codes of hlr.h. What differs is printed, and the status
is 1 then.
"""
import re
import sys

CALLS = {
    "sub": "hlr_add_subscriber", "acc": "hlr_add_access", "fac": "hlr_add_facility", "gsd": "hlr_subscriber_data",
    "gnd": "hlr_new_destination", "gad": "hlr_access_data", "usd": "hlr_update_subscriber", "ul": "hlr_update_location",
    "icf": "hlr_insert_forwarding", "dcf": "hlr_delete_forwarding", "active": "hlr_set_active", "number": "hlr_set_number",
    "post": "hlr_post", "give": "hlr_give", "take": "hlr_take", "divide": "hlr_divide", "dissolve": "hlr_dissolve",
    "views": "hlr_views", "scan": "hlr_scan", "regions": "hlr_regions", "propose": "hlr_propose", "recut": "hlr_recut",
}
# No call lists the index, and these calls are of no command.
NO_CALL = {"index"}
NO_COMMAND = {
    "hlr_open": ["STILL_OPEN", "FIELD", "MEMORY"], "hlr_close": [],
    "hlr_subscriber_data_many": ["FIELD"], "hlr_new_destination_many": ["FIELD"], "hlr_access_data_many": ["FIELD"],
    "hlr_find": ["FIELD", "NO_NUMBER"], "hlr_facility_data": ["FIELD", "MOVING", "NO_FACILITY"],
    "hlr_forwarding": ["FIELD", "MOVING", "NO_FORWARDING"], "hlr_next_subscriber": ["NO_SUBSCRIBER"],
    "hlr_next_subscribers": [], "hlr_next_accesses": [], "hlr_next_facilities": [], "hlr_next_forwardings": [], "hlr_width": [],
    "hlr_look": [], "hlr_lend": ["STILL_OPEN", "JOURNALED", "NO_PART", "MEMORY"], "hlr_back": ["NO_PART"], "hlr_home": [],
    "hlr_journal": ["STILL_OPEN", "FIELD", "MEMORY", "FAILED", "BAD_JOURNAL"], "hlr_snapshot": ["FAILED", "BAD_JOURNAL", "MEMORY"],
    "hlr_sync": ["NO_JOURNAL", "FAILED", "MEMORY"], "hlr_unsynced": ["NO_JOURNAL", "FAILED", "MEMORY"],
    "hlr_journal_end": ["NO_JOURNAL", "FAILED", "MEMORY"],
    "hlr_file_open": ["STILL_OPEN", "FIELD", "MEMORY", "FAILED", "LOCKED", "BAD_JOURNAL"],
    "hlr_file_snapshot": ["MEMORY", "FAILED"], "hlr_file_close": ["NO_JOURNAL", "FAILED", "MEMORY"],
    "hlr_tape_open": ["STILL_OPEN", "FIELD", "MEMORY", "BAD_JOURNAL"], "hlr_tape_snapshot": ["MEMORY"],
    "hlr_tape_reserve": ["NO_JOURNAL", "FAILED", "MEMORY"], "hlr_tape_sync": ["NO_JOURNAL", "FAILED", "MEMORY"],
    "hlr_tape_owed": ["NO_JOURNAL"], "hlr_tape_made": ["NO_JOURNAL", "FAILED", "MEMORY"], "hlr_tape_end": ["NO_JOURNAL", "FAILED"],
    "hlr_part_range": [], "hlr_part_subscriber_data_many": ["FIELD"], "hlr_part_new_destination_many": ["FIELD"],
    "hlr_part_access_data_many": ["FIELD"],
}
# The program lends no part. Of a call that works on one that may be out, AWAY comes behind these, where it has them.
BEFORE_AWAY = {"STILL_OPEN", "JOURNALED", "FIELD", "NO_NUMBER", "NO_PART", "MOVING", "OUT_OF_RANGE", "MANY_PIECES", "MANY_PARTS",
               "NO_PIECE", "NOT_ADJACENT"}
# The calls of many answer AWAY in places alone.
NEVER_AWAY = {"hlr_open", "hlr_close", "hlr_find", "hlr_look", "hlr_regions", "hlr_width", "hlr_home", "hlr_part_range",
              "hlr_journal", "hlr_sync", "hlr_unsynced", "hlr_journal_end", "hlr_file_open", "hlr_file_close",
              "hlr_tape_open", "hlr_tape_reserve", "hlr_tape_sync", "hlr_tape_owed", "hlr_tape_made", "hlr_tape_end",
              "hlr_subscriber_data_many", "hlr_new_destination_many", "hlr_access_data_many",
              "hlr_part_subscriber_data_many", "hlr_part_new_destination_many", "hlr_part_access_data_many"}
# The calls on a part, each with that on a register of which it has the refusals but for these, and ELSEWHERE behind FIELD.
NOT_OF_PARTS = {"NO_NUMBER", "MOVING", "AWAY", "NO_PART"}
PART_CALLS = ["subscriber_data", "new_destination", "access_data", "update_subscriber", "update_location",
              "insert_forwarding", "delete_forwarding", "set_active", "add_access", "add_facility", "post"]
# Codes of calls alone.
OWN_CODES = {"LOCKED", "BAD_JOURNAL", "FAILED", "JOURNALED", "NO_JOURNAL", "ELSEWHERE", "AWAY", "NOT_OPEN", "STILL_OPEN"}
# A record's number may have more than 64 bits, which is refused Field; a call's number can't.
ANY_NUMBER = {"post", "take", "divide", "dissolve"}

wrong = []


def snake(name):
    return re.sub(r"(?<!^)(?=[A-Z])", "_", name).upper()


def orders_of_records(text):
    rows = re.findall(r"^\| *`?([a-z]+)`? *\| *([A-Z]\w*(?:, [A-Z]\w*)*) *\| *$", text, re.M)
    if len(rows) != len(dict(rows)):
        wrong.append("RECORDS.md has two rows for a command")
    return {command: names.split(", ") for command, names in rows}


def orders_of_calls(text):
    calls = re.findall(r"/\*((?:(?!\*/).)*)\*/\s*uint8_t (hlr_\w+)\(", text, re.S)
    orders = {}
    for comment, call in calls:
        told = re.search(r"Refusals: (\w+(?:, \w+)*)", comment)
        orders[call] = [it for it in (told[1].split(", ") if told else ["untold"]) if it != "none"]
    return orders


def expect(what, found, wanted):
    if found != wanted:
        wrong.append(f"{what}: {found}, and not {wanted}")


def without_away(call, order):
    """A call's refusals without AWAY, which stands where it ought to."""
    if (call in NEVER_AWAY) != ("AWAY" not in order):
        wrong.append(f"{call} tells AWAY, or doesn't, in hlr.h")
    behind = [it for it in order if it in BEFORE_AWAY]
    if "AWAY" in order and order.index("AWAY") != len(behind):
        wrong.append(f"{call} tells AWAY elsewhere in hlr.h: {order}")
    return [it for it in order if it != "AWAY"]


def expect_parts(calls):
    """The refusals of the calls on parts are those of a register's calls."""
    for name in PART_CALLS:
        wanted = [it for it in calls["hlr_" + name] if it not in NOT_OF_PARTS]
        if "FIELD" in wanted:
            wanted.insert(1, "ELSEWHERE")
        if name == "update_location":
            wanted.append("NO_SUBSCRIBER")
        expect(f"the refusals of hlr_part_{name} in hlr.h", calls.pop("hlr_part_" + name, None), wanted)


def main():
    records, header, said = (open(it, encoding="utf-8").read() for it in sys.argv[1:])
    orders, calls = orders_of_records(records), orders_of_calls(header)
    wanted = dict(NO_COMMAND)
    for command, call in CALLS.items():
        left_out = {"Syntax", "Field"} if command in ANY_NUMBER else {"Syntax"}
        wanted[call] = [snake(it) for it in orders.get(command, []) if it not in left_out]
    expect("the commands of RECORDS.md", sorted(orders), sorted([*CALLS, *NO_CALL]))
    expect_parts(calls)
    expect("the calls of hlr.h", sorted(calls), sorted(wanted))
    for call in sorted(set(calls) & set(wanted)):
        expect(f"the refusals of {call} in hlr.h", without_away(call, calls[call]), wanted[call])
    listed = set(re.findall(r"^  ([a-z]+)(?:,\S*)?  +\S", said, re.M))
    expect("the commands of --help", sorted(listed), sorted(orders))
    numbers = {snake(name): code for code, name in re.findall(r"(?<!\S)(\d+) ([A-Z][A-Za-z]+)(?!\S)", said)}
    codes = dict(re.findall(r"HLR_(\w+) = (\d+),", header))
    names = {snake(it) for order in orders.values() for it in order}
    expect("refusals that RECORDS.md has and --help hasn't", sorted(names - set(numbers)), [])
    for name in sorted(set(numbers) & set(codes)):
        expect(f"the code of {name} in --help", numbers[name], codes[name])
    expect("refusals of hlr.h that RECORDS.md hasn't", sorted(set(codes) - names - {"DONE", *OWN_CODES}), [])
    print(*wrong, sep="\n", end="\n" if wrong else "")
    return bool(wrong)


if __name__ == "__main__":
    sys.exit(main())
