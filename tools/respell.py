#!/usr/bin/env python3
"""Spells this repository's own definitions and lemmas as Rattle does today: words in snake case, types and modules in camel case.

usage: tools/respell.py            at the top of a checkout, once, after the kit's port.py
       tools/respell.py --dry      says what it would rename, and which names would fall together

The names are those that specs/ and the lemma files of proofs/ declare (definitions, lemmas, fields, local names), and the functions' names where a proof
cites them. Functions of src/, C names and strings keep theirs. A name that begins with a capital is a type's and stays.
"""

import os
import re
import sys

SIGNATURE = re.compile(r"^(\s*)(?:(?:abbrev|unfoldable|pub|record|data)\s+)*([^\s:(){}.,]+)((?:\s+[({].*?)?)\s+:(?=\s|$)")
TOKEN = re.compile(r"[^\s(){}\[\],;.\"`/]+")
FUNCTION = re.compile(r"\bfn\s+(\w+)")
# What the kit makes or has under a name of this form, and what only happens to be declared by a proof of one function.
KIT = {"in-loop"}
# The functions of src/, as a proof names a call of one.
CALLS = {}
# Names that port.py turned itself, as it found two words of them in the kit's library; the pages and edits still have the first form.
ODD = {"handed_on-one": "handed_on_one", "getD-out": "get_or_out"}
TURNED = {
    "above-half": "above_half", "added-is": "added_is", "after-is": "after_is", "alike-same": "alike_same", "all-end": "all_end",
    "all-fit": "all_fit", "all-told": "all_told", "and-l": "and_l", "and-left": "and_left", "and-r": "and_r", "and-right": "and_right",
    "answerOf": "answer_of", "array-at": "array_at", "as-line": "as_line", "as-long": "as_long", "as-read": "as_read", "as-row": "as_row",
    "at-least": "at_least", "at-listed": "at_listed", "at-most": "at_most", "at-one": "at_one", "at-row": "at_row", "below-more": "below_more",
    "by-length": "by_length", "by-most": "by_most", "by-over": "by_over", "by-row": "by_row", "bytesOf": "bytes_of", "counted-none": "counted_none",
    "digits-are": "digits_are", "done-more": "done_more", "each-append": "each_append", "end-same": "end_same", "endOf": "end_of",
    "enteredAt": "entered_at", "enteredOf": "entered_of", "entry-at": "entry_at", "entryAt": "entry_at", "entryOf": "entry_of",
    "fill-one": "fill_one", "filled-within": "filled_within", "first-byte": "first_byte", "first-kind": "first_kind", "first-next": "first_next",
    "first-passes": "first_passes", "first-past": "first_past", "firstSlot": "first_slot", "floatAt": "float_at", "flowOf": "flow_of",
    "found-below": "found_below", "from-on": "from_on", "from-second": "from_second", "from-zero": "from_zero", "handed-on-one": "handed_on-one",
    "has-one": "has_one", "has-room": "has_room", "head-in": "head_in", "headOf": "head_of", "holds-read": "holds_read", "in-row": "in_row",
    "inRange": "in_range", "index-below": "index_below", "is-zero": "is_zero", "isRefused": "is_refused", "key-below": "key_below",
    "key-row": "key_row", "keyOf": "key_of", "laid-none": "laid_none", "lays-one": "lays_one", "leaves-empty": "leaves_empty",
    "left-split": "left_split", "leftOf": "left_of", "lengthOf": "length_of", "lent-none": "lent_none", "lentOf": "lent_of", "line-row": "line_row",
    "line-taken": "line_taken", "lineAt": "line_at", "lineOf": "line_of", "lt-of-ne": "lt_of_ne", "minus-is": "minus_is", "neg-same": "neg_same",
    "next-up": "next_up", "no-flag": "no_flag", "no-flow": "no_flow", "no-less": "no_less", "no-line": "no_line", "no-more": "no_more",
    "no-nan": "no_nan", "no-number": "no_number", "no-row": "no_row", "no-size": "no_size", "no-whole": "no_whole", "noRow": "no_row",
    "none-above": "none_above", "none-found": "none_found", "none-is": "none_is", "none-passes": "none_passes", "not-low": "not_low",
    "not-taken": "not_taken", "not-there": "not_there", "number-bound": "number_bound", "number-fits": "number_fits", "number-step": "number_step",
    "numberAt": "number_at", "numberOf": "number_of", "once-by": "once_by", "one-at-most": "one_at_most", "one-byte": "one_byte",
    "one-found": "one_found", "one-key": "one_key", "one-less": "one_less", "one-more": "one_more", "one-up": "one_up", "or-cases": "or_cases",
    "or-l": "or_l", "or-most": "or_most", "or-r": "or_r", "other-byte": "other_byte", "otherOf": "other_of", "own-key": "own_key",
    "own-row": "own_row", "placeOf": "place_of", "plus-one": "plus_one", "pow-le-back": "pow_le_back", "pow-lt-back": "pow_lt_back",
    "read-back": "read_back", "read-one": "read_one", "read-same": "read_same", "readingOf": "reading_of", "rest-all": "rest_all",
    "rest-some": "rest_some", "row-other": "row_other", "row-put": "row_put", "rowIn": "row_in", "rowOf": "row_of", "runFrom": "run_from",
    "runOf": "run_of", "same-by": "same_by", "same-head": "same_head", "same-key": "same_key", "same-line": "same_line",
    "same-number": "same_number", "same-or-not": "same_or_not", "same-row": "same_row", "same-seen": "same_seen", "same-size": "same_size",
    "seenAt": "seen_at", "shareOf": "share_of", "sharesOf": "shares_of", "short-none": "short_none", "signedOf": "signed_of",
    "slot-same": "slot_same", "slotOf": "slot_of", "so-far": "so_far", "some-more": "some_more", "standsFor": "stands_for",
    "start-first": "start_first", "start-test": "start_test", "startOf": "start_of", "stays-by": "stays_by", "stored-other": "stored_other",
    "sum-fits": "sum_fits", "sum-is": "sum_is", "sum-more": "sum_more", "sum-same": "sum_same", "sumTo": "sum_to", "taken-out": "taken_out",
    "too-long": "too_long", "topOf": "top_of", "total-size": "total_size", "totalOf": "total_of", "two-bytes": "two_bytes", "up-more": "up_more",
    "up-small": "up_small", "up-to": "up_to", "valueAt": "value_at", "valueOf": "value_of", "was-free": "was_free", "whole-below": "whole_below",
    "whole-by": "whole_by", "wholeOf": "whole_of", "wide-signed": "wide_signed",
}


def files(root, *ends):
    for folder, dirs, names in os.walk(root):
        dirs[:] = sorted(d for d in dirs if d not in ("out", "target", ".git"))
        for name in sorted(names):
            if name.endswith(ends):
                yield os.path.join(folder, name)


def read(path):
    with open(path, encoding="utf-8") as f:
        return f.read()


def is_lemma_file(path):
    parts = path.split(os.sep)
    return "specs" in parts or ("proofs" in parts and parts.index("proofs") == len(parts) - 2)


def snake(name):
    """`bookBytes` and `put-long` as `book_bytes` and `put_long`."""
    name = name.replace("·", "_").replace("-", "_")
    name = re.sub(r"(?<=[a-z0-9])(?=[A-Z])", "_", name)
    return name.lower()


def wants(name):
    return re.match(r"[a-z]", name) and (re.search(r"[A-Z]", name) or "-" in name or "·" in name)


def declared(root):
    """The names to turn, each with what it turns into."""
    stands = set()
    for path in files(os.path.join(root, "crates"), ".antt"):
        if is_lemma_file(path):
            for line in read(path).splitlines():
                m = SIGNATURE.match(line)
                if m and not line.lstrip().startswith("--"):
                    stands.add(m.group(2))
    stands -= KIT
    found = {name: snake(name) for name in stands if wants(name)}
    found.update(TURNED)
    found.update(ODD)
    # A definition in camel case keeps its words; a lemma of the same words is said to be one.
    definitions = {snake(name) for name in stands if "-" not in name and wants(name)}
    for name in stands:
        if re.match(r"[a-z]", name) and snake(name) in definitions and ("-" in name or not wants(name)):
            found[name] = snake(name) + "_lem"
    return found


def functions(root):
    """A function's name where a proof cites a call of it: `.record-end` as `.record_end`."""
    found = {}
    for path in files(os.path.join(root, "crates"), ".rt"):
        for name in FUNCTION.findall(read(path)):
            if "_" in name:
                found[name.replace("_", "-")] = name
    return found


def turn(text, names):
    def one(m):
        word = m.group(0)
        before = text[: m.start()]
        if before.endswith(".") and not re.search(r"[A-Z]\w*\.$", before) and word in CALLS:
            return CALLS[word]
        return names.get(word, CALLS.get(word, word))

    return TOKEN.sub(one, text)


def turn_antt(text, names, camel):
    lines = []
    for line in text.splitlines(keepends=True):
        at = line.find("-- ") if not line.lstrip().startswith("--") else 0
        if at < 0 or '"' in line[: max(at, 0)]:
            lines.append(turn(line, names))
        else:
            lines.append(turn(line[:at], names) + turn_spans(turn(line[at:], camel), names))
    return "".join(lines)


def turn_spans(text, names):
    """Names between back ticks alone: elsewhere a word with a hyphen is English."""
    return re.sub(r"`[^`\n]*`", lambda m: turn(m.group(0), names), text)


def turn_rt(text, names, camel):
    lines = []
    clause = 0
    for line in text.splitlines(keepends=True):
        bare = line.lstrip()
        if bare.startswith("//"):
            lines.append(turn_spans(turn(line, camel), names))
            continue
        if clause > 0 or re.match(r"(ghost use|requires|ensures|ghost)\b", bare):
            clause += line.count("{") - line.count("}")
            lines.append(turn(line, names))
        else:
            clause = 0
            lines.append(line)
    return "".join(lines)


def turn_edit(text, names, camel):
    lines = []
    rust = True
    for line in text.splitlines(keepends=True):
        if line.startswith("file:"):
            rust = line.rstrip().endswith(".rt")
            lines.append(line)
        elif line.startswith(("old:", "new:")):
            body = line[4:]
            ghost = not rust or re.match(r"\s*(ghost use|requires|ensures)\b", body) or "≡" in body
            lines.append(line[:4] + (turn(body, names) if ghost else body))
        else:
            lines.append(turn_spans(turn(line, camel), names))
    return "".join(lines)


def together(root, names):
    """Names that would fall together in one file: two that turn into one, or one that turns into a word that stands there."""
    back = {}
    for old, new in names.items():
        back.setdefault(new, set()).add(old)
    for path in files(os.path.join(root, "crates"), ".antt", ".rt"):
        words = set(TOKEN.findall(re.sub(r"(?m)^\s*(--|//).*$", "", read(path))))
        for word in sorted(words):
            olds = (back.get(word, set()) | {word}) & words if word not in names else set()
            if len(olds) > 1 or (word in names and names[word] in words and not path.endswith(".rt")):
                yield f"{os.path.relpath(path, root)}: {sorted(olds) or [word, names[word]]}"


def main(argv):
    root = os.getcwd()
    names = declared(root)
    CALLS.update(functions(root))
    if "--dry" in argv:
        for old, new in sorted(names.items()):
            print(old, new)
        print("\n".join(sorted(set(together(root, names)))))
        return 0
    camel = {old: new for old, new in names.items() if "-" not in old}
    turns = {".antt": turn_antt, ".rt": turn_rt, ".edit": turn_edit}
    for end, how in turns.items():
        for path in files(os.path.join(root, "crates"), end):
            before = read(path)
            after = how(before, names, camel)
            if after != before:
                with open(path, "w", encoding="utf-8") as f:
                    f.write(after)
    return 0


if __name__ == "__main__":
    raise SystemExit(main(sys.argv[1:]))
