"""The rules by which a ledger is judged (docs/ledger.md), read once more, and beside the program's
word check.

usage: rules.py PROGRAM FOLDER

Each number of the ledger of the device in the folder is replaced in turn: by 2^64-1, by the next
number, and by the one before it, which are three ledgers a number. Prints how many there were, and
of how many the program says otherwise.
"""
import json
import re
import subprocess
import sys
from concurrent.futures import ThreadPoolExecutor

LIMIT = 2**64 - 1
MEMBERS = {"added", "base", "commit", "gone", "head", "never", "root"}


def are_numbers(values):
    return all(isinstance(value, int) and 0 <= value <= LIMIT for value in values)


def is_row(row):
    return len(row) >= 2 and are_numbers(row) and (row[1] == 1 or (row[1] == 0 and len(row) == 3))


def certificate(line):
    """The certificate that a line is, or None."""
    try:
        cert = json.loads(line)
    except ValueError:
        return None
    if not isinstance(cert, dict) or set(cert) != MEMBERS:
        return None
    fits = are_numbers([cert["base"], cert["commit"], cert["head"], cert["root"], *cert["gone"]])
    fits = fits and all(len(page) == 2 and are_numbers(page) for page in cert["never"])
    return cert if fits and all(is_row(row) for row in cert["added"]) else None


def chain(text, number):
    """The certificates that count for a root record with this number."""
    certs = [cert for cert in map(certificate, text.split("\n")) if cert]
    first = max((place for place, cert in enumerate(certs) if cert["commit"] == 0), default=0)
    certs = certs[first:]
    certs = [cert for cert, after in zip(certs, certs[1:] + [None]) if not after or after["commit"] != cert["commit"]]
    return certs[:-1] if certs and certs[-1]["commit"] == number + 1 else certs


def out_of_order(addrs, least):
    """The first address that isn't above the one before it, or that `least` refuses."""
    former = -1
    for addr in addrs:
        if addr <= former or not least(addr):
            return addr
        former = addr
    return None


def broken(live, former, cert):
    """The first of rules 1 to 9 that a certificate breaks, and the value; or None. `live` has the children of each address."""
    gone = set(cert["gone"])
    added = {row[0]: row[2:] if row[1] == 1 else [] for row in cert["added"]}
    parent = {child: addr for addr, children in live.items() for child in children}
    met = [child for row in cert["added"] for child in (row[2:] if row[1] == 1 else [])]
    if cert["commit"] != (former["commit"] + 1 if former else 0):
        return 1, cert["commit"]
    if cert["head"] < cert["base"] or (former and cert["base"] != former["head"]):
        return 2, cert["base"]
    inside = lambda addr: cert["base"] <= addr < cert["head"]
    fresh = out_of_order([row[0] for row in cert["added"]], inside)
    if fresh is None:
        fresh = out_of_order([page[1] for page in cert["never"]], lambda addr: inside(addr) and addr not in added)
    if fresh is not None:
        return 3, fresh
    dead = out_of_order(cert["gone"], lambda addr: addr in live)
    if dead is not None:
        return 4, dead
    if former and former["root"] not in gone:
        return 5, former["root"]
    torn = [addr for addr in gone if addr in parent and parent[addr] not in gone]
    if torn:
        return 5, min(torn)
    handed_over = {addr for addr in live if addr not in gone and parent.get(addr) in gone}
    for row in cert["added"]:
        for child in row[2:] if row[1] == 1 else []:
            if child >= row[0] or (child not in added and child not in handed_over):
                return 6, child
    for place, child in enumerate(met):
        if child in met[:place]:
            return 7, child
    if cert["root"] not in added:
        return 8, cert["root"]
    loose = [addr for addr in added if addr != cert["root"] and addr not in met]
    if loose:
        return 8, min(loose)
    dropped = [child for addr in gone for child in live[addr] if child not in gone and child not in met]
    return (9, min(dropped)) if dropped else None


def verdict(text, root):
    """The line that judges a ledger for a root record."""
    live, former, deleted = {}, None, 0
    for cert in chain(text, root["commit"]):
        rule = broken(live, former, cert)
        if rule:
            return "refused rule %d value %d" % rule
        live = {addr: children for addr, children in live.items() if addr not in cert["gone"]}
        live.update((row[0], row[2:] if row[1] == 1 else []) for row in cert["added"])
        deleted += len(cert["gone"]) + len(cert["never"])
        former = cert
    if not former or any(former[name] != root[name] for name in ("commit", "root", "head")):
        return "refused rule 10 value %d" % root["commit"]
    return "accepted commit %d live %d deleted %d" % (former["commit"], len(live), deleted)


def changed(text):
    """Each ledger that has one number changed."""
    for found in re.finditer(r"\d+", text):
        number = int(found.group())
        for other in {LIMIT, number + 1, max(number - 1, 0)} - {number}:
            yield text[: found.start()] + str(other) + text[found.end() :]


def main(program, folder):
    with open(folder + "/ledger") as file:
        text = file.read()
    root = certificate(text.strip().split("\n")[-1])
    ledgers = list(changed(text))

    def is_told_otherwise(ledger):
        said = subprocess.run([program, folder, "check"], input=ledger, capture_output=True, text=True, check=False).stdout
        return said.strip() != verdict(ledger, root)

    with ThreadPoolExecutor() as pool:
        otherwise = sum(pool.map(is_told_otherwise, ledgers))
    print("%d ledgers, %d told otherwise" % (len(ledgers), otherwise))


main(*sys.argv[1:])
