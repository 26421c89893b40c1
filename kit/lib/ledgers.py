"""The ledger of an administrator's seeds: which were used, and what their indexes signed. A seed has one owner, and an index signs one document, for ever."""

import fcntl
import hashlib
import os
import re

from scripts import Refused

DIGEST = re.compile(r"[0-9a-f]{64}")
SIGNED = re.compile(r"signed (\d+) ([0-9a-f]{64})")


def digest_of(seed):
    return hashlib.sha256(bytes.fromhex(seed)).hexdigest()


def digest_of_draft(draft):
    return hashlib.sha256(draft.encode()).hexdigest()


class Ledger:
    """Lines `DIGEST HEIGHT OWNER` of seeds that were used, and `DIGEST HEIGHT signed INDEX DRAFT` of what an administrator's index signed, the draft by its
    SHA-256. Who holds it open has it alone."""

    def __init__(self, path):
        self.path = path
        try:
            self.file = open(os.open(path, os.O_RDWR | os.O_CREAT | os.O_APPEND, 0o600), "r+", encoding="utf-8")
            fcntl.flock(self.file, fcntl.LOCK_EX)
        except OSError as fault:
            raise Refused(f"{path}: {fault.strerror}") from fault
        self.used, self.signed = {}, {}
        for line in self.file:
            words = line.rstrip("\n").split(" ", 2)
            if len(words) != 3 or not DIGEST.fullmatch(words[0]) or words[1] not in ("5", "10"):
                raise Refused(f"{path}: no ledger of seeds; a line is `DIGEST HEIGHT OWNER` or `DIGEST HEIGHT signed INDEX DRAFT`")
            if found := SIGNED.fullmatch(words[2]):
                self.signed.setdefault(words[0], {})[int(found[1])] = found[2]
            else:
                self.used[words[0]] = (int(words[1]), words[2])

    def refuse_used(self, seeds, height):
        """Refuses seeds of which one was used, or two are one."""
        owners = {}
        for owner, seed in seeds.items():
            digest = digest_of(seed)
            if digest in owners:
                raise Refused(f"{owners[digest]} and {owner} have one seed; each has its own")
            owners[digest] = owner
            if digest in self.used:
                old, by = self.used[digest]
                why = "a seed is used once" if old == height else f"a seed has one height for ever, and height {height} would give its first keys again"
                raise Refused(f"the seed of {owner} was used at height {old} by {by}: {why}")

    def add(self, seeds, height, folder):
        """Writes the seeds down, on the disk, before anything is made of them."""
        self.write([f"{digest_of(seed)} {height} {owner} of {folder}" for owner, seed in seeds.items()])

    def refuse_signed(self, seed, index, draft):
        """Refuses an administrator's index that isn't above all that signed, but where it signed this draft itself."""
        before = self.signed.get(digest_of(seed), {})
        if before and index <= max(before) and before.get(index) != digest_of_draft(draft):
            raise Refused(f"the administrator's index {index} may have signed another document, since index {max(before)} has: draft.toml is an older one. "
                          f"Never sign with it; put admin_index to {max(before)}, and version to that of the last document, in draft.toml, and begin again")

    def signs(self, seed, height, index, draft):
        """Writes down, on the disk, that the administrator's index signed this draft, before anybody sees what was signed."""
        self.write([f"{digest_of(seed)} {height} signed {index} {digest_of_draft(draft)}"])

    def write(self, lines):
        for line in lines:
            self.file.write(line + "\n")
        self.file.flush()
        os.fsync(self.file.fileno())
