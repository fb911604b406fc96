"""What isn't as the RFCs ask, by whose doing, and why. Nothing else may fail, and what is listed here may not pass."""
import fnmatch

# (rows, column, mark, a part of the reason, why it is so). In `rows` a ? is any of K, O, P and -.
CELLS = (
    ("??O?", "hole-node", "oor", "doesn't hold the identifier",
     "OOR's node sets a bit that the prefix of its hole hasn't: 11.2.0.0/15 for 10.2.0.1"),
    ("K??[OP]", "hole-ms", "oor", "NOT-AUTHORITATIVE",
     "OOR's Map-Server says NOT-AUTHORITATIVE for a hole, after which Kihyamut's resolver sends the ITR nothing"),
    ("---O", "hole-ms", "oor", "doesn't hold the identifier",
     "OOR's Map-Server sets such a bit in a negative Map-Reply: 11.1.64.0/18 for 10.1.77.1"),
)
# Cells of that list which depend on when OOR's resolver ends by itself: they may pass, too.
UNSURE = (("O?O?", "hole-node"),)
# Variants of odd.py, and why they aren't as asked.
VARIANTS = {
    "serve: ECM with the S bit and an AD section": "LISP-SEC is left out (RFC 9303)",
    "resolve: ECM with the S bit and an AD section": "LISP-SEC is left out (RFC 9303)",
}


def idle(rows, columns):
    """The entries of the lists that are of no cell."""
    listed = [entry[:2] for entry in CELLS] + list(UNSURE)
    return [entry for entry in listed if entry[1] not in columns or not fnmatch.filter(rows, entry[0])]


def cell(row, column):
    """(mark, a part of the reason, why it is so) of a cell that isn't to be ok, else None."""
    found = [rest for rows, there, *rest in CELLS if there == column and fnmatch.fnmatchcase(row, rows)]
    return found[0] if found else None


def is_unsure(row, column):
    return any(there == column and fnmatch.fnmatchcase(row, rows) for rows, there in UNSURE)
