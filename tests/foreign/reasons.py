"""Why a lookup ended as it did, read from the frames that were seen."""
import time

from lisp import ACTIONS, NOTIFY, REFERRAL, REGISTER, REPLY, REQUEST
from players import title
from tree import ABSENT, NAMES

KINDS = {REQUEST: "Map-Request", REPLY: "Map-Reply", REFERRAL: "Map-Referral", REGISTER: "Map-Register",
         NOTIFY: "Map-Notify"}


def holds(record, instance, eid):
    prefix = record["prefix"]
    return prefix is not None and record["instance"] == instance and prefix.version == eid.version and eid in prefix


def told(frame):
    """A message in a few words."""
    said, kind = frame.said, KINDS[frame.said["kind"]]
    if said["kind"] == REQUEST:
        kind += f" (D {said['ddt']}, /{said['length']})"
    if said["kind"] == REFERRAL and said["records"]:
        kind += f" {ACTIONS[min(said['records'][0]['action'], 5)]} {said['records'][0]['prefix']}"
    return f"{kind} from {NAMES.get(frame.source, frame.source)} to {NAMES.get(frame.target, frame.target)}"


class Reasons:
    """A reason is a cell of the table: its mark, FAILS at Kihyamut or oor, and why."""

    def __init__(self, players):
        self.players = players

    def at(self, host, why):
        full = self.players.full(host)
        return {"mark": "oor" if full == "OOR" else "FAILS", "why": f"{full}'s {title(host)} {why}"}

    def of(self, question, trail):
        """The first thing in a trail that explains why no good reply came, or its last message."""
        found = self.blame(question, trail)
        return found or {"mark": "FAILS", "why": "no reply; last seen: " + (told(trail[-1]) if trail else "nothing")}

    def blame(self, question, trail):
        referrals = (self.of_referral(question, frame) for frame in trail)
        requests = (self.of_request(question.eid, frame, trail) for frame in trail)
        found = next(filter(None, referrals), None) or next(filter(None, requests), None)
        died = self.players.died()
        if not found and died:
            found = self.at(died[0], f"ended by itself ({self.players.ending(died[0])})")
        return found

    def of_referral(self, question, frame):
        """What is wrong with a referral of OOR's."""
        host, records = NAMES.get(frame.source, "?"), frame.said.get("records")
        if frame.said["kind"] != REFERRAL or not records or self.players.full(host) != "OOR":
            return None
        if not holds(records[0], question.instance, question.eid):
            wrong = f"{records[0]['prefix']} for {question.eid}"
            return self.at(host, f"names a prefix that doesn't hold the identifier ({wrong})")
        if records[0]["action"] == ACTIONS.index("NOT-AUTHORITATIVE"):
            where = " where RFC 8111, 6.1 has DELEGATION-HOLE" if question.column in ABSENT else ""
            return self.at(host, "says NOT-AUTHORITATIVE" + where)
        return None

    def of_request(self, eid, frame, trail):
        """Who is silent after a request."""
        said, host = frame.said, NAMES.get(frame.target)
        if said["kind"] != REQUEST or host not in self.players.who:
            return None
        passed = {one.said["nonce"] for one in trail if one.said["kind"] == REQUEST and NAMES.get(one.source) == "ms"}
        answered = {one.said["nonce"] for one in trail if one.said["kind"] in (REPLY, REFERRAL)}
        asked_on = any(NAMES.get(one.source) == "resolver" for one in trail if one.moment > frame.moment)
        what = "a request for a prefix" if said["length"] < eid.max_prefixlen else "a request"
        if host == "resolver" and what != "a request" and not asked_on:
            return self.at(host, f"is silent after {what}")
        if host == "ms" and not said["ddt"] and said["nonce"] not in passed | answered:
            return self.at(host, "drops the ITR's request (bit D clear)")
        is_overdue = said["nonce"] not in answered and frame.moment < time.time() - 1
        if said["ddt"] and host in ("root", "node", "ms") and is_overdue:
            return self.at(host, f"is silent after {what}")
        return None
