"""What it means that a log is refused, by the names in docs/LOG_FORMAT.md, and what to do."""
from __future__ import annotations

from dataclasses import dataclass


@dataclass(frozen=True)
class Refusal:
    """A condition under which a log can't be judged."""

    number: int
    meaning: str
    advice: str


RECORDER = "The recorder writes something else than the format asks for: see docs/LOG_FORMAT.md."
REFUSALS = {
    "Header": Refusal(1, "The file doesn't begin with MQTR, so it is no log.",
                      "Name the log itself. recorders/from-capture makes logs of a capture of network packets."),
    "Version": Refusal(2, "The log has a version of the format that this program doesn't read.",
                       "Use a newer program, or have the recorder write an older version (--log-version 1)."),
    "Role": Refusal(3, "The header doesn't say whether a client or a server is tested.", RECORDER),
    "Flags": Refusal(4, "The header has a flag that isn't defined.", RECORDER),
    "Kind": Refusal(5, "A record has a kind that isn't defined, or a record before it has a wrong length.", RECORDER),
    "Length": Refusal(6, "A record has a length that its kind doesn't allow.", RECORDER),
    "Nested": Refusal(7, "A connection is opened while another one is open. A log has one connection after the other.",
                      "Write the CLOSE of the old connection before the OPEN of the new one, also if a session is"
                      " taken over; and write a log for each Client Identifier."),
    "NotOpen": Refusal(8, "Bytes, a CLOSE or a REST are recorded while no connection is open.",
                       "Write the OPEN before anything else of a connection, and nothing of it after its CLOSE."),
    "ReleaseUnrecorded": Refusal(9, "There is a RELEASE, though the header says that releases aren't recorded.",
                                 "Set bit 0 of the header's flags if all releases are recorded; else write none."),
    "Cut": Refusal(10, "The log ends inside its header or a record.",
                   "The recorder was killed while it wrote, or the file was copied in part: record or copy it again."),
    "TooLarge": Refusal(11, "A packet is larger than the program takes.",
                        "Look at the Remaining Length at this place: the sender has announced so many bytes."),
    "OtherVersion": Refusal(12, "A client speaks another version of MQTT than 5.0, for example 3.1.1.",
                            "Have the client use MQTT 5.0, or leave its log out (--allow-refused 12)."),
    "TooManyEarly": Refusal(13, "A connection has more than 4,096 events before its CONNACK, which decides to which"
                                " session they belong.",
                            "Have the client send less before the CONNACK comes, if it has a setting for that."),
    "TooLong": Refusal(14, "The log has more records or events than the program counts.",
                       "Begin a new log where a session begins."),
}


def refusal_of(line: str) -> Refusal | None:
    """What a line `refused 7 Nested at 13` means."""
    words = line.split()
    return REFUSALS.get(words[2]) if len(words) > 2 and words[0] == "refused" else None
