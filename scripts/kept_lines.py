"""What a journal's file has of lines that were sent, read beside the program.

The lines open folios of their own, so that each is entered whatever was received before it.
"""

import os
import re

import asking
import checks
import frames
import spelling
import wrong_lines

# A receipt's stamp stands ahead of it, then its sender and its reference.
STAMP = 6
REFERENCE = slice(10, 18)
ANY_STAMP = {"day": "2000-01-01", "minute": 0}

# A whole reply to a line, with the status that goes with its word.
REPLY = re.compile(rb"HTTP/1\.1 (?:201 Created|200 OK)\r\nContent-Type: text/plain\r\nContent-Length: \d+\r\n\r\n((?:accepted|repeated) \d+\n)")


def line(reference):
    """A line with this reference. Lines differ in length, so that they meet the edges of a disk's blocks in many ways."""
    consents = [checks.consent(1, person) for person in range(10, 11 + reference % 5)]
    return {"sender": 1, "reference": reference, "item": checks.filed([checks.opening(reference)], consents)}


def text_of(reference):
    return wrong_lines.compact(line(reference)).encode()


def texts_of(references):
    return b"".join(text_of(reference) + b"\n" for reference in references)


def journal_of(references):
    """The bytes of a journal that has these lines."""
    return checks.journal([spelling.receipt({**ANY_STAMP, **line(reference)}) for reference in references])


def said_by(reply):
    """The word and the number of a reply; 0 where it is a refusal and has none."""
    word, _, number = reply.strip().rpartition(" ")
    return (word, int(number)) if number.isdecimal() else (reply.strip(), 0)


def told_by(output, references):
    """The whole replies of an output, by the references of the lines that were sent."""
    replies = output[: output.rfind(b"\n") + 1].decode().splitlines()
    return {reference: said_by(reply) for reference, reply in zip(references, replies)}


def post_of(reference):
    return asking.head("POST", "/receipts", text_of(reference))


def posted(client, reference):
    """Posts a line over a connection: the status of the reply, with its word and number."""
    client.request("POST", "/receipts", text_of(reference))
    answer = client.getresponse()
    return answer.status, said_by(answer.read().decode())


def replies_in(told):
    """The word and the number of each whole reply that receives, in what a connection brought."""
    return [said_by(body.decode()) for body in REPLY.findall(told)]


class Kept:
    """The receipts of the journal's file of a folder, as far as it was read."""

    def __init__(self, folder):
        self.path = os.path.join(folder, checks.JOURNAL)
        self.front, self.stamp = frames.HEAD, b""
        self.references, self.numbers = [], {}
        # How many bytes stand behind the closed gate, and how many receipts of the last run had no reply.
        self.behind = self.unsaid = 0

    def read(self, sent):
        """Reads the file again; what is wrong with it, and nothing where it has what it had and then whole
        receipts of the lines that were sent, each once."""
        file = self.bytes()
        if not self.references and (len(file) <= 1 or file[0] == 0):
            return ""
        if not file.startswith(self.front) or len(file) == len(self.front):
            return "what stood there is not there"
        gates, bodies, is_cut = frames.frames_of(file, len(self.front))
        if is_cut:
            return f"no whole frame follows the open gate at {gates[-1]}"
        for body in bodies:
            reference = int.from_bytes(body[REFERENCE], "big")
            if reference not in sent or body[STAMP:] != spelling.receipt({**ANY_STAMP, **line(reference)})[STAMP:]:
                return f"receipt {len(self.references) + 1} is no line that was sent"
            if reference in self.numbers or body[:STAMP] < self.stamp:
                return f"receipt {len(self.references) + 1} is there twice, or is stamped before the last"
            self.references.append(reference)
            self.numbers[reference] = len(self.references)
            self.stamp = body[:STAMP]
        self.front, self.behind = file[: gates[-1]], len(file) - gates[-1] - 1
        return ""

    def bytes(self):
        try:
            with open(self.path, "rb") as file:
                return file.read()
        except FileNotFoundError:
            return b""

    def wrong_after(self, told, sent, most_in_hand):
        """What is wrong with the file, or with the replies of a run that was sent these lines: each as the file has
        the line now and had it before, and no more lines received without a reply than the run has in hand."""
        before = len(self.references)
        if wrong := self.read(sent):
            return wrong
        if unlike := [(reference, reply) for reference, reply in told.items() if reply != self.reply_to(reference, before)]:
            return f"replies that the file does not have, by reference: {checks.shortened(unlike)}"
        self.unsaid = len(self.references) - before - sum(word == "accepted" for word, _ in told.values())
        return f"{self.unsaid} receipts without a reply" if self.unsaid > most_in_hand else ""

    def reply_to(self, reference, before):
        """The word and the number that answer a line, where so many receipts were there before the run."""
        number = self.numbers.get(reference, 0)
        return "repeated" if number <= before else "accepted", number
