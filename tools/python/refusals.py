"""What isn't translated."""


class Refused(Exception):
    """Something of a file that has no translation: where, what, and what FROM_ASYNCIO tells to write."""

    def __init__(self, line, what, row):
        super().__init__(what)
        self.line, self.what, self.row = line, what, row


def refuse(node, what, row):
    raise Refused(getattr(node, "lineno", 0), what, row)
