"""Tests of how a raw socket's bytes are divided into messages."""
import random
import unittest

from psu.raw_messages import LARGEST_BLOCK, LARGEST_PART, Divider


def divided(data, sizes=None):
    """Returns the messages, and what is left, where the bytes come in pieces of these sizes."""
    divider, messages, message, at = Divider(), [], b"", 0
    for size in sizes or [len(data)]:
        divider.feed(data[at : at + size])
        at += size
        piece = divider.next_piece()
        while piece is not None:
            message += piece.data
            if piece.is_end:
                messages.append(message)
                message = b""
            piece = divider.next_piece()
    return messages, message + divider.rest()


# Each line: messages, each of them whole.
WHOLE = [
    [b"*IDN?\n", b"VOLT 5;VOLT?\r\n", b"\n", b" \n"],
    [b'MMEM:DATA "a",#15a\nb\nc\n', b"*IDN?\n"],  # line feeds in a block
    [b'MMEM:DATA "a",#15a\nb\nc ;DATA? "a"\n'],  # `;` after a block
    [b'MMEM:DATA "a",#10\n', b"*IDN?\n"],  # an empty block
    [b"*PUD #3002\n\n\n"],  # a length of three digits
    [b"*PUD #0abc\n", b"d\n"],  # up to the line feed
    [b'*DMC "A",#11"\n', b"*IDN?\n"],  # a quote in a block begins no string
    [b'*DMC "#15",#11x\n', b"*IDN?\n"],  # `#` in a string begins no block
    [b"*DMC 'it''s #15',#11\n\n", b"*IDN?\n"],  # a doubled quote
    [b"*DMC \"it's\",#11\n\n"],  # the other quote
    [b'MMEM:DEL "abc\n', b'd"\n'],  # a string that is open at a line feed
    [b"VOLT #H10;#15a\n", b"b\n"],  # no block, so that nothing after it is one
    [b"*PUD #2a5\n", b"b\n"],  # no length
    [b"*PUD #2\n", b"b\n"],
    [b"*PUD #\n", b"b\n"],
    [b"*PUD #11xy #15a\n", b"b\n"],  # after a block only `,`, `;` or the end
    [b'MMEM:DEL "a"b,#15a\n', b"b\n"],  # so after a string
    [b"*PUD #11x\t ,#15a\nb\nc\n"],
    [b"\xff\xfe\n", b"*IDN?\n"],
    [b"*PUD #9999999999\n", b"*IDN?\n"],  # a length that is an error of the client
    [b"*PUD #816777217\n", b"*IDN?\n"],
]


class DividerTest(unittest.TestCase):
    def test_messages_at_once(self):
        for messages in WHOLE:
            self.assertEqual(divided(b"".join(messages)), (messages, b""), messages)

    def test_messages_byte_by_byte(self):
        for messages in WHOLE:
            data = b"".join(messages)
            self.assertEqual(divided(data, [1] * len(data)), (messages, b""), messages)

    def test_messages_in_pieces(self):
        generator = random.Random(1)
        messages = [message for group in WHOLE for message in group]
        data = b"".join(messages)
        for _ in range(50):
            sizes = [generator.randrange(1, 40) for _ in range(len(data))]
            self.assertEqual(divided(data, sizes), (messages, b""))

    def test_what_has_no_end_is_left(self):
        for data in (b"*IDN?", b'MMEM:DEL "a', b'MMEM:DATA "a",#15a\nb\n', b"*PUD #", b"*PUD #2", b"*PUD #0a"):
            self.assertEqual(divided(data), ([], data))

    def test_the_largest_block(self):
        data = b"*PUD #816777216" + b"\n" * LARGEST_BLOCK + b"\n"
        messages, rest = divided(data)
        self.assertEqual(([len(it) for it in messages], rest), ([len(data)], b""))

    def test_a_long_message_is_passed_on_in_parts(self):
        divider = Divider()
        divider.feed(b"*PUD #816777216")
        self.assertIsNone(divider.next_piece())
        for _ in range(10):
            divider.feed(b"\n" * LARGEST_PART)
            piece = divider.next_piece()
            self.assertFalse(piece.is_end)
            self.assertGreaterEqual(len(piece.data), LARGEST_PART)
            self.assertIsNone(divider.next_piece())
        self.assertEqual(divider.rest(), b"")

    def test_a_part_is_no_larger_than_the_server_takes(self):
        divider = Divider()
        for _ in range(4):
            divider.feed(b"x" * (LARGEST_PART - 1))
            piece = divider.next_piece()
            self.assertTrue(piece is None or len(piece.data) < 2 * LARGEST_PART)


if __name__ == "__main__":
    unittest.main()
