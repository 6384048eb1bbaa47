"""Tests of what psu-relay knows of a session: response times, unanswered queries, messages of several frames."""
import unittest

from psu.frames import Header, MessageType
from psu.relay_session import KEPT_QUERIES, Session, Sessions, Transmissions, asks


def data(message_id, kind=MessageType.DATA_END):
    return Header(kind, 0, message_id, 0)


class QueriesTest(unittest.TestCase):
    def setUp(self):
        self.session = Session(1)

    def test_the_time_to_a_response(self):
        self.session.note_request(data(2), b"VOLT?", 10.0)
        self.session.note_request(data(4), b"CURR?", 11.0)
        self.assertEqual(self.session.note_response(data(2, MessageType.DATA), 12.5), 2.5)
        self.assertEqual(self.session.note_response(data(2), 13.0), 3.0)
        self.assertEqual(self.session.note_response(data(4), 13.0), 2.0)
        self.assertIsNone(self.session.note_response(data(6), 13.0))

    def test_the_times_of_both_kinds_of_lock_messages_are_in_order(self):
        for moment in (1.0, 2.0):
            self.session.note_request(Header(MessageType.ASYNC_LOCK, 1, 0, 0), b"", moment)
        response = Header(MessageType.ASYNC_LOCK_RESPONSE, 1, 0, 0)
        self.assertEqual([self.session.note_response(response, 5.0) for _ in range(3)], [4.0, 3.0, None])

    def test_queries_without_a_response(self):
        for message_id, text in ((2, b"VOLT?"), (4, b"VOLT 5"), (6, b"CURR?")):
            self.session.note_request(data(message_id), text, 1.0)
        self.session.note_delivered(data(6))
        self.assertEqual([query.text for query in self.session.unanswered()], [b"VOLT?"])
        # Until the server has acknowledged a device clear the response may be under way.
        self.session.note_request(Header(MessageType.DEVICE_CLEAR_COMPLETE, 0, 0, 0), b"", 2.0)
        self.assertEqual(len(self.session.unanswered()), 1)
        self.session.forget_queries()
        self.assertEqual(self.session.unanswered(), [])

    def test_a_message_of_several_frames_is_known_by_its_last_message_id(self):
        self.session.note_request(data(2, MessageType.DATA), b"VOLT?;", 1.0)
        self.session.note_request(data(4), b"CURR?", 2.0)
        self.assertEqual(self.session.query_of(4), b"VOLT?;CURR?")
        self.assertEqual(self.session.query_of(2), b"")

    def test_old_queries_are_no_longer_known(self):
        for number in range(KEPT_QUERIES + 1):
            self.session.note_request(data(number), b"VOLT?", 1.0)
        self.assertEqual(len(self.session.unanswered()), KEPT_QUERIES)
        self.assertIsNone(self.session.note_response(data(0), 2.0))
        self.assertIsNotNone(self.session.note_response(data(1), 2.0))

    def test_which_messages_ask(self):
        for text in (b"VOLT?", b'MMEM:DATA? "a"', b"*PUD #12??;*PUD?", b'MMEM:DEL "a";*IDN?', b"*PUD #x?"):
            self.assertTrue(asks(text), text)
        for text in (b"VOLT 5", b'MMEM:DEL "a?"', b"MMEM:DEL 'a?'", b"*PUD #12??", b"*PUD #3100abc?", b""):
            self.assertFalse(asks(text), text)


class TransmissionsTest(unittest.TestCase):
    def begins(self, *kinds):
        transmissions = Transmissions()
        return [transmissions.begins_message(Header(kind, 0, 0, 0)) for kind in kinds]

    def test_the_first_frame_begins_a_message(self):
        kinds = (MessageType.DATA, MessageType.DATA, MessageType.DATA_END, MessageType.DATA_END)
        self.assertEqual(self.begins(*kinds), [True, False, False, True])

    def test_a_device_clear_ends_one(self):
        kinds = (MessageType.DATA, MessageType.DEVICE_CLEAR_COMPLETE, MessageType.DATA)
        self.assertEqual(self.begins(*kinds), [True, True, True])


class SessionsTest(unittest.TestCase):
    def test_the_second_connection_finds_its_session(self):
        sessions = Sessions()
        first, second = sessions.open(), sessions.open()
        sessions[7] = first
        sessions[9] = second
        self.assertIs(sessions.get(9), second)
        self.assertEqual((first.number, second.number), (1, 2))
        sessions.remove(second)
        self.assertIsNone(sessions.get(9))
        self.assertIs(sessions.get(7), first)


if __name__ == "__main__":
    unittest.main()
