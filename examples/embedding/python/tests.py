"""Calls of the library as it is installed, also side by side: python3 -m unittest tests"""

import json
import threading
import unittest

import aamediate

JOB = b'{"policy":"profile web { /srv/** r, }","tasks":[{"label":"web","requests":[{"file":"/srv/a","mask":"r"}]}]}'

QUESTION = {"files": [{"name": "web", "text": "profile web { /srv/** r, }"}], "words": ["r:/srv/a", "r:/etc/a"]}


def bytes_of(**members):
    return json.dumps({**QUESTION, **members}).encode()


class Calls(unittest.TestCase):
    def test_a_job_is_answered(self):
        self.assertEqual(aamediate.run(JOB), b'0 0 granted label="web"\n')
        self.assertEqual(aamediate.check(JOB), b"ok 1 profiles 1 file rules 0 passed over\n")

    def test_what_is_no_job_is_refused(self):
        for given in (None, b"", bytearray(), memoryview(b""), b"{", b"\xff\xfe", b"[]"):
            with self.assertRaises(aamediate.Refused) as why:
                aamediate.check(given)
            self.assertTrue(why.exception.line.startswith("job "))

    def test_a_question_is_answered(self):
        found = aamediate.policy_ask(bytes_of())
        self.assertEqual((found.status, found.said), (4, ""))
        self.assertEqual([it["granted"] for it in json.loads(found.text)], [True, False])
        self.assertEqual(aamediate.policy_ask(bytes_of(words=["r:/srv/a"])).status, 0)
        self.assertEqual(aamediate.policy_check(bytes_of()).status, 0)
        self.assertEqual(aamediate.policy_check(bytes_of(files=[{"name": "web", "text": "profile web {"}])).status, 1)

    def test_two_policies_are_compared(self):
        sides = {it: {"files": [{"name": it, "text": "profile web { /srv/a %s, }" % letters}]} for it, letters in (("old", "r"), ("new", "rw"))}
        found = aamediate.policy_diff(json.dumps(sides).encode())
        self.assertEqual(found.status, 4)
        self.assertEqual([(it["sign"], it["request"]) for it in json.loads(found.text)["lines"]][:1], [("+", "w:/srv/a")])
        self.assertEqual(aamediate.policy_diff(json.dumps({**sides, "old": sides["new"]}).encode()).status, 0)

    def test_what_is_no_question_is_refused(self):
        for given, said in ((b"{", "no JSON"), (b"[]", "no object"), (bytes_of(file=[]), "unknown member: file"), (bytes_of(words=1), ": words")):
            with self.assertRaises(aamediate.Refused) as why:
                aamediate.policy_ask(given)
            self.assertIn(said, why.exception.line)
            self.assertEqual(why.exception.status, 2)

    def test_bytes_are_wanted(self):
        for given in ("{}", 1, [1]):
            self.assertRaises(TypeError, aamediate.run, given)

    def test_a_long_text_comes_whole(self):
        requests = b",".join([b'{"file":"/etc/a","mask":"r"}'] * 4096)
        job = b'{"policy":"profile web { }","tasks":[{"label":"web","requests":[%s]}]}' % requests
        self.assertEqual(aamediate.run(job).count(b"\n"), 2 * 4096)

    def test_eight_threads_call_at_once(self):
        wanted, got = aamediate.run(JOB), []
        threads = [threading.Thread(target=lambda: got.extend(aamediate.run(JOB) for _ in range(100))) for _ in range(8)]
        for it in threads:
            it.start()
        for it in threads:
            it.join()
        self.assertEqual(got, [wanted] * 800)


if __name__ == "__main__":
    unittest.main()
