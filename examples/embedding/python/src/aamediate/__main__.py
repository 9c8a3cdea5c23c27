"""Answers the job or the question on standard input: python3 -m aamediate check|run|replay|policy-check|policy-ask|policy-diff < input.json"""

import sys

import aamediate

CALLS = {"check": aamediate.check, "run": aamediate.run, "replay": aamediate.replay}
ASKING = {"policy-check": aamediate.policy_check, "policy-ask": aamediate.policy_ask, "policy-diff": aamediate.policy_diff}


def answer(word, given):
    """What is printed, and the exit status."""
    if word in CALLS:
        return aamediate.Answer(CALLS[word](given), 0, "")
    return ASKING[word](given)


def main():
    if len(sys.argv) != 2 or sys.argv[1] not in (*CALLS, *ASKING):
        sys.exit(print("usage: aamediate check|run|replay|policy-check|policy-ask|policy-diff", file=sys.stderr) or 2)
    try:
        found = answer(sys.argv[1], sys.stdin.buffer.read())
        sys.stderr.write(found.said)
        sys.stdout.buffer.write(found.text)
        sys.exit(found.status)
    except aamediate.Fault as fault:
        sys.stderr.write(fault.line.removesuffix("\n") + "\n")
        sys.exit(fault.status)


main()
