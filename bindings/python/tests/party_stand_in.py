"""A program in the place of `x509check session`, which answers as a plan says: for tests of what a party makes of bad answers.

    party_stand_in.py FOLDER [--profile wide] session ..

FOLDER/plan is a list in JSON of pairs: the beginning of a line, and what to do with the first line that begins so, once or, if `again` is
true, each time. `write` is octets, as text in latin-1; `sleep` are seconds before it; `exit` is a status to end with behind it; `deaf` is
true for no more reading. Other lines are answered as a session would answer if all is good. FOLDER/log has each line that was read, and
`started` for each start; FOLDER/words has the words behind FOLDER, a line for each start.
"""

import json
import os
import sys
import time

FOLDER = sys.argv[1]
PLAN, LOG = os.path.join(FOLDER, "plan"), os.path.join(FOLDER, "log")
GOOD = {"forget": "0 forgotten\n", "believe": "0 believed\n", "deliver": "0 stored 1 kept 0 contradicted 0\n", "check": "0 valid\n"}


def log(line):
    with open(LOG, "a", encoding="latin-1") as file:
        file.write(line + "\n")


def planned(line):
    """What to do with a line. What is done once is taken out of the plan, also for the next process."""
    if not os.path.exists(PLAN):
        return None
    with open(PLAN, encoding="ascii") as file:
        plan = json.load(file)
    for at, (begin, deed) in enumerate(plan):
        if line.startswith(begin):
            if not deed.get("again"):
                del plan[at]
                with open(PLAN + ".new", "w", encoding="ascii") as file:
                    json.dump(plan, file)
                os.replace(PLAN + ".new", PLAN)
            return deed
    return None


def main():
    with open(os.path.join(FOLDER, "words"), "a", encoding="latin-1") as file:
        file.write(" ".join(sys.argv[2:]) + "\n")
    log("started")
    while True:
        line = sys.stdin.buffer.readline().decode("latin-1")
        if not line:
            return 0
        line = line[:-1]
        log(line[:200])
        deed = planned(line) or {"write": GOOD.get(line.split(" ")[0], "5 bad line\n")}
        time.sleep(deed.get("sleep", 0))
        sys.stdout.buffer.write(deed.get("write", "").encode("latin-1"))
        sys.stdout.buffer.flush()
        if "exit" in deed:
            return deed["exit"]
        while deed.get("deaf"):
            time.sleep(60)


if __name__ == "__main__":
    sys.exit(main())
