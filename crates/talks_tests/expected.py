"""What the program of talks_tests writes, computed a second time, from its rules: `python3 expected.py > stdout`.

Two clients take turns. At each look one of them does one thing: it comes, or hears the message at the front of its bytes, or gets what it wants of the
machine, or ends. A message is a length byte and a text: 'o..' opens a session, '?' asks how it stands, 'd' asks what a
statement would answer, which are no rows, 'b' takes the writer lock, 'm' gives it back,
any other is a statement. An answer is said as a letter and the last digit of the count of steps, which an opening does not tell.
"""

ANSWERS = {"o": "o", "b": "b", "m": "m"}


class Client:
    def __init__(self, texts):
        self.texts, self.told, self.wants, self.stage = list(texts), "", None, "awaited"


def serve(first, second):
    clients = [Client(first), Client(second)]
    steps, lock, sessions, waiting, turn = 0, None, set(), [], 0
    while not (all(c.stage == "gone" for c in clients) and not waiting):
        me, client = turn, clients[turn]
        turn = 1 - turn
        if client.stage == "gone":
            continue
        if client.stage == "awaited":
            client.stage = "there"
        elif client.wants is None and client.texts:
            client.wants = client.texts.pop(0)
        elif client.wants is None:
            if me in sessions:
                sessions.remove(me)
                lock = None if lock == me else lock
            else:
                client.stage = "gone"
                waiting = [c for c in waiting if c != me]
        elif client.wants == "?":
            client.told += "+." if lock == me else "-."
            client.wants = None
            waiting = [c for c in waiting if c != me]
        elif client.wants == "d":
            client.told += "n."
            client.wants = None
            waiting = [c for c in waiting if c != me]
        elif client.wants == "b" and lock != me and (lock is not None or (waiting and waiting[0] != me)):
            waiting += [] if me in waiting else [me]
        else:
            steps += 1
            said = ANSWERS.get(client.wants[0], "s")
            if said == "o":
                said = "!" if me in sessions else said
                sessions.add(me)
            elif said == "b":
                said, lock = ("!", lock) if lock is not None else (said, me)
            elif said == "m":
                lock = None if lock == me else lock
            client.told += said + ("." if said in "!o" else str(steps % 10))
            client.wants = None
            waiting = [c for c in waiting if c != me]
    return [c.told for c in clients]


print("done")
for told in serve(["oann", "b", "x", "m", "?", "d"], ["obob", "b", "x"]):
    print(told)
