"""Sells a book by a live session: python3 examples/serve.py ./hib serve (docs/SERVE.md)."""
import json
import subprocess
import sys

FRAME = """hib 1
entity Book read-write versioned 100
column title text
column stock int
row Book 1 v0 "Dune" 9
requests
"""


class Shop:
    def __init__(self, command):
        self.process = subprocess.Popen(command, stdin=subprocess.PIPE, stdout=subprocess.PIPE, text=True)
        self.process.stdin.write(FRAME)

    def ask(self, **request):
        self.process.stdin.write(json.dumps(request) + "\n")
        self.process.stdin.flush()
        answer = json.loads(self.process.stdout.readline())
        if "refused" in answer:
            raise ValueError(answer)
        return [entry["reply"] for entry in answer["answers"]]


if len(sys.argv) < 2 or sys.argv[1] in ("-h", "--help"):
    sys.exit(__doc__)
shop = Shop(sys.argv[1:])
stock = int(shop.ask(session="clerk", say="find Book 1")[2].split()[-1])
shop.ask(session="clerk", say=f"set Book 1 stock {stock - 1}")
print("committed" in shop.ask(session="clerk", say="commit"))
shop.ask(end=True)
