"""Prints the run that fills the history: 1,048,576 changes may be accepted in one opening, and no more."""

MOST = 1_048_576
ID = "00000000-0000-0000-0000-000000000001"

print("# The full history.\n")

# the same value over and over; what was accepted stays readable, and an empty transaction still commits
print("== one opening accepts 1,048,576 changes, a transaction's among them")
print(f"> hives 1\nok\n> begin t {ID}\nok\n> begin u {ID}\nok")
for number in range(1, MOST):
    print(f"> set 0: v 4 -\naccepted {number}")
print(f"> tx t set 0: w 4 -\nok\n> commit t\ncommitted {MOST}")
print("> set 0: v 4 01\nE12 HistoryFull")
print(f"> begin t {ID}\nok\n> tx t create 0:K\ncreated 1\n> commit t\nE12 HistoryFull\n> outcome t\nactive")
print("> create 0:\nopened\n> commit u\ncommitted 0\n> get 0: v\nvalue 4 -")
print("status 1")
