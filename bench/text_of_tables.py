"""Writes the largest table text: 1,024 interfaces with those of the core, each of 256 requests that
make an object of one interface and name one of another."""

from scripts import usage

CORE = 19
MOST = 1024
MESSAGES = 256


def main():
    usage.words(__doc__, most=0)
    count = MOST - CORE
    for place in range(count):
        print(f"interface i{place} 1")
        for opcode in range(MESSAGES):
            made, named = (place + opcode) % count, (place * opcode) % count
            print(f"request m{opcode} n(i{made}) o(i{named}) u")


if __name__ == "__main__":
    main()
