"""The printing program against the second one: fresh random inputs and hand-made ones, byte for byte."""

import os
import random
import subprocess
import sys

sys.path.insert(0, os.path.dirname(os.path.dirname(os.path.abspath(__file__))))

from second import printing  # noqa: E402

INPUTS = 3000
SPAN = 65536


def full(size):
    """An input of this size: a list of one word, and blank queries to fill it."""
    head = b"1\n+aa\n"
    rest = size - len(head)
    return head + b"?\n" * (rest // 2) + b"?" * (rest % 2)


def hand_made():
    """Inputs that each stand for one rule."""
    lines = [
        b"", b"\n", b"2", b"2\n", b"02\n", b" 2\n", b"2 \n", b"+2\n", b"?2\n", b"27\n", b"26\n+zZzz\n?zz\n", b"0\n", b"00\n", b"1\r\n",
        b"10\n+jJj\n?j\n", b"19\n+s\n", b"20\n+t\n", b"100\n", b"x\n", b"-1\n", b"1\x00\n", b"2\n\n", b"\n\n", b"\n+a\n", b"x\n\n", b"x\nx\n",
        b"2\n+a\r\n", b"2\n+a\n?a\r\n", b"2\n++a\n", b"2\n+?a\n", b"2\n+a\n??a\n", b"2\n+a\n?+a\n", b"2\n+", b"2\n+\n", b"2\n?", b"2\n?\n",
        b"2\n+a", b"2\n+a\n+", b"2\n+a\n+b", b"2\n+b\n?b", b"2\n?a\n+a\n", b"x\n?a\n+a\n", b"2\n+a\n?a\n+a\n?a\n", b"2\n+a\n\n?a\n",
        b"2\n+a\n?a\n\n", b"2\n+c\n", b"2\n+a1\n", b"2\n+ac\n+1\n", b"2\n+a\n?c\n?a\n?1\n?aA\n", b"2\n a\n", b"2\na\n", b"2\n+\n+\n+aA\n?\n?a\n",
        b"2\n+aaB\n+bAba\n+abA\n+aaaaaa\n?aba\n?a\n?aA\n", b"1\n+aaa\n?AAA\n?aa\n?" + b"a" * 30 + b"\n",
        b"26\n+" + b"a" * 314 + b"\n", b"26\n+" + b"a" * 315 + b"\n", b"1\n+" + b"a" * 2047 + b"\n?" + b"a" * 2047 + b"\n",
        b"1\n+" + b"a" * 2048 + b"\n", b"2\n+" + b"ab" * 1023 + b"\n", b"2\n+" + b"ab" * 1024 + b"\n",
        b"1\n+a\n?" + b"a" * 16384 + b"\n?" + b"a" * 16385 + b"\n?aaa\n", b"1\n+aa\n?" + b"a" * 16385,
        b"2\n" + b"".join(b"+" + b"a" * k + b"b" + b"A" * k + b"\n" for k in range(44)) + b"?b\n",
        b"2\n+" + b"ab" * 500 + b"\n+" + b"aab" * 300 + b"\n?" + b"ab" * 500 + b"\n",
        full(SPAN), full(SPAN + 1), full(SPAN - 1), b"?" * SPAN, b"\n" * (SPAN + 1), b"1\n+" + b"A" * (SPAN - 3),
    ]
    return lines


def word(rng, n, longest):
    """A random word, short ones more often."""
    letters = [chr(97 + i) for i in range(n)] + [chr(65 + i) for i in range(n)]
    return "".join(rng.choice(letters) for _ in range(rng.randint(0, rng.choice((2, 6, longest))))).encode()


def random_input(rng):
    """An input as document 01 has it, and now and then one with a fault."""
    n = rng.choice((1, 1, 2, 2, 2, 3, 5, 26))
    first = str(n).encode() if rng.random() < 0.95 else rng.choice((b"", b"0", b"02", b" 2", b"27", b"+1", b"2 ", b"2\r", b"100"))
    lines = [b"+" + word(rng, n, 40) for _ in range(rng.randint(0, 8))] + [b"?" + word(rng, n, 12) for _ in range(rng.randint(0, 6))]
    if rng.random() < 0.1 and lines:
        at = rng.randrange(len(lines))
        lines[at] = lines[at][:1] + rng.choice((b"1", b"z", b"a b", b"\r", b"+a", b"?a", b"a\xff")) + lines[at][1:]
    if rng.random() < 0.06:
        lines.insert(rng.randint(0, len(lines)), rng.choice((b"", b"a", b" +a", b"+a", b"?a", b"\r")))
    data = b"\n".join([first] + lines)
    return data + b"\n" if rng.random() < 0.85 else data


def main(program):
    """Runs every input through both programs; the last line counts them."""
    seed = int(os.environ.get("SEED") or random.SystemRandom().randrange(1 << 32))
    rng = random.Random(seed)
    inputs = hand_made()
    made = len(inputs)
    inputs += [random_input(rng) for _ in range(INPUTS)]
    print(f"seed {seed}: {made} hand-made inputs, {INPUTS} random ones")
    kinds, failed = {}, 0
    for data in inputs:
        says = subprocess.run([program], input=data, stdout=subprocess.PIPE, check=False)
        wanted = printing.printed(data)
        kind = wanted.split(b"\n")[0].split(b" ")[0].decode() + (" " + wanted.split(b" ")[1].decode() if wanted.startswith(b"refused") else "")
        kinds[kind] = kinds.get(kind, 0) + 1
        if says.returncode != 0 or says.stdout != wanted:
            failed += 1
            if failed <= 3:
                print(f"input {data[:200]!r}: status {says.returncode}, printed {says.stdout[:300]!r}, not {wanted[:300]!r}")
    print("first lines: " + ", ".join(f"{kind} {count}" for kind, count in sorted(kinds.items())))
    print(f"{len(inputs) - failed} passed, {failed} failed")
    return 1 if failed else 0


if __name__ == "__main__":
    sys.exit(main(sys.argv[1]))
