"""Runs the program over scripts of its own making and prints times, ratios and peaks of memory."""
import sys

from runs import run_alone

LIMIT = 67_108_864
# Numbers of puts under one parent; with it they make no more nodes than a store holds.
HALF, WHOLE = 95_000, 190_000


def put(i):
    return b"{put,[parent,n%d],%d}.\n" % (i, i)


def puts(count):
    return b"".join(put(i) for i in range(count))


def puts_of_length(length):
    """Puts under one parent that take exactly so many bytes."""
    lines, size, i = [], 0, 0
    while size < length - 100:
        line = put(i)
        lines.append(line)
        size += len(line)
        i += 1
    rest = length - size
    while rest > 34:
        lines.append(b"{put,[f],1}.\n")
        rest -= 13
    frame = b"{put,[%s],1}.\n"
    lines.append(frame % (b"f" * (rest - len(frame % b""))))
    return b"".join(lines)


def all_put(program, count):
    """A run of so many puts under one parent, each of which is answered `ok.`."""
    answered = run_alone(program, puts(count))
    if (answered.status, answered.output) != (0, b"ok.\n" * count):
        sys.exit(f"{count:,} puts: status {answered.status}, {answered.output.count(b'ok.'):,} answered ok")
    return answered


def main(program):
    half = all_put(program, HALF)
    whole = all_put(program, WHOLE)
    print(f"puts under one parent: {HALF:,} in {half.seconds:.2f} s, {WHOLE:,} in {whole.seconds:.2f} s, "
          f"ratio {whole.seconds / half.seconds:.2f}")

    script = puts_of_length(60_000_000)
    long = run_alone(program, script)
    print(f"a script of {len(script):,} bytes: {long.seconds:.2f} s, "
          f"peak of memory {long.peak / len(script):.1f} times the script, status {long.status}")

    for length in (LIMIT, LIMIT + 1):
        script = puts_of_length(length)
        limit = run_alone(program, script)
        print(f"a script of {length:,} bytes: {limit.seconds:.2f} s, status {limit.status}, "
              f"{limit.output.count(10):,} of {script.count(10):,} puts answered")


if __name__ == "__main__":
    main(sys.argv[1])
