"""Opens the program's store again: checks what it finds, prints times and ratios, and fills the store to its last node."""
import sys

from runs import new_folder, run

NODES = 200_000
COUNTS = (50_000, 100_000, 200_000)


def expect(what, got, wanted):
    if got != wanted:
        sys.exit(f"{what}: {got}, and not {wanted}")


def check_two_runs(program):
    """What a first run puts, a second run gets."""
    with new_folder() as folder:
        first = run(program, b"{put,[stock,wood],150}.\n{put,[stock],-7}.\n{put,[stock,wood],0}.\n", folder)
        expect("the first run", (first.status, first.output), (0, b"ok.\nok.\nok.\n"))
        second = run(program, b"{get,[stock,wood]}.\n{get,[stock]}.\n", folder)
        expect("the second run", (second.status, second.output), (0, b"{ok,0}.\n{ok,-7}.\n"))
    print("what a run puts, the next run gets")


def path(i):
    """Paths under ten parents; 190,000 of them, and then the same again."""
    return b"[p%d,n%d]" % (i % 10, i // 10 % 19_000)


def seconds_to_reopen(program, count):
    """The least seconds of three runs of an empty script over a log of so many puts."""
    with new_folder() as folder:
        made = run(program, b"".join(b"{put,%s,%d}.\n" % (path(i), i) for i in range(count)), folder)
        expect(f"{count:,} puts", (made.status, made.output), (0, b"ok.\n" * count))
        again = [run(program, b"", folder) for _ in range(3)]
        for each in again:
            expect(f"an empty script over {count:,} puts", (each.status, each.output), (0, b""))
        last = run(program, b"{get,%s}.\n" % path(count - 1), folder)
        expect(f"the last of {count:,} puts", (last.status, last.output), (0, b"{ok,%d}.\n" % (count - 1)))
        return min(each.seconds for each in again)


def measure(program, counts):
    """The time to open a log again, by its number of puts."""
    half, whole, double = (seconds_to_reopen(program, count) for count in counts)
    print(f"a log of {counts[1]:,} puts opened again: {whole:.2f} s; "
          f"{counts[2]:,} take {double / whole:.2f} times as long, and {counts[1]:,} {whole / half:.2f} times as long as {counts[0]:,}")


def fill(program, nodes):
    """The put that would make one node too many is refused, also after the store is opened again."""
    with new_folder() as folder:
        puts = b"".join(b"{put,[n%d],1}.\n" % i for i in range(nodes + 1))
        full = run(program, puts, folder)
        expect("a put too many", (full.status, full.output), (0, b"ok.\n" * nodes + b"{error,store_full}.\n"))
        again = run(program, b"{put,[n%d],2}.\n{put,[n%d],2}.\n{get,[n%d]}.\n" % (nodes, nodes - 1, nodes - 1), folder)
        expect("the full store opened again", (again.status, again.output), (0, b"{error,store_full}.\nok.\n{ok,2}.\n"))
    print(f"{nodes:,} nodes are put, and one more is refused")


def main(program):
    check_two_runs(program)
    measure(program, COUNTS)
    fill(program, NODES)


if __name__ == "__main__":
    main(sys.argv[1])
