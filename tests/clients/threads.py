"""Checks that several threads may use the same circuits of the package aig: that no call is lost,
and that calls on two circuits in either order don't wait for one another for ever."""
from __future__ import annotations

import threading

import aig

THREADS, CALLS = 4, 500


def main() -> None:
    with aig.Circuit() as shared, aig.Circuit() as other:

        def use(number: int) -> None:
            for _ in range(CALLS):
                node = shared.new_input()
                shared.push_edge(aig.OUTPUTS, 2 * node)
                first, second = (shared, other) if number % 2 else (other, shared)
                first.begins_with(second)

        threads = [threading.Thread(target=use, args=(number,)) for number in range(THREADS)]
        for thread in threads:
            thread.start()
        for thread in threads:
            thread.join()
        count = THREADS * CALLS
        assert shared.inputs.tolist() == list(range(1, count + 1)) and len(other) == 1
        assert sorted(shared.outputs.tolist()) == [2 * node for node in range(1, count + 1)]
    print("none lost")


if __name__ == "__main__":
    main()
