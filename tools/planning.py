"""How the proofs are laid out in time where tools/gate and tools/build run `rt ci`: so that no processor stays idle, and no work is done twice.

`rt ci` gives a proof up to four processes where nothing else is ready as it begins. Each is a copy of what was proved so far, and by two or three of
them a crate takes a third to a half more processor time. It also plans three to four times the memory that these crates take. With RT_JOBS it does
neither: as many tasks run side by side as there are processors, and each has one process. Proofs have more that most of the work waits for, if the
other processors would stay idle meanwhile, and in a build all those of the longest chain.

A proof gives way to those with more work before the end, its own and that of the longest chain that waits for it, and tests and edits to all proofs.
The work is counted in lines of source, as by rt: most crates were seen to take 0.2 to 0.35 processor seconds a line, however long their proof files
are.
"""
import os
from concurrent.futures import ThreadPoolExecutor

# The bytes of memory that are kept for each task: most were seen to take 1 to 3 GB, and the greatest three, side by side at the end, 17.
MEMORY_OF_ONE = 5_200_000_000
# How many processes a proof has that the others wait for, and always fewer than there are processors. Two would take as much of the processor as three.
WHERE_OTHERS_WAIT = 3
# Others wait for a proof where this part of all work stands behind it.
WAITING = 0.5
# By how much tasks beside proofs lower their priority, and at most a proof: by the part of it that it is nearer to the end than the farthest one.
OTHERS_GIVE_WAY, PROOFS_GIVE_WAY = 19, 12
# Edits wait for the proofs that have this part of the longest chain before the end. While those run, tests fill what they leave free; edits would be
# in the place of a proof that becomes ready.
EDITS_WAIT_FOR = 0.5


def work_to_the_end(proofs):
    """Of each proof, its work with that of the longest chain of those that wait for it."""
    left = {}
    # a proof stands behind those that it waits for
    for key, (waits, lines) in reversed(proofs.items()):
        left[key] = left.get(key, 0) + lines
        for it in waits:
            left[it] = max(left.get(it, 0), left[key])
    return left


def longest_chain(proofs, left):
    """The proofs of the longest chain of them."""
    found = [max(left, key=left.get)]
    while behind := [key for key, (waits, _) in proofs.items() if found[-1] in waits]:
        found.append(max(behind, key=left.get))
    return found


def awaited(proofs, there):
    """The proofs that most of the work waits for, with more work than stands beside them for each other processor."""
    work, found = sum(lines for _, lines in proofs.values()), []
    for key, (waits, lines) in proofs.items():
        behind = sum(it for others, it in proofs.values() if key in others)
        beside = work - lines - behind - sum(proofs[it][1] for it in waits)
        if behind >= WAITING * work and lines * (there - 1) > beside:
            found.append(key)
    return found


def giving_way(much, call, processes=1):
    """The call of a task with so many processes, in a thread of its own whose priority is lower, and so that of all that it starts."""

    def called(given, _jobs):
        with ThreadPoolExecutor(1, initializer=os.setpriority, initargs=(os.PRIO_PROCESS, 0, much)) as thread:
            return thread.submit(call, given, processes).result()

    return called


def plan_closely(rt, is_build=False):
    """Has rt plan a process for each task, and more for proofs that others wait for; and tasks that don't stand before a proof give way."""
    in_lanes = rt.in_lanes

    def in_lanes_by_priority(tasks):
        proofs = {key: ([it for it in waits if it[1] == "proof"], lines) for key, (waits, lines, *_) in tasks.items() if key[1] == "proof"}
        if not proofs:
            return in_lanes(tasks)
        there, left = rt.processors(), work_to_the_end(proofs)
        in_front = max(min(WHERE_OTHERS_WAIT, there - 1), 1)
        front, farthest = longest_chain(proofs, left) if is_build else awaited(proofs, there), max(left.values())
        first = [key for key in proofs if left[key] >= EDITS_WAIT_FOR * farthest]

        def laid_out(key, waits, lines, needs, call):
            if key in proofs:
                gives_way = round(PROOFS_GIVE_WAY * (1 - left[key] / farthest))
                return waits, lines, needs, giving_way(gives_way, call, in_front if key in front else 1)
            return waits if key[1] == "tests" else [*waits, *first], lines, needs, giving_way(OTHERS_GIVE_WAY, call)

        # a proof that others wait for takes the place of the last one that it waited for itself
        side_by_side = min(there, rt.free() // MEMORY_OF_ONE)
        os.environ["RT_JOBS"] = str(max(side_by_side, 1))
        return in_lanes({key: laid_out(key, *it) for key, it in tasks.items()})

    rt.in_lanes = in_lanes_by_priority
