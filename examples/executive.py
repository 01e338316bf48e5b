"""A small executive over the shared library, by ctypes: the same as examples/executive.c, for scripts to start from.

It plans a set of named models, prints what each core runs, and tells when one model's jobs finish. Then it plans a set that does not fit and
one made for a larger rack, and says why. Exit code 0 only if all go as they should.

    make install && python3 examples/executive.py [LIBRARY]      LIBRARY is target/install/lib/libaurhennig.so if it is missing

The library is for x86-64; on any other machine, scripts/x86-64 python examples/executive.py.
"""

import ctypes
import os
import sys
from ctypes import POINTER, c_size_t, c_uint16, c_uint32, c_uint64
from typing import NamedTuple

LIBRARY = os.path.join(os.path.dirname(os.path.dirname(os.path.abspath(__file__))), "target/install/lib/libaurhennig.so")

# Of include/aurhennig.h, which says what each call reads, writes and keeps.
ACCEPTED, FRAME_LENGTH, CORE_COUNT, TASK_COUNT, EMPTY_MASK, BUDGET, SHORT_TABLE, OVERLOADED, NOT_TABLE, JOB_LIST, NO_UNITS, SHORT_FINISHES = range(12)
MISSING_CORE = 13
PIECE_LEN = 4
TABLE_LEN = 380

# What to do about each refusal; an overload and a missing core are told by their values.
ADVICE = {
    FRAME_LENGTH: "give the frame 1 to 1,000,000 units",
    CORE_COUNT: "plan 1 to 16 cores in one table",
    TASK_COUNT: "plan at most 64 models in one table",
    EMPTY_MASK: "its mask is empty: give it a core",
    BUDGET: "its budget is above the frame: lower it, or lengthen the frame",
    SHORT_TABLE: "lend the planner 380 numbers",
    NOT_TABLE: "this is not a frame table: plan the set again, and hand on its pieces alone with the same frame and cores",
    JOB_LIST: "give at most 4,096 jobs in order of release, none later than 1,000,000,000,000, none of more than 1,000,000 units",
    NO_UNITS: "it asks units of a model that has none: give the model a budget",
    SHORT_FINISHES: "lend a finish place for each job",
}


class Reply(ctypes.Structure):
    _fields_ = [("number", c_uint64), ("first", c_uint64), ("second", c_uint64), ("count", c_uint64)]


class Model(NamedTuple):
    name: str
    budget: int  # its units in each frame
    cores: set  # the cores on which it may run


class Set(NamedTuple):
    frame: int
    cores: int
    models: list


def opened(path):
    """The library, its calls declared as in the header."""
    library = ctypes.CDLL(path)
    table = [c_uint32, c_uint32, POINTER(c_uint32), c_size_t]
    lists = [POINTER(c_uint32), c_size_t, POINTER(c_uint16), c_size_t]
    jobs = [c_uint32, POINTER(c_uint64), c_size_t, POINTER(c_uint32), c_size_t, POINTER(c_uint64), c_size_t]
    library.aurhennig_plan.argtypes = [c_uint32, c_uint32] + lists + [POINTER(c_uint32), c_size_t]
    library.aurhennig_check_table.argtypes = table
    library.aurhennig_count_moves.argtypes = table
    library.aurhennig_walk.argtypes = table + jobs
    for call in (library.aurhennig_plan, library.aurhennig_check_table, library.aurhennig_count_moves, library.aurhennig_walk):
        call.restype = Reply
    return library


def fitting(kind, number):
    """The number, if its C type has room for it; ctypes would cut it off without a word."""
    if not 0 <= number <= kind(-1).value:
        raise OverflowError(f"{number} does not fit into {8 * ctypes.sizeof(kind)} bits: correct it")
    return number


def array(kind, numbers):
    """A list of numbers as C has it."""
    return (kind * len(numbers))(*(fitting(kind, number) for number in numbers))


def planned(library, given):
    """The reply and the numbers of the table's pieces; model i is task i."""
    budgets = array(c_uint32, [model.budget for model in given.models])
    masks = array(c_uint16, [sum(1 << core for core in model.cores) for model in given.models])
    table = (c_uint32 * TABLE_LEN)()
    frame, cores = fitting(c_uint32, given.frame), fitting(c_uint32, given.cores)
    reply = library.aurhennig_plan(frame, cores, budgets, len(budgets), masks, len(masks), table, len(table))
    return reply, table[: PIECE_LEN * reply.count]


def print_table(given, table):
    pieces = [table[at : at + PIECE_LEN] for at in range(0, len(table), PIECE_LEN)]
    for row in range(given.cores):
        runs = [f"{given.models[task].name} {start}-{start + length}" for core, task, start, length in pieces if core == row]
        print(f"  core {row}: {', '.join(runs) or 'idle'}")


def print_overload(given, group, cores):
    crowd = [model for task, model in enumerate(given.models) if group >> task & 1]
    where = [core for core in range(given.cores) if cores >> core & 1]
    asked, room = sum(model.budget for model in crowd), given.frame * len(where)
    names, places = ", ".join(model.name for model in crowd), ",".join(map(str, where))
    print(f"  overload: {names} do not fit on cores {{{places}}}: they ask {asked} units of {room}, {asked - room} too many")


def print_missing_core(given, task, core):
    what = f"its mask names core {core}, and the rack's last core is {given.cores - 1}"
    print(f"  refused: {given.models[task].name}: {what}: take core {core} out of the mask, or plan a larger rack")


def print_refusal(given, reply):
    if reply.number == OVERLOADED:
        print_overload(given, reply.first, reply.second)
    elif reply.number == MISSING_CORE:
        print_missing_core(given, reply.first, reply.second)
    elif reply.number in (EMPTY_MASK, BUDGET):
        print(f"  refused: {given.models[reply.first].name}: {ADVICE[reply.number]}")
    elif reply.number in (JOB_LIST, NO_UNITS):
        print(f"  refused: job {reply.first}: {ADVICE[reply.number]}")
    else:
        print(f"  refused: {ADVICE[reply.number]}")


def walk(library, given, table, task):
    """Walks two jobs of a model, and prints each finish beside release + period + frame. This bound holds where releases lie a period apart
    or more, and units x frame is at most budget x period: here 6 x 6 and 4 x 9."""
    period, releases, units = 9, [4, 13], [6, 6]
    finishes = (c_uint64 * len(releases))()
    reply = library.aurhennig_walk(
        given.frame, given.cores, array(c_uint32, table), len(table), task,
        array(c_uint64, releases), len(releases), array(c_uint32, units), len(units), finishes, len(finishes))
    if reply.number != ACCEPTED:
        print_refusal(given, reply)
        return False
    bounds = [release + period + given.frame for release in releases]
    for release, asked, finish, bound in zip(releases, units, finishes, bounds):
        by = f"by {release} + {period} + {given.frame} = {bound}"
        print(f"  {given.models[task].name}: {asked} units released at {release} are finished at {finish}, {by}")
    return all(finish <= bound for finish, bound in zip(finishes, bounds))


def use(library, given, table):
    """A table that was kept is checked before it is used, as it may be damaged. The check does not know the set: use a table for the set it
    was planned for."""
    lent = array(c_uint32, table)
    checked = library.aurhennig_check_table(given.frame, given.cores, lent, len(lent))
    moves = library.aurhennig_count_moves(given.frame, given.cores, lent, len(lent))
    if checked.number != ACCEPTED:
        print_refusal(given, checked)
        return False
    print_table(given, table)
    print(f"  a frame table; moves from core to core in a frame: {moves.count}")
    return walk(library, given, table, 0) and moves.number == ACCEPTED


def run(library, given, expected):
    """Plans a set and prints the answer; true if its number is the expected one and a table that it gave serves."""
    reply, table = planned(library, given)
    print(f"{len(given.models)} models on {given.cores} cores, a frame of {given.frame} units")
    if reply.number == ACCEPTED:
        return use(library, given, table) and reply.number == expected
    print_refusal(given, reply)
    return reply.number == expected


def main():
    path = sys.argv[1] if len(sys.argv) > 1 else LIBRARY
    try:
        library = opened(path)
    except (OSError, AttributeError) as error:
        sys.exit(f"executive.py: {error}: run make install, or give the library's path; on a machine that is not x86-64, use scripts/x86-64 python")
    fits = Set(6, 2, [Model("stars", 4, {0, 1}), Model("noise", 3, {0}), Model("optics", 5, {1})])
    overloaded = Set(10, 2, [Model("tracker", 8, {0}), Model("camera", 8, {0}), Model("noise", 3, {1})])
    larger = Set(10, 2, [Model("stars", 4, {0, 1}), Model("relay", 3, {1, 5})])
    try:
        good = [run(library, fits, ACCEPTED), run(library, overloaded, OVERLOADED), run(library, larger, MISSING_CORE)]
    except OverflowError as error:
        sys.exit(f"executive.py: {error}")
    return 0 if all(good) else 1


if __name__ == "__main__":
    sys.exit(main())
