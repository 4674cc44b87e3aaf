"""Kinds of scripts, or of other inputs: each is told in a line, with how many of it were run."""
import os
from concurrent.futures import ThreadPoolExecutor


def wrong_of(pool, wrong_in, make, wanted, unmade, called):
    """How many scripts of a kind were run, and what is wrong with them and with how many they are."""
    try:
        found = list(pool.map(wrong_in, make()))
    except unmade as error:
        return 0, [str(error)]
    count = [f"there must be {wanted:,} {called}s"] if len(found) != wanted else []
    return len(found), [*count, *filter(None, found)]


def told(name, count, wrong, most, called):
    """What is printed of a kind: the first so many of what is wrong, or all."""
    scripts = f"1 {called}" if count == 1 else f"{count:,} {called}s"
    head = f"{name}: {scripts}, {len(wrong):,} wrong" if wrong else f"{name}: {scripts}"
    return "\n".join([head, *(f"    {it}" for it in wrong[:most])])


def are_right(kinds, wrong_in, unmade, most=None, called="script"):
    """Prints the kinds in their order, and tells whether nothing is wrong. Each has what makes its scripts, or what else
    they are called, and how many there must be; `wrong_in` finds what is wrong with a script, or none; `unmade` is raised
    where scripts cannot be made."""
    all_right = True
    with ThreadPoolExecutor(os.cpu_count()) as pool:
        for name, (make, wanted) in kinds.items():
            count, wrong = wrong_of(pool, wrong_in, make, wanted, unmade, called)
            print(told(name, count, wrong, most, called), flush=True)
            all_right = all_right and not wrong
    return all_right
