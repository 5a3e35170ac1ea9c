"""Tries the library for C from outside: its form, its calls beside the program precopy, streams of frames, examples.

    checks/run library [--seed N] [--only PART] [PRECOPY] [PRECOPY_VIEW]

`make lib` builds the library if need be. What it answers and what the program writes must be what a plain model says,
byte for byte, over the examples and 500 traces, of which half are damaged. checks/library/rows.c has worked examples of
each call, and checks/library/unstamped.c of those for pages without stamps; checks/library/edges.c has null pointers
and the order of refusals. checks/library/library.c refuses each request for memory, calls from eight threads, and gives
short buffers. Its buffers, also those that are read, have a page that nobody may touch in front of them or behind them,
and each trial is made with both; for the library itself is the proved archive, which is built without sanitizers. The
address and undefined-behaviour sanitizers watch the three programs around it. Frames are shuffled, repeated, damaged,
and cut at every byte. Mistakes are planted in random frames of 2,000 streams, of which the library's check must name
each (checks/library/streams.py). Writes and steps of memory are worked out once more for random traces
(checks/library/places.py), and versions of pages too. There eight threads make all calls over an open trace, which may
not change, and its plans and reports are those of its bytes (checks/library/open_traces.py). So are pages that come
without stamps, destinations that begin with memory, and memory that differs (checks/library/unstamped.py), and the best
start of random migrations, which precopy-view tells too (checks/library/starts.py). Traces are written by random calls,
in bytes that end at each place and from recordings that no call left (checks/library/recordings.py). Numbers out of
range and bytes of all kinds go to Python, which pip installs in a fresh environment, and to Rust, whose answers must be
the model's too. Python is also given memory that overlaps a trace, streams that are cut off, too little memory, and
arrays of numpy if it has that. The crate is linked with each form of the library. The examples run, and so does what
docs/LIBRARY.md and the head of the header show. The library is installed, used and taken away again. It needs `cc` and
`make`.
"""

import tempfile

from checks.lib.harness import run_main
from checks.lib.library_runs import is_done, run
from checks.lib.tally import left_out, why_not
from precopy_dev import tree


def check(tally, given):
    if why := why_not("cc") or why_not("make"):
        left_out("the library", why)
    elif is_done(tally, run("make", "-s", "-C", tree.TOP, "lib", timeout=3 * 3600), "make lib"):
        from checks.library import cases

        with tempfile.TemporaryDirectory() as folder:
            cases.check(tally, folder, given)


if __name__ == "__main__":
    run_main(check, __doc__, "precopy", "precopy_view")
