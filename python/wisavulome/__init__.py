"""Wisavulome: a proved model of contention on one pair (CSMA/CD, bit time by bit time).

    from wisavulome.library import Library
    from wisavulome.course import follow

    library = Library()
    library.fits(sheet)                  # whether the layout of a sheet's octets fits
    library.print_run(plan)              # what the run program prints for a run input's octets
    follow(library, plan).events         # the same events, each with the offer that it concerns

Every answer is the library's. `library` holds the calls, `text` the text forms of sheets and plans, `course` a run
with its offers.
"""

VERSION = "0.1.0"
