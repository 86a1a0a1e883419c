"""h2audit-fleet: many captures, on the processors of one machine or of many, into one SQLite database.

    words     the command line
    walk      which captures the PATHs name
    names     a path as one word of printable ASCII
    sniff     what the first bytes of a file say of it
    programs  one run of a program over a capture: its bytes, its digest, its time
    tasks     what a worker does with a capture; large has the tasks of large ones
    carrier   what is asked of that which carries tasks to workers
    pool      the workers of this machine; worker is what each of them does
    cluster   the workers of a scheduler of dask by its address
    workers   which of both, and whether there is one
    dispatch  which task comes next: tries, parts, Ctrl-C
    rows      the rows of the tables, as h2audit-any and h2audit-why write them
    verdicts  how many captures have which verdict, and in which words
    database  the one writer; schema.sql is the schema
    collect   reports that were made without this program
    progress  the line that tells how far it is
    watch     captures as a ring buffer closes them; its parts are rings, stretch, carrying, watched and metrics

The modules that a worker of dask needs are sent to it with each task, and import nothing but the standard library:
programs, sniff, tasks and large. So a worker needs h2audit and python3-distributed alone.
"""
