"""What the commands for people share: ./fitplan, tools/pack, tools/export and tools/draw. Python 3, and nothing beside it.

Read in this order:

    command         words, messages and statuses of a command
    job             a job as people see it, its bytes, and the limits of each field
    amendments      amendments to a job: their bytes, which are in force, the job so amended, and what the planner does not take
    wording         numbers, ties and lists of names, in words
    statement       statements of a text: their words, numbers and signs, with faults that are told all at once
    text            the text of a job: names, ties, warnings
    amendments_text the text of amendments
    source          a job from a file or from standard input, with amendments or without, as text or as bytes
    build           proving and building with rt, with a line for each crate
    planner         the proved planner, asked for a plan; what it prints, read back
    parts           a part of a job: one group, with some of its ties and bounds
    conflict        a smallest set of ties and bounds that contradict each other
    contradiction   how they contradict each other, where one line can say it
    refusal         a refusal in words: the field, its value and its range
    groups          why a group's fit-out is chosen, what stops one more step, what a group is worth
    taken           a job that the planner takes, with the bounds in force and its answer; or the reason why not
    explain         all of a plan, a "no fit" or a refusal, in words
    export          a job for other solvers: LP and SMT-LIB
    layout          where the counts and the ties of a picture go
    draw            a picture of how a job hangs together

Nothing here is proved. Whether a job or a part of it has a fit-out, and which one is the best, the proved planner says: no module
decides it. The commands tools/check-* try all of it.
"""
