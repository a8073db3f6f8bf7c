"""What the checks of the commands for people share.

    judge         all fit-outs of a job, group by group, by another way than the planner's
    sheets        amendments, read off their bytes by the words of the request
    random_jobs   pseudo-random jobs as text, with and without a fit-out; amendments to them
    said          an explanation of ./fitplan, read back word by word and judged
    trial         a tally, a command that is run, and pseudo-random jobs by how they hang together
    picture       a picture of tools/draw, read back
"""
