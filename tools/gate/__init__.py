"""What the gate's scripts share: tools/check and tools/lab-check.

    packages     programs of Debian's that the gate needs, installed where that may be done
    lab_runs     the runs of tools/lab, and what is to come of each
    kept         runs that ended as wanted, so that a list of them goes on where it was broken off
"""
