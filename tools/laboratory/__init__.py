"""The files of tools/deploy on real daemons, each in a network namespace of its own: the parts of tools/lab.

    commands     runs other programs, and waits, never without a bound
    enclosure    the namespaces in which a run stands and ends, however it ends
    scenarios    what fails, and for which prefix that is asked
    daemons      BIRD and FRR: begun, asked, ended
    peers        what the peers of a network say; origins: what a cache of RPKI's says of that
    network      the sites of a network as namespaces, its links, and what fails now
    spaces       the namespaces of networks, entered by the lab itself
    questions    whether what the routers do is what propane says
    packets      packets of many flows, and the way that each takes
    trials       the scenarios of a run, one after another
    command      the words of tools/lab, and its report
"""
