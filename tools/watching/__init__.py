"""A running network, audited again and again: tools/watch.

    routers     how each router is asked, and what its daemon says of its sessions
    moment      what was recorded at one moment: the answers, and what is down then
    audits      what the program says of it: `audit` for each prefix
    told        a line for each change, and the metrics for Prometheus
    command     the words, and the rounds
"""
