"""A change of policy on a running network, stage by stage: tools/rollout.

    stages      the four configurations, in a folder; what each router is to load
    loading     how a router takes another file while its sessions stay up
    walking     whether a route is one that the lines of a stage make
    command     the words, the order of the stages, and what is asked in between
"""
