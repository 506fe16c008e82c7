"""Expectations on a policy, judged by what the program says: tools/expect.

    claims      what a line expects of a router or a peer, and what is wrong with what the program says of it
    text        the text of expectations, read line by line
    answers     what the program says: the outcome of a scenario, and the ranks under each cut
    judging     goes over the failures of an expectation, and asks no more than it has to
    told        what is printed, and the file for JUnit's readers
    command     the words, and how it ends
"""
