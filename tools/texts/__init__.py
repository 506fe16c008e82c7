"""The texts that the program reads and writes, as the scripts read them: one reader for each kind of text.

    statuses     how the program ends, and the scripts that speak of it
    faults       what ends a script: a text that isn't what it is to be, or a run that can't go on
    ending       signals that end a script
    files        files read and written
    json_text    JSON texts and strict objects; json_places reads them with the places of their values
    topology     routers, peers and links
    prefixes     IPv4 prefixes
    tokens       the tokens of a policy, with their places
    policy       a policy cut into its items, and its expressions into their parts
    cases        the cases of a policy, as the program counts them
    comparison   what `compare` says of two policies
    scenario     what fails, and for which prefix that is asked

The program judges these texts. What is read here was read by it or will be, so a fault is told only where a script would otherwise
say something else than the text.
"""
