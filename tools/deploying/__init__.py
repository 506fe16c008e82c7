"""Files that routers load, written of route maps and read back: the parts of tools/deploy.

    maps         route maps as values, and their text; map_reader reads it
    addresses    where the sessions run, read strictly
    plans        all that one router's file says
    bird, frr    the file of a plan for BIRD 2 and for FRR; bird_reader, frr_reader read one
    openbgpd     the file of a plan for OpenBGPD; openbgpd_reader reads one
    ordered      files in which the order of lines counts, compared
    folders      the files of routers in a folder, written, and read back as maps or as what drifted
    command      the words of tools/deploy
    shutting     the words of tools/shut: what taking a session out of service does
"""
