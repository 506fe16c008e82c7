"""Texts of evidence: which are read, and the faults of the others."""
from runs import ANY_PATH, BAD_INPUT, CHECK_FAILS
from runs.networks import TWO_ROUTERS, TWO_ROUTERS_CONFIG

ROWS = [
    ("a case without nodes", ["check"],
     [TWO_ROUTERS, ANY_PATH, TWO_ROUTERS_CONFIG, '{"cases":[{"external":true,"nodes":[],"origins":[],"prefixes":[],"starts":[],"statement":1,"steps":[]}],"version":1}'],
     CHECK_FAILS, "fails 1 cases case 1 first 0 second 0 line 0\n"),
    ("the greatest numbers", ["check"],
     [TWO_ROUTERS, ANY_PATH, TWO_ROUTERS_CONFIG, ('{"cases":[{"external":true,"nodes":[[767,1,4294967295,0,0,0]],"origins":[0, 767],"prefixes":[],"starts":[0],'
       '"statement":4294967295,"steps":[[0,0]]}],"version":1} ')],
     CHECK_FAILS, "fails 1 cases case 1 first 0 second 0 line 0\n"),
    ("another order and a key twice", ["check"],
     [TWO_ROUTERS, ANY_PATH, TWO_ROUTERS_CONFIG, ('{"cases":[{"external":true,"origins":[],"nodes":[1],"nodes":[],"prefixes":[],"steps":[],"starts":[],"statement":1}],'
       '"version":1}')],
     CHECK_FAILS, "fails 1 cases case 1 first 0 second 0 line 0\n"),
    ("cut off", ["check"],
     [TWO_ROUTERS, ANY_PATH, TWO_ROUTERS_CONFIG, '{"cases":[{"external":true,"nodes":[],"origins":[],"prefixes":[],"starts":[],"statement":1,"steps":[]}],"version":1'],
     BAD_INPUT, "propane: evidence 1 not-json\n"),
    ("a further key of the text", ["check"],
     [TWO_ROUTERS, ANY_PATH, TWO_ROUTERS_CONFIG, ('{"cases":[{"external":true,"nodes":[],"origins":[],"prefixes":[],"starts":[],"statement":1,"steps":[]}],"version":1,'
       '"more":0}')],
     BAD_INPUT, "propane: evidence 2 shape top\n"),
    ("a key too few", ["check"],
     [TWO_ROUTERS, ANY_PATH, TWO_ROUTERS_CONFIG, '{"cases":[{"external":true,"nodes":[],"origins":[],"prefixes":[],"starts":[],"statement":1}],"version":1}'],
     BAD_INPUT, "propane: evidence 2 shape case\n"),
    ("a further key of the case", ["check"],
     [TWO_ROUTERS, ANY_PATH, TWO_ROUTERS_CONFIG, ('{"cases":[{"external":true,"nodes":[],"origins":[],"prefixes":[],"starts":[],"statement":1,"steps":[],"more":0}],'
       '"version":1}')],
     BAD_INPUT, "propane: evidence 2 shape case\n"),
    ("a node of five numbers", ["check"],
     [TWO_ROUTERS, ANY_PATH, TWO_ROUTERS_CONFIG, ('{"cases":[{"external":true,"nodes":[[0,0,0,100,64512]],"origins":[],"prefixes":[],"starts":[],"statement":1,'
       '"steps":[]}],"version":1}')],
     BAD_INPUT, "propane: evidence 2 shape nodes\n"),
    ("a text in a node", ["check"],
     [TWO_ROUTERS, ANY_PATH, TWO_ROUTERS_CONFIG, ('{"cases":[{"external":true,"nodes":[[0,0,0,100,64512,"1"]],"origins":[],"prefixes":[],"starts":[],"statement":1,'
       '"steps":[]}],"version":1}')],
     BAD_INPUT, "propane: evidence 2 shape nodes\n"),
    ("an origin twice", ["check"],
     [TWO_ROUTERS, ANY_PATH, TWO_ROUTERS_CONFIG, '{"cases":[{"external":true,"nodes":[],"origins":[1,1],"prefixes":[],"starts":[],"statement":1,"steps":[]}],"version":1}'],
     BAD_INPUT, "propane: evidence 2 shape origins\n"),
    ("origins out of range that descend", ["check"],
     [TWO_ROUTERS, ANY_PATH, TWO_ROUTERS_CONFIG, ('{"cases":[{"external":true,"nodes":[],"origins":[1,0,768],"prefixes":[],"starts":[],"statement":1,"steps":[]}],'
       '"version":1}')],
     BAD_INPUT, "propane: evidence 3 number origins\n"),
    ("a bit past the length", ["check"],
     [TWO_ROUTERS, ANY_PATH, TWO_ROUTERS_CONFIG, ('{"cases":[{"external":true,"nodes":[],"origins":[],"prefixes":["10.0.1.1/24"],"starts":[],"statement":1,'
       '"steps":[]}],"version":1}')],
     BAD_INPUT, "propane: evidence 2 shape prefixes\n"),
    ("starts in an object", ["check"],
     [TWO_ROUTERS, ANY_PATH, TWO_ROUTERS_CONFIG, '{"cases":[{"external":true,"nodes":[],"origins":[],"prefixes":[],"starts":{},"statement":1,"steps":[]}],"version":1}'],
     BAD_INPUT, "propane: evidence 2 shape starts\n"),
    ("a text for the statement", ["check"],
     [TWO_ROUTERS, ANY_PATH, TWO_ROUTERS_CONFIG, '{"cases":[{"external":true,"nodes":[],"origins":[],"prefixes":[],"starts":[],"statement":"1","steps":[]}],"version":1}'],
     BAD_INPUT, "propane: evidence 2 shape statement\n"),
    ("a step of one node", ["check"],
     [TWO_ROUTERS, ANY_PATH, TWO_ROUTERS_CONFIG, ('{"cases":[{"external":true,"nodes":[[0,0,0,100,64512,1]],"origins":[],"prefixes":[],"starts":[],"statement":1,'
       '"steps":[[0]]}],"version":1}')],
     BAD_INPUT, "propane: evidence 2 shape steps\n"),
    ("a text for the version", ["check"],
     [TWO_ROUTERS, ANY_PATH, TWO_ROUTERS_CONFIG, '{"cases":[{"external":true,"nodes":[],"origins":[],"prefixes":[],"starts":[],"statement":1,"steps":[]}],"version":"1"}'],
     BAD_INPUT, "propane: evidence 2 shape version\n"),
    ("a shape behind a number", ["check"],
     [TWO_ROUTERS, ANY_PATH, TWO_ROUTERS_CONFIG, ('{"cases":[{"external":true,"nodes":[[768,0,0,0,0,0]],"origins":[],"prefixes":[],"starts":[],"statement":1,'
       '"steps":0}],"version":1}')],
     BAD_INPUT, "propane: evidence 2 shape steps\n"),
    ("a location past 767", ["check"],
     [TWO_ROUTERS, ANY_PATH, TWO_ROUTERS_CONFIG, ('{"cases":[{"external":true,"nodes":[[768,0,0,0,0,0]],"origins":[],"prefixes":[],"starts":[],"statement":1,'
       '"steps":[]}],"version":1}')],
     BAD_INPUT, "propane: evidence 3 number nodes\n"),
    ("a listener mark over 1", ["check"],
     [TWO_ROUTERS, ANY_PATH, TWO_ROUTERS_CONFIG, ('{"cases":[{"external":true,"nodes":[[0,2,0,0,0,0]],"origins":[],"prefixes":[],"starts":[],"statement":1,'
       '"steps":[]}],"version":1}')],
     BAD_INPUT, "propane: evidence 3 number nodes\n"),
    ("a start of 33 bits", ["check"],
     [TWO_ROUTERS, ANY_PATH, TWO_ROUTERS_CONFIG, ('{"cases":[{"external":true,"nodes":[[0,0,0,100,64512,1]],"origins":[],"prefixes":[],"starts":[4294967296],'
       '"statement":1,"steps":[]}],"version":1}')],
     BAD_INPUT, "propane: evidence 3 number starts\n"),
    ("statement 0", ["check"],
     [TWO_ROUTERS, ANY_PATH, TWO_ROUTERS_CONFIG, '{"cases":[{"external":true,"nodes":[],"origins":[],"prefixes":[],"starts":[],"statement":0,"steps":[]}],"version":1}'],
     BAD_INPUT, "propane: evidence 3 number statement\n"),
    ("a step that isn't whole", ["check"],
     [TWO_ROUTERS, ANY_PATH, TWO_ROUTERS_CONFIG, ('{"cases":[{"external":true,"nodes":[[0,0,0,100,64512,1]],"origins":[],"prefixes":[],"starts":[1],"statement":1,'
       '"steps":[[0,0.0]]}],"version":1}')],
     BAD_INPUT, "propane: evidence 3 number steps\n"),
    ("a start past the list", ["check"],
     [TWO_ROUTERS, ANY_PATH, TWO_ROUTERS_CONFIG, ('{"cases":[{"external":true,"nodes":[[0,0,0,100,64512,1]],"origins":[],"prefixes":[],"starts":[4294967295],'
       '"statement":1,"steps":[]}],"version":1}')],
     BAD_INPUT, "propane: evidence 4 place\n"),
    ("a step past the list", ["check"],
     [TWO_ROUTERS, ANY_PATH, TWO_ROUTERS_CONFIG, ('{"cases":[{"external":true,"nodes":[[0,0,0,100,64512,1]],"origins":[],"prefixes":[],"starts":[],"statement":1,'
       '"steps":[[0,1]]}],"version":1}')],
     BAD_INPUT, "propane: evidence 4 place\n"),
    ("a place and another version", ["check"],
     [TWO_ROUTERS, ANY_PATH, TWO_ROUTERS_CONFIG, ('{"cases":[{"external":true,"nodes":[[0,0,0,100,64512,1]],"origins":[],"prefixes":[],"starts":[1],"statement":1,'
       '"steps":[]}],"version":2}')],
     BAD_INPUT, "propane: evidence 4 place\n"),
    ("another version", ["check"],
     [TWO_ROUTERS, ANY_PATH, TWO_ROUTERS_CONFIG, ('{"cases":[{"external":true,"nodes":[[0,0,0,100,64512,1]],"origins":[],"prefixes":[],"starts":[0],"statement":1,'
       '"steps":[]}],"version":2}')],
     BAD_INPUT, "propane: evidence 5 version\n"),
]
