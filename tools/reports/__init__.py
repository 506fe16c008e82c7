"""The reports that the program writes, as JSON and back: docs/JSON.md.

    forms      each line that a report may have, by command
    lines      one form of a line: what it reads and writes
    document   a whole report: its lines, and those that stand below another
"""
