"""From a script or a report to one page: rows of tasks and of slots, entries from left to right.

    script       a script: its report, the sets of its credentials, the sentences of credtrace-why
    report       the entries of a report, each compared with the form that docs/FORMATS.md gives it
    spans        what lasts from one entry to another: a current credential, a hold, an open file
    story        the entries one after another: which spans begin and end by each
    credentials  what a report tells of credentials, and which changes of sets can be seen from that
    slots        the lives of slots: which credential stood where, when it was given up and swept
    window       the part of all that the page shows, as lists that its script reads
    names        the names of capabilities and securebits, from share/capabilities
    page         the page: its skeleton, style, script and data in one file
    command      the command credtrace-draw
    browser      a browser that runs without a window, for check
    expected     what a page must have, for check
    script_checks    pages of scripts, for check
    page_checks  the page's script and pages in a browser, looked at for check
    check        compares the pages with their reports; where a browser is, they are looked at in it

The page's own files are page.html, page.css and the parts of its script, in this order: names,
model (the data as rows and spans), layout (where rows stand), text (what is said of an entry),
paint, slots and frame (the picture), view (place, width, pointing), list (refusals and changes of
sets), main (the controls).

No rule of credentials is known here: what the page shows is what entries say, and of a script what
credtrace-why says of them.
"""
