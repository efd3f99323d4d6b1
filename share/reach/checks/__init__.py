"""What share/reach/check asks.

- `questions`: those of examples/reach/questions, and each witness with the program.
- `walks`: random walks against the kept states. `filewalks`: walks that change files, against the
  bounds. `boxes`: the bounds against the search.
- `chance`: scripts that are made at random. `scripts`: those of cases/ and examples/.
- `planted`: mistakes, each of which the walks must find.
- `graphs`, `hostile`, `pages`: the counts of the graphs, bad inputs, what the pages show.
"""
