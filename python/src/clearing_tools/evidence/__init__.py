"""Evidence of a result, which others can check. On purpose its modules import little, so that each may be judged alone:
what a check of an evidence runs reads and runs files by `clearing_tools.files` and `clearing_tools.runner`, and has
nothing else of the package; `audit`, which follows a journal, imports nothing at all, and `shock` has those two,
`audit` and `bounds`. None shares code with the program. `making` alone reads cases, as all tools read them. The list of
what each module may import is `ALONE` in `tools/dev/imports.py`, which refuses any other."""
