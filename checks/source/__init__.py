"""One reader of the sources, for the checks of checks/ that compare what is written with what is there.

- tokens: the signs of a text in Rattle, of which brackets, strings and comments are known
- rattle: a file of Rattle, with its functions, types, imports and modules
- antt: a file of specs/ or proofs/, with its declarations and imports
- tree: crates.txt, and the files of the crates
- pages: pages, with their blocks, what is typed in these, tables, links and parts that are printed
- promises: the promises above calls, and which of them each test shows
- findings: how a check says what is wrong

A check that stands on these is a file of checks/ that can be read by itself. checks/source/test tries the reader on odd sources.
"""
