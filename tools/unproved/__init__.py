"""Builds the program, and the tests of crates, from the sources as they are and without a proof: what tools/try, tools/check and tools/demo share.

`rt try` compiles sources that nobody proved. It has its compiler add checks to them: of indices, sums, casts, alignments and memory, and a fill of each local
variable. Then it runs the program, which is some hundred times slower than a proved one. The proved program has none of these checks, because a proof says that
none can fail. So this package has `rt try` translate the sources, takes what it gives to its compiler, removes just the checks, and compiles the rest as the
kit compiles a proved program. Nothing of the sources is left out or changed, but that `--version` of the program says `(unproved)`. What a proof would
refuse runs unseen: an index that is wrong reads some other memory.

    sources.py    which files a build is made of, their sum, and a copy of them
    kit.py        has `rt try` translate a crate, and catches what it gives to its compiler
    native.py     removes the checks, compiles and links
    checked.py    the program as `rt try` itself builds it
    steps.py      tells which step runs, and how long it took
    builds.py     what is kept between builds
"""
