"""Cycles of a long run from short windows of it. The command `sample` beside this package says how to ask; the modules are

    places        which windows: one in each of as many equal parts of the run
    chain         the images that begin before them, each made of the one before
    side_by_side  a run's places in two parts, each with a chain of its own
    touching      what an image does first, so that its caches aren't empty
    measuring     what a window takes: the only module that knows how a core's run is looked at
    planned       all windows under all descriptions as a plan of the module `sweep`, and the question that they are of
    changes       where the run changes its level, by windows and further ones between them
    refining      those further windows in the plan
    estimate      the mean over the windows, its interval, and what the cold start adds

No theorem ties an estimate to a run.
"""
