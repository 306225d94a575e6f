"""What is counted of a core's run by stt_stats, and what follows from the counts.

    numbers     the names, the figures that are reckoned from them, gem5's names, and the program's text read
    asked       one run, of files that are told by their digests
    texts       it as lines, and as JSON
    over_time   it as curves over the cycles (SVG)
"""
