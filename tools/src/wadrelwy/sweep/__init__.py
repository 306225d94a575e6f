"""Many runs at once: programs under descriptions under settings, and what came of them. The command `sweep` beside this file says how to
ask; the modules are

    settings   a description with other values
    kept       copies of what the runs are made of, by names that tell what they have
    plan       which runs there are, and where each result stands
    running    all checked before the first run; and the runs, as many at once as there are processors
    lists      the runs as commands for other machines
    results    what came of them: rows, CSV, JSON, means
    plots      bars and curves as SVG
"""
