"""May two images differ, and do they? The command `verdict` beside this file says what the modules are for."""
