"""Images that go on where a run of the instruction set stands."""
