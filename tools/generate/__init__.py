"""Images that numbers generate, as those that `bench` runs."""
