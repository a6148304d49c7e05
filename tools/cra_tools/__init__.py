"""What the tools beside the program share: the language, runs, reports, and how they are shown."""
