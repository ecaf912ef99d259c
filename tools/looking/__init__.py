"""What the tools share: the program, the language, the lines of a trace, a run that is followed, and the page that shows it."""
