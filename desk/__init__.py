"""The planning desk's door to the proved program `lists`: job files in, lists that a person can read out.

Nothing here says hidden or visible, accepted or refused: that comes from the program. columns and utc say what a cell means, files and jobs turn a file into records, program runs `lists`,
words says its answers in words, and listing, ics, drawing and explaining show them. command is the command line.
"""
