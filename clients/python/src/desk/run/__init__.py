"""From a pattern's file to an answer in one line: the command `desk-run`."""
