"""What a line of the program means, in words: refusals, stop lines and verdicts, with the place in the file and the likely mistake."""
