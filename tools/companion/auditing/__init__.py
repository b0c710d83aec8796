"""What a trace is judged by: the lines of a trace, chips on the bus, the processor's steps, and the run that a trace dictates."""
