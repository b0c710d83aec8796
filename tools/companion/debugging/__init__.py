"""A prompt over the program's `debug`: the commands so far are carried out again each time, from power-on."""
