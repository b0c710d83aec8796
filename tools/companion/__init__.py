"""What several of the companions need: their command lines, calls of the program, instructions, descriptions and names."""
