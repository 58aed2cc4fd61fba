"""The tests of tools/files, one module each, over the bench that runs the program."""
