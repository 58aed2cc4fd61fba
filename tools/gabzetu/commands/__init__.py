"""The commands, a module each: SUMMARY, add_arguments(parser), run(arguments) -> the exit status."""
