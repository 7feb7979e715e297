"""The subcommands of `./mc`, a module each."""
