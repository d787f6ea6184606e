"""The command line `pads`: pads of a server, from a terminal and from scripts."""
