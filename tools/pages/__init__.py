"""Comparisons of pages, of the interface's file and of the sample's lists with the repository and the built program."""
