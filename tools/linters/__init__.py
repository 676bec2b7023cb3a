"""The linters of Debian 12 over what is no Rattle: Python, shell, the teller's page, the front's settings and the units."""
