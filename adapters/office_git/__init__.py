"""Zones of an office in a git repository: what adapters/office-git is made of."""
