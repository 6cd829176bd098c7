"""The lines of a gateway, for the programs that read them: their contents, the file that has them, and the entities of
Home Assistant that show their readings."""
