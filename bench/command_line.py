"""The command line of a script in this folder."""
import argparse


class Parser(argparse.ArgumentParser):
    """A parser whose help is the text at the top of the script."""

    def __init__(self, name, text):
        super().__init__(name)
        self.text = text

    def format_help(self):
        return self.text


def number_up_to(greatest):
    """The type of an argument that is a number from 1 to this one."""
    def parsed_number(word):
        if not 1 <= int(word) <= greatest:
            raise ValueError(word)
        return int(word)

    return parsed_number
