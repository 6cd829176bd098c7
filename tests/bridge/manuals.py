"""The files that units use, and those that manual pages name."""
import pathlib
import re

CONTRIB = pathlib.Path(__file__).parents[2] / "contrib"


def paths_of_unit(program: str) -> list[str]:
    """The settings, the password and the state that the unit of a program uses."""
    unit = (CONTRIB / f"{program}@.service").read_text()
    folders = (("EnvironmentFile=-?", ""), ("LoadCredential=password:", "/etc/credstore/"),
               (r"ExecStart=.* --(?:map|state) %S/", "/var/lib/"))
    return [folder + path.replace("%i", "NAME") for pattern, folder in folders
            for path in re.findall(rf"^{pattern}(\S+)", unit, re.MULTILINE)]


def paths_in_manual(program: str) -> list[str]:
    """The files in the section FILES of a manual page."""
    files = manual(program).split("\n.SH FILES\n")[1].split("\n.SH ")[0]
    return re.findall(r"^\.I (\S+)$", files, re.MULTILINE)


def manual(program: str) -> str:
    """A manual page, without the escapes of its hyphens."""
    return (CONTRIB / f"{program}.1").read_text().replace("\\-", "-")


def settings_files_in(text: str) -> set[str]:
    """The files of settings that a text names, with NAME in place of the name of the guide."""
    return {re.sub("-(hall|campus)$", "-NAME", path.rstrip("."))
            for path in re.findall(r"/etc/default/enogate[.\w-]*", text)}
