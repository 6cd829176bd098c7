"""The commands that systemd runs for a unit, as a script for sh: with ROOT before each folder, NAME for the instance,
the umask of the unit, and its variables as the environment has them. BOOT is the ID of the boot.

    tests/around/unit.py UNIT ROOT NAME
"""
import re
import sys

unit, root, name = sys.argv[1:]
words = {"%t": root + "/run", "%S": root + "/lib", "%L": root + "/log", "%i": name, "%%": "%", "$$": "$",
         "%b": "${BOOT:-a-boot}"}
text = open(unit).read().replace("\\\n", "")


def setting_commands(setting):
    """The commands of a setting, in their order."""
    for command in re.findall(rf"^{setting}=(.*)$", text, re.MULTILINE):
        yield re.sub(r"%.|\$\$", lambda word_match: words[word_match[0]], command)


print("umask", re.search(r"^UMask=(.*)$", text, re.MULTILINE)[1])
# a signal to all its processes, as systemd sends it, ends those of the start first
print("trap exit TERM")
for command in setting_commands("ExecStart(?:Pre)?"):
    print(command, "|| exit")
