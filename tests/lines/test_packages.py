"""Which packages of contrib/ import which others. All of their `import` lines count, also those in functions."""
import ast
import pathlib
import re
import unittest

CONTRIB = pathlib.Path(__file__).parents[2] / "contrib"
# Of the bridge, Modbus server and site import some modules, and other packages a single one. Of the command, the
# building imports two, and Modbus server and site one.
BRIDGE_MODULES_OF_SITE = ("bridge", "connection", "devices", "log", "main", "orders", "reconcile", "requests",
                          "settings", "state", "store", "topics", "wake")
ALLOWED_IMPORTS = {
    ("enogate_lines", "enogate_tools"), ("enogate_building", "enogate_tools"),
    ("enogate_building", "enogate_ctl.sheet"), ("enogate_building", "enogate_ctl.stops"),
    ("enogate_mqtt", "enogate_lines"), ("enogate_mqtt", "enogate_tools"),
    ("enogate_ctl", "enogate_lines"), ("enogate_ctl", "enogate_tools"), ("enogate_ctl", "enogate_mqtt.state"),
    ("enogate_report", "enogate_ctl"), ("enogate_report", "enogate_lines"), ("enogate_report", "enogate_tools"),
    ("enogate_metrics", "enogate_ctl"), ("enogate_metrics", "enogate_lines"), ("enogate_metrics", "enogate_tools"),
    ("enogate_metrics", "enogate_mqtt.state"),
    ("enogate_modbus", "enogate_ctl.sheet"), ("enogate_modbus", "enogate_lines"), ("enogate_modbus", "enogate_tools"),
    *(("enogate_modbus", f"enogate_mqtt.{module}")
      for module in ("connection", "log", "main", "orders", "settings", "state", "topics")),
    ("enogate_site", "enogate_lines"), ("enogate_site", "enogate_tools"), ("enogate_site", "enogate_ctl.grammar"),
    *(("enogate_site", f"enogate_mqtt.{module}") for module in BRIDGE_MODULES_OF_SITE),
}


def imported_modules(path):
    """The modules that a file imports by their full names."""
    for node in ast.walk(ast.parse(path.read_text("utf-8"))):
        if isinstance(node, ast.Import):
            yield from (name.name for name in node.names)
        elif isinstance(node, ast.ImportFrom) and not node.level:
            # each name may be that of a module
            yield from (f"{node.module}.{name.name}" for name in node.names)


def import_edge(package, module):
    """A package and the package that it imports; of the bridge, and for some packages of the command, the module."""
    module_parts = module.split(".")
    has_modules = module_parts[0] == "enogate_mqtt" or (
        module_parts[0] == "enogate_ctl" and package in ("enogate_building", "enogate_modbus", "enogate_site"))
    return package, ".".join(module_parts[:2] if has_modules else module_parts[:1])


def quoted_names(text):
    """The names in backquotes of a text."""
    return set(re.findall("`([^`]+)`", text))


def names_in_first_cells(table):
    """The names in the first cells of a table."""
    return quoted_names(" ".join(line.split("|")[1] for line in table.split("\n") if line.startswith("| `")))


class PackageImports(unittest.TestCase):
    def test_edges(self):
        edges = {import_edge(path.parent.name, module)
                 for path in CONTRIB.glob("enogate_*/*.py") for module in imported_modules(path)
                 if module.startswith("enogate_") and not module.startswith(f"{path.parent.name}.")}
        self.assertEqual(edges, ALLOWED_IMPORTS)

    def test_the_map_names_each_module(self):
        page = (CONTRIB / "README.md").read_text("utf-8")
        python, page_modules = page.split("## The page")
        for package in CONTRIB.glob("enogate_*"):
            table = python.split(f"| `{package.name}` |")[1].split("\n\n")[0]
            self.assertEqual(names_in_first_cells(table), {path.stem for path in package.glob("*.py")} - {"__init__"})
        scripts = {path.stem for path in (CONTRIB / "cockpit/enogate").glob("*.js")} - {"tables"}
        self.assertEqual(names_in_first_cells(page_modules.split("|---|---|")[1]), scripts)
        self.assertLessEqual({path.name for path in (CONTRIB / "share").iterdir()}, quoted_names(page))


if __name__ == "__main__":
    unittest.main()
