"""Labs: the files of a network, with what FRRouting said of it beside them.

A lab is a folder. Its configuration files are those in it that end in `.cfg`, or those of another folder, which its file
`lab.json` names by `network`; `about` there says what the lab singles out, and `via_default` lets FRRouting reach next hops by
a default route. Beside them stand `tables.json`, which run_lab writes, and `differences`.
"""
import json
import os

from network import join
from reading import Fault, read_file
from texts import lines_of

STORED = os.path.join(os.path.dirname(os.path.abspath(__file__)), "labs")
OPTIONS = {"about": str, "network": str, "via_default": bool}


class LabFault(Exception):
    """What is wrong with a lab, in words."""


def folder_of(name):
    """The folder of a lab, by its path or by its name among those that are stored."""
    for folder in (name, os.path.join(STORED, name)):
        if os.path.isdir(folder):
            return folder
    raise LabFault(f"{name}: no such lab")


def stored():
    """The folders of all labs that are stored, in order of their names."""
    return [os.path.join(STORED, name) for name in sorted(os.listdir(STORED)) if os.path.isdir(os.path.join(STORED, name))]


def read_json(path):
    """What a file has, as JSON; LabFault where it isn't there or isn't JSON."""
    try:
        with open(path, encoding="utf-8") as file:
            return json.load(file)
    except (OSError, ValueError) as fault:
        raise LabFault(f"{path}: {fault}") from None


def options_of(folder):
    """What the lab's own file says, or nothing."""
    path = os.path.join(folder, "lab.json")
    options = read_json(path) if os.path.exists(path) else {}
    if not isinstance(options, dict) or any(not isinstance(value, OPTIONS.get(key, ())) for key, value in options.items()):
        raise LabFault(f"{path}: its keys are about, a text, network, the name of a folder, and via_default, true or false")
    return options


def files_of(folder):
    """The configuration files of a lab, in order of their names."""
    place = os.path.normpath(os.path.join(folder, options_of(folder).get("network", ".")))
    files = sorted(name for name in (os.listdir(place) if os.path.isdir(place) else []) if name.endswith(".cfg"))
    if not files:
        raise LabFault(f"{folder}: no configuration files in {place}")
    return [os.path.join(place, name) for name in files]


def read_one(path):
    with open(path, "rb") as file:
        try:
            return read_file(lines_of(file.read()))
        except Fault as fault:
            raise LabFault(f"{path}: line {fault.args[0]} is refused: {fault.args[1].decode()}") from None


class Lab:
    """The files of a lab, read, and what stands beside them."""

    def __init__(self, folder):
        self.name = os.path.basename(os.path.normpath(folder))
        self.folder, self.files = folder, files_of(folder)
        self.about, self.via_default = options_of(folder).get("about", ""), options_of(folder).get("via_default", False)
        self.routers = [read_one(path) for path in self.files]
        self.names = [config["name"].decode() for config in self.routers]
        fault = join(self.routers)
        if fault:
            raise LabFault(f"{folder}: the files don't go together: {fault[-1].decode()}")

    def tables(self):
        """What FRRouting said of the lab, as run_lab wrote it."""
        kept = read_json(self.beside("tables.json"))
        if not isinstance(kept, dict) or not {"frr", "translation", "stable", "routers", "probes"} <= set(kept):
            raise LabFault(f"{self.beside('tables.json')}: not what run_lab writes")
        if sorted(kept["routers"]) != sorted(self.names):
            raise LabFault(f"{self.beside('tables.json')}: of other routers than the files")
        return kept

    def beside(self, name):
        """The path of what stands beside the files."""
        return os.path.join(self.folder, name)
