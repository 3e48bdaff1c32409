"""The kit's command as a module of Python."""

import sys
from importlib.machinery import SourceFileLoader
from importlib.util import module_from_spec, spec_from_loader


def kit_command(kit):
    """The kit's command as a module."""
    sys.dont_write_bytecode = True
    sys.path.insert(0, f"{kit}/bin")
    loader = SourceFileLoader("rt", f"{kit}/bin/rt")
    command = module_from_spec(spec_from_loader("rt", loader))
    loader.exec_module(command)
    command.rtlib.Crate = command.Crate
    return command
