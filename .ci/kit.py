"""The kit's command `rt` as a module, for the programs beside this file that ask it what it knows of crates, libraries and edits."""
import importlib.machinery, importlib.util, os, shutil, sys


def kit(top):
    """`rt`, asked for the checkout `top`, as its gate asks it."""
    path = os.path.realpath(shutil.which("rt") or sys.exit("there is no command rt"))
    loader = importlib.machinery.SourceFileLoader("kit_rt", path)
    module = importlib.util.module_from_spec(importlib.util.spec_from_loader(loader.name, loader))
    loader.exec_module(module)
    module.Crate.allowed = module.handles_of(top)
    module.Crate.cuts_libraries = True
    module.rtlib.Crate = module.Crate
    module.rtlib.guarded()
    return module
