"""What the tests share: the tools as modules."""
import importlib.machinery, importlib.util, pathlib

ROOT = pathlib.Path(__file__).resolve().parent.parent


def load(path):
    """A script of the project as a module; importlib wants a loader by name where a file doesn't end in .py."""
    loader = importlib.machinery.SourceFileLoader(path.name, str(path))
    module = importlib.util.module_from_spec(importlib.util.spec_from_loader(path.name, loader))
    loader.exec_module(module)
    return module


tape = load(ROOT / "tools/tape")
walk = load(ROOT / "tools/walk")
