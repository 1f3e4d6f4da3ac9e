"""Scripts of this repository as modules: their names have no `.py`, so `import` does not find them."""
from importlib.machinery import SourceFileLoader
from importlib.util import module_from_spec, spec_from_loader


def script(path):
    """The script at a path."""
    loader = SourceFileLoader(path.name.replace("-", "_"), str(path))
    module = module_from_spec(spec_from_loader(loader.name, loader))
    loader.exec_module(module)
    return module
