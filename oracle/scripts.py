"""Scripts without an ending as modules: those of the built oracle take one another so, and so does `compare`."""
from importlib.machinery import SourceFileLoader
from importlib.util import module_from_spec, spec_from_loader


def load(folder, name):
    loader = SourceFileLoader(name, folder + '/' + name)
    module = module_from_spec(spec_from_loader(name, loader))
    loader.exec_module(module)
    return module
