"""The scripts of this folder as modules, for their tests."""
import importlib.machinery
import importlib.util
import pathlib


def path_of(name):
    return pathlib.Path(__file__).resolve().parent / name


def load(name):
    loader = importlib.machinery.SourceFileLoader(name, str(path_of(name)))
    module = importlib.util.module_from_spec(importlib.util.spec_from_loader(name, loader))
    loader.exec_module(module)
    return module
