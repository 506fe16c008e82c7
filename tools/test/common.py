"""What the tests of the scripts share."""
import importlib.machinery
import importlib.util
import os
import subprocess

os.environ.pop("PROPANE_HINTS", None)  # a test says itself whether there are words for people
TOP = os.path.dirname(os.path.dirname(os.path.dirname(os.path.abspath(__file__))))
PROGRAM = os.path.abspath(os.environ.get("PROGRAM", os.path.join(TOP, "crates", "propane_cli", "out", "propane_cli")))


def example_folders():
    """The folders of examples/."""
    folders = os.path.join(TOP, "examples")
    return [name for name in sorted(os.listdir(folders)) if os.path.isdir(os.path.join(folders, name))]


def tool(name):
    """A script of tools/ as a module."""
    loader = importlib.machinery.SourceFileLoader(name, os.path.join(TOP, "tools", name))
    module = importlib.util.module_from_spec(importlib.util.spec_from_loader(name, loader))
    loader.exec_module(module)
    return module


def ended(words, **how):
    """How a run ends: its status, and what it wrote to its outputs."""
    how = {"stdin": subprocess.DEVNULL, "stdout": subprocess.PIPE, "stderr": subprocess.PIPE, "text": True, "timeout": 120} | how
    ran = subprocess.run(words, **how)
    return ran.returncode, ran.stdout, ran.stderr
