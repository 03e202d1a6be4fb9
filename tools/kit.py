"""The Rattle kit's command rt, which is a Python file, as a module: its crates, its checks and its builds. RT is rt's command, if not rt."""
import importlib.machinery
import importlib.util
import os
import pathlib
import shutil
import sys


def load_rt():
    """Loads rt as a module."""
    path = os.path.realpath(shutil.which(os.environ.get("RT", "rt").split()[-1]))
    loader = importlib.machinery.SourceFileLoader("rt", path)
    rt = importlib.util.module_from_spec(importlib.util.spec_from_loader("rt", loader))
    sys.modules["rt"] = rt
    loader.exec_module(rt)
    return rt


RT = load_rt()
# what names the logic of this kit: kits of one logic give the same verdict on an edit
LOGIC = pathlib.Path(RT.KIT, "KIT-ID").read_text().partition("logic")[2].strip()
