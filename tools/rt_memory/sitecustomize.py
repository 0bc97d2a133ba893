"""Has the kit's command rt keep what it finds out about a crate, for as long as it runs.

rt asks what stands below a crate, and for the sum of its files and those below, along every path that crates.txt has down from it: some
five million paths here, which is long for what takes a second where each crate is asked once. `.ci/run` names this folder in
PYTHONPATH, and so does `./sqla` where it builds, so that python reads this file first. Nothing that rt decides changes: both answers
follow from files that nothing writes while rt runs.
"""
import importlib.machinery

KEPT = ("below", "stamp")
run_module = importlib.machinery.SourceFileLoader.exec_module


def keep(crate, name):
    """Has the class of crates answer a method without arguments once for each crate, which its folder names."""
    ask, kept = getattr(crate, name), {}

    def answer(self):
        if self.folder not in kept:
            kept[self.folder] = ask(self)
        found = kept[self.folder]
        return list(found) if isinstance(found, list) else found

    setattr(crate, name, answer)


def exec_module(loader, module):
    run_module(loader, module)
    crate = getattr(module, "Crate", None)
    if module.__name__ == "rtlib" and crate is not None:
        for name in KEPT:
            if name in vars(crate):
                keep(crate, name)


importlib.machinery.SourceFileLoader.exec_module = exec_module
