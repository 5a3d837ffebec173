"""Stores of given files, on which a built program is run: one folder for each thread, so that many are opened beside one another."""
import os
import threading

HOMES = threading.local()


class Stores:
    """Stores of these files in folders, one for each thread."""

    def __init__(self, program):
        self.program, self.count, self.lock = program, 0, threading.Lock()

    def folder(self):
        if getattr(HOMES, "of", None) is not self:
            with self.lock:
                HOMES.of, HOMES.name, self.count = self, f"store{self.count}", self.count + 1
            os.mkdir(self.program.at(HOMES.name))
        return HOMES.name

    def open(self, files, script, **given):
        """What a run of a script over a store of these files prints, its status, and whether the files are as they were."""
        return self.ask(files, "run", self.program.put(f"{self.folder()}-script", script), **given)

    def ask(self, files, word, *words, **given):
        """The same of another command."""
        folder = self.folder()
        for name in os.listdir(self.program.at(folder)):
            os.remove(self.program.at(folder, name))
        for name, content in files.items():
            self.program.put(os.path.join(folder, name), content)
        printed = self.program.run(word, folder, *words, **given)
        return *printed, self.files(folder) == files

    def files(self, folder):
        found = {}
        for name in os.listdir(self.program.at(folder)):
            with open(self.program.at(folder, name), "rb") as file:
                found[name] = file.read()
        return found

    def check(self, **given):
        """What a check of the store that was opened last prints, and its status."""
        return self.program.run("check", self.folder(), **given)

    def dump(self, file, **given):
        """What is printed of a hive's file by itself, and the status."""
        return self.program.run("dump", self.program.put(f"{self.folder()}-file", file), **given)
