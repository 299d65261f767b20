"""What the tests of disk.py share."""
import os
import shutil

from tests.common import V6, Case, tool, write

disk_main = tool("disk").main
TO_READ = ": `check` tells all faults, and --damaged reads what is there"
BESIDE = "disk.py --pack is for disks that are mounted beside another"
DOUBTFUL = "neither its super-block nor its root directory is whole: it may be no disk of the Sixth Edition"


class Disks(Case):
    def disk(self, *words):
        return self.call(disk_main, "--v6", V6, *words)

    def done(self, *words):
        status, out, error = self.disk(*words)
        self.assertEqual((status, error), (0, ""))
        return out

    def refused(self, said, *words):
        self.assertEqual(self.disk(*words), (1, "", f"disk.py: {said}\n"))

    def folder_of(self, files):
        """A folder with these files: their bytes by their paths."""
        top = self.path("from")
        shutil.rmtree(top, ignore_errors=True)
        os.mkdir(top)
        for name, data in files.items():
            os.makedirs(os.path.dirname(os.path.join(top, name)), exist_ok=True)
            write(os.path.join(top, name), data)
        return top

    def new(self, files, *words):
        image = self.path("image")
        self.done("new", "--replace", *words, image, self.folder_of(files))
        return image
