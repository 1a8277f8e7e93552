"""What the archive asks of a host: memcpy and memset, and nothing else."""

import subprocess

from desk import build
from outside import Outside

# One name of each part, so that the linker takes all five.
ENTRIES = ["tg18_run_script", "tg18_lent_read", "tg18_lent_continue_script", "tg18_lent_save", "tg18_lent_resume"]


class Archive(Outside):
    def run_tool(self, tool, *words):
        command = [build.Kit().tool(tool), *map(str, words)]
        done = subprocess.run(command, cwd=build.ROOT, stdout=subprocess.PIPE, stderr=subprocess.STDOUT)
        self.assertEqual(done.returncode, 0, done.stdout.decode())

    def test_asks_for_two_names(self):
        host = self.folder / "bare.o"
        self.run_tool("clang", *build.COMPILE, "-std=c11", "host/tests/bare.c", "-o", host)
        taken = [word for name in ENTRIES for word in ("-u", name)]
        self.run_tool("ld.lld", "-static", "-e", "bare", *taken, host, build.ARCHIVE, "-o", self.folder / "bare")
