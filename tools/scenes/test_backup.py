"""The example of a backup, dist/examples/backup.sh, over nights that end well and badly."""

import os
import pathlib
import re

from scene import ROOT, TOOL, Scene, parts, read, write

SCRIPT = ROOT / "dist/examples/backup.sh"
# With TAR_STATUS this one writes the day, and ends so. Otherwise the system's runs.
TAR = '#!/bin/sh\nif [ "$TAR_STATUS" ]; then echo "$TODAY"; exit "$TAR_STATUS"; fi\nexec /usr/bin/env PATH=/usr/bin:/bin tar "$@"\n'


class Backup(Scene):
    def setUp(self):
        super().setUp()
        os.mkdir("bin")
        os.mkdir("store")
        os.symlink(os.path.abspath(TOOL), "bin/hunkravy")
        for name, program in ("tar", TAR), ("date", '#!/bin/sh\n[ "$1" = +%F ] && echo "$TODAY"\n'):
            os.chmod(write(f"bin/{name}", program), 0o700)

    def night(self, day, tar, status, says=(), lacks=None, **settings):
        """Runs the backup on a day, with a tar that ends with a status, or with the system's."""
        path = f"{os.getcwd()}/bin:/usr/bin:/bin"
        environment = {"PATH": path, "TODAY": day, "TAR_STATUS": str(tar), **settings}
        self.tool(status, ["bash", SCRIPT, "key", "store", f"{os.getcwd()}/small"], says, lacks, env=environment)

    def stored(self):
        """The days whose backups open, each to its day. Nothing else is in the folder."""
        names = sorted(set(os.listdir("store")) - {"backup.lock", "backup.checked"})
        days = [re.fullmatch(r"backup-(.*)\.sealed", name)[1] for name in names]
        for day, name in zip(days, names):
            self.opens(f"store/{name}", f"{day}\n".encode())
        return days

    # The second night fails, and leaves what a kill leaves too. tar warns in the third.
    def test_four_nights(self):
        self.night("2026-03-30", 0, 0, lacks=".")
        self.night("2026-03-31", 2, 1, "no backup today")
        self.assertEqual(self.stored(), ["2026-03-30"])
        for left in "backup.part", ".backup.part.hunkravy-0123456789abcdef":
            write(f"store/{left}", b"half")
        self.night("2026-04-01", 1, 0, lacks=".")
        self.night("2026-04-02", 0, 0, lacks=".")
        self.assertEqual(self.stored(), ["2026-03-30", "2026-04-01", "2026-04-02"])
        self.assertEqual(os.stat("store/backup-2026-04-02.sealed").st_mode & 0o777, 0o600)

    # Wrong words, a key that cannot be read, a second run of a day, and one beside another.
    def test_failures(self):
        self.tool(2, ["bash", SCRIPT, "key", "store"], "usage: backup.sh KEY STORE PATH..")
        self.tool(2, ["bash", SCRIPT, "key", "store", "docs"], "not an absolute path: docs")
        self.tool(1, ["bash", SCRIPT, "key", "none", "/small"], "none: No such file or directory")
        os.symlink("small", "link")
        for link in "link", "link/", "link//":
            self.tool(2, ["bash", SCRIPT, "key", "store", f"{os.getcwd()}/{link}"], "is a link: give its target")
        for folder in "/", os.getcwd(), f"{os.getcwd()}/store/":
            self.tool(2, ["bash", SCRIPT, "key", "store", folder], r"contains /.*/store$")
        for keep in "some", "-1", "010", "08", "18446744073709551617":
            self.night("2026-04-01", 0, 2, f"KEEP must be a number such as 30, not {keep}", KEEP=keep)
        self.night("2026-04-01", 0, 0, lacks=".")
        os.rename("key", "gone")
        self.night("2026-04-01", 0, 1, ["the key cannot be read", "no backup today"])
        os.rename("gone", "key")
        self.assertEqual(self.stored(), ["2026-04-01"])
        self.night("2026-04-01", 0, 0, lacks=".")
        self.shell(0, "exec 9> store/backup.lock; flock 9; "
            f"PATH=$PWD/bin:$PATH TODAY=2026-04-02 bash {SCRIPT} key store /small; [ $? = 1 ]", r"another run uses /.*/store$")
        self.assertEqual(self.stored(), ["2026-04-01"])

    # The first night of a month finds what is damaged, and so does each night until it is gone.
    def test_checks_each_month(self):
        self.night("2026-04-29", 0, 0)
        self.night("2026-04-30", 0, 0)
        pathlib.Path("store/backup-2026-04-29.sealed").write_bytes(b"damaged")
        self.night("2026-04-30", 0, 0, lacks=".")
        # As a run leaves it that is interrupted before it has verified them.
        pathlib.Path("store/backup-2026-05-01.sealed").write_bytes(read("store/backup-2026-04-30.sealed"))
        for day in "2026-05-02", "2026-05-03":
            self.night(day, 0, 1, "backup-2026-04-29.sealed is not a sealed file|backup-2026-04-29.sealed is truncated")
        os.remove("store/backup-2026-04-29.sealed")
        self.night("2026-05-04", 0, 0, lacks=".")
        pathlib.Path("store/backup-2026-05-02.sealed").write_bytes(b"damaged")
        self.night("2026-05-05", 0, 0, lacks=".")

    # Otherwise the backup of the night would be the oldest one.
    def test_a_clock_that_is_behind(self):
        self.night("2026-04-01", 0, 0, lacks=".")
        self.night("1970-01-01", 0, 1, ["no backup today", "the clock is behind"], KEEP="1")
        self.assertEqual(self.stored(), ["2026-04-01"])

    def test_removes_old_ones(self):
        for day in range(10, 16):
            self.night(f"2026-04-{day}", 0, 0, KEEP="3")
        self.assertEqual(self.stored(), ["2026-04-13", "2026-04-14", "2026-04-15"])
        others = ["backup-1999-my-02.sealed", "backup-of-mine.sealed", "backup-zeta-01-02.sealed"]
        for name in others:
            write(f"store/{name}", b"")
        self.night("2026-04-16", 0, 0, KEEP="1")
        self.assertEqual(set(os.listdir("store")), {"backup-2026-04-16.sealed", "backup.checked", "backup.lock", *others})

    # The system's tar, whose archive has the file at its path, whatever tar's variables say.
    def test_restores(self):
        self.night("2026-04-01", "", 0, lacks=".", TAPE=f"{os.getcwd()}/tape", TAR_OPTIONS="--exclude=small")
        os.mkdir("restored")
        self.shell(0, "set -o pipefail; $TOOL open -k key store/backup-2026-04-01.sealed - | tar -xf - -C restored")
        self.is_same(f"restored{os.getcwd()}/small", "small")
        self.assertEqual(parts(), [])

    # The page shows the whole of it, without the comments at its beginning.
    def test_page(self):
        script = SCRIPT.read_text()
        self.assertIn(script[script.index("set -euo") :], read(ROOT / "docs/SEALED-FILES.md").decode())
